#!/usr/bin/env python3
"""Measures the cubes of outer moves behind the last level and those of moves of the last level, and prints two Markdown
tables of their lengths and times.

    bench/cubes.py [PROGRAM]      PROGRAM: the built cube_bench (default: crates/cube_bench/out/cube_bench)

Texts are made from fixed seeds and moves are drawn by the program, so that two runs compare. The time of one cube is the
difference of two runs on one text, of which one judges more moves, or makes the cube of each move more often, by the cubes
that it makes more. Times are those of the processor (user and system).
"""

import os
import random
import statistics
import subprocess
import sys
from collections import namedtuple
from pathlib import Path

ROOT = Path(__file__).resolve().parent.parent

Family = namedtuple("Family", "name text one_in moves")

# How often more the cube of a move is made, for its time.
MORE = 10


def level(atoms, quantifier="exists"):
    return f"%@{quantifier}\n" + " ".join(f"{{{atom}}}." for atom in atoms) + "\n"


def xs(first, last):
    return [f"x({number})" for number in range(first, last + 1)]


def few_matter():
    """1,000 outer atoms, of which the constraints have three."""
    constraints = ":- x(1), x(2). :- x(2), not x(3). :- not x(1), x(2), x(3)."
    return level(xs(1, 1000)) + "%@constraint\n" + constraints + "\n"


def covering(seed, quantifier):
    """48 constraints of six literals over 200 atoms, half of which a level before chooses."""
    source = random.Random(f"covering {seed}")
    constraints = []
    for _ in range(48):
        literals = [("" if source.random() < 0.5 else "not ") + f"x({atom})" for atom in source.sample(range(1, 201), 6)]
        constraints.append(":- " + ", ".join(literals) + ".")
    return level(xs(1, 100)) + level(xs(101, 200), quantifier) + "%@constraint\n" + "\n".join(constraints) + "\n"


def colouring(nodes):
    """The constraints of a colouring with three colours, where edges are chosen too: three for each pair of nodes."""
    colours = ["red", "green", "blue"]
    choices = "{edge(X,Y)} :- node(X), node(Y).\n" + "".join(f"{{{colour}(X)}} :- node(X).\n" for colour in colours)
    constraints = [f":- edge(X,Y), {colour}(X), {colour}(Y)." for colour in colours]
    return f"%@exists\nnode(1..{nodes}).\n{choices}%@constraint\n" + "\n".join(constraints) + "\n"


def families():
    yield [Family("1,000 outer atoms, 3 of them in constraints", few_matter(), 2, 200)]
    for quantifier in ("forall", "exists"):
        texts = [Family(f"covering, last level `{quantifier}`", covering(seed, quantifier), 2, 20) for seed in range(10)]
        yield texts
    yield [Family("3 * 183 * 183 = 100,467 constraints, one atom in 64 true", colouring(183), 64, 40)]
    yield [Family("the same, one atom in 2 true", colouring(183), 2, 40)]


def level_few_matter():
    """A level that reads three of 1,000 outer atoms."""
    rules = "{y}. z :- y, x(1), not x(2). v :- y, not x(1). w :- z, x(3)."
    return level(xs(1, 1000)) + "%@forall\n" + rules + "\n%@constraint\n:- y, not w, not v.\n"


def level_covering(seed):
    """48 constraints of six literals over 200 atoms as a level, which chooses half of the atoms."""
    source = random.Random(f"covering {seed}")
    constraints = []
    for _ in range(48):
        literals = [("" if source.random() < 0.5 else "not ") + f"x({atom})" for atom in source.sample(range(1, 201), 6)]
        constraints.append(":- " + ", ".join(literals) + ".")
    return level(xs(1, 100)) + level(xs(101, 200)) + "\n".join(constraints) + "\n%@constraint\n"


def plan():
    """A plan of 4 steps for 8 lights that are on or off at first, in 256 ways. A light is switched on beside one that is on,
    and the third or fourth one is to be on at the end where the first or second one was at first."""
    chosen = "light(1..8). time(0..3). {do(X,T)} :- light(X), time(T).\n"
    starts = "%@forall\n{start(X)} :- light(X).\n"
    facts = " ".join([f"beside({x},{x + 1})." for x in range(1, 8)] + [f"after({t},{t + 1})." for t in range(4)])
    runs = "on(X,0) :- start(X). on(X,U) :- on(X,T), after(T,U). on(Y,U) :- on(X,T), beside(X,Y), do(Y,T), after(T,U)."
    goals = ":- start(1), not on(3,4). :- start(2), not on(4,4)."
    return f"%@exists\n{chosen}{starts}%@exists\n{facts}\n{runs}\n%@constraint\n{goals}\n"


def level_colouring(nodes):
    """The constraints of a colouring with three colours as a level behind the one that chooses edges."""
    colours = ["red", "green", "blue"]
    choices = f"%@exists\npoint(1..{nodes}).\n" + "".join(f"{{{colour}(X)}} :- point(X).\n" for colour in colours)
    constraints = [f":- edge(X,Y), {colour}(X), {colour}(Y)." for colour in colours]
    return f"%@exists\nnode(1..{nodes}).\n{{edge(X,Y)}} :- node(X), node(Y).\n{choices}" + "\n".join(constraints) + "\n%@constraint\n"


def reached(nodes):
    """What is reached by edges that the level before chooses: a rule for each pair of nodes."""
    rules = "reach(1). reach(Y) :- reach(X), edge(X,Y)."
    return f"%@exists\nnode(1..{nodes}).\n{{edge(X,Y)}} :- node(X), node(Y).\n%@exists\n{rules}\n%@constraint\n:- not reach({nodes}).\n"


def level_families():
    yield [Family("1,000 outer atoms, 3 of them in the level", level_few_matter(), 2, 200)]
    yield [Family("covering", level_covering(seed), 2, 20) for seed in range(10)]
    yield [Family("a plan of 4 steps, after 256 starting states", plan(), 2, 200)]
    yield [Family("3 * 183 * 183 = 100,467 constraints, one atom in 64 true", level_colouring(183), 64, 40)]
    yield [Family("317 * 317 + 1 = 100,490 rules that found atoms, one edge in 64", reached(317), 64, 10)]


def run(program, family, words):
    """Runs the program with these words, and returns what it prints of the moves, and the processor seconds."""
    with subprocess.Popen([program, *map(str, words)], stdin=subprocess.PIPE, stdout=subprocess.PIPE, text=True) as child:
        child.stdin.write(family.text)
        child.stdin.close()
        lines = child.stdout.read().split("\n")
        _, status, usage = os.wait4(child.pid, 0)
        child.returncode = os.waitstatus_to_exitcode(status)
    judged = [line.split() for line in lines if line]
    if len(judged) != words[0]:
        sys.exit(f"{family.name}: {lines[:1]}")
    return [(verdict == "true", *map(int, literals)) for verdict, *literals in judged if verdict != "no"], usage.ru_utime + usage.ru_stime


def spread(numbers):
    """How many numbers there are, and the least, the mean and the greatest."""
    if not numbers:
        return "-"
    return f"{len(numbers)}: {min(numbers)}, {statistics.mean(numbers):.1f}, {max(numbers)}"


def judged_table(program):
    """The cubes of outer moves behind the last level."""
    print("| constraints | true: least, mean and greatest length | false: least, mean and greatest length | milliseconds a cube |")
    print("|---|---|---|---|")
    for texts in families():
        judged, spent, more = [], 0.0, 0
        for family in texts:
            _, seconds = run(program, family, [1, family.one_in])
            found, all_seconds = run(program, family, [family.moves + 1, family.one_in])
            judged += found
            spent += all_seconds - seconds
            more += family.moves
        by_verdict = [spread([literals for it, literals in judged if it == verdict]) for verdict in (True, False)]
        print(f"| {texts[0].name} | {by_verdict[0]} | {by_verdict[1]} | {1000 * spent / more:.2f} |", flush=True)


def explained_table(program):
    """The cubes of moves of the last level, of which only those count that were moves."""
    print("| last level | cube of the move: least, mean and greatest length | cube of the outer move | milliseconds a cube |")
    print("|---|---|---|---|")
    for texts in level_families():
        judged, spent, more = [], 0.0, 0
        for family in texts:
            _, seconds = run(program, family, [family.moves, family.one_in, 1])
            found, all_seconds = run(program, family, [family.moves, family.one_in, MORE + 1])
            judged += found
            spent += all_seconds - seconds
            more += MORE * len(found)
        spent = f"{1000 * spent / more:.2f}" if more else "-"
        print(f"| {texts[0].name} | {spread([it[1] for it in judged])} | {spread([it[2] for it in judged])} | {spent} |", flush=True)


def main():
    program = Path(sys.argv[1] if len(sys.argv) > 1 else ROOT / "crates/cube_bench/out/cube_bench").resolve()
    if not program.is_file():
        print(f"skipped: {program} isn't built (rt run in crates/cube_bench builds it)")
        return 0
    judged_table(program)
    print()
    explained_table(program)
    return 0


if __name__ == "__main__":
    sys.exit(main())
