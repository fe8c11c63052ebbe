#!/usr/bin/env python3
"""Measures how long the moves of a large level take, and prints a Markdown table.

    bench/levels.py [PROGRAM]                  PROGRAM: the built level_bench (default: crates/level_bench/out/level_bench)
    bench/levels.py --only LEVEL [PROGRAM]     only the rows whose name has this text in it

Texts are made from fixed seeds, so that two runs compare. The program is run to read and ground the text alone, to the first
move, and to 100 of them, each of which is blocked with all its literals. The time of moves is the difference to the text
alone. Times are those of the processor (user and system), each the least of three runs. A program that takes more than a
minute is stopped.
"""

import argparse
import os
import random
import re
import signal
import subprocess
import sys
from collections import namedtuple
from pathlib import Path

ROOT = Path(__file__).resolve().parent.parent
SECONDS = 60
RUNS = 3
MANY = 100

Level = namedtuple("Level", "name text")

Run = namedtuple("Run", "moves nogoods seconds")


def level(rules):
    return "%@exists\n" + "\n".join(rules) + "\n"


def loops(rules, count):
    """So many rules with a choice of 1,000 atoms, and in them independent loops of two atoms, which a constraint wants. What is
    left to a loop is a rule over two chosen atoms for the one of its atoms, and a derived atom for the other."""
    source = random.Random(f"loops {rules} {count}")
    chosen = [f"c{number}" for number in range(1, 1001)]
    texts = [f"{{{atom}}}." for atom in chosen]
    derived = []
    while len(texts) < rules - 5 * count:
        if not derived or len(texts) % 2 == 0:
            derived.append(f"d{len(derived) + 1}")
        one, other = source.sample(chosen, 2)
        before = f", {source.choice(derived[:-1])}" if len(derived) > 1 and source.random() < 0.3 else ""
        texts.append(f"{derived[-1]} :- {one}, not {other}{before}.")
    for number in range(1, count + 1):
        one, other = source.sample(chosen, 2)
        a, b = f"a{number}", f"b{number}"
        texts += [f"{a} :- {b}.", f"{b} :- {a}.", f"{a} :- {one}, {other}.", f"{b} :- {source.choice(derived)}.", f":- not {a}."]
    return level(texts)


def ring(count):
    """A ring of positive rules, which a constraint wants and a chosen atom begins, beside a choice of seven atoms."""
    texts = ["{s}.", "r1 :- s.", f":- not r{count // 2}."] + [f"{{e{number}}}." for number in range(1, 8)]
    texts += [f"r{number % count + 1} :- r{number}." for number in range(1, count + 1)]
    return level(texts)


def pairs(count, linked):
    """Disjunctions of two atoms; where they are linked, each atom of a pair follows from the other."""
    texts = []
    for number in range(1, count + 1):
        texts.append(f"a{number} | b{number}.")
        if linked:
            texts += [f"a{number} :- b{number}.", f"b{number} :- a{number}."]
    if linked:
        texts += [f"{{e{number}}}." for number in range(1, 8)]
    return level(texts)


def grid(side):
    """The nodes of a grid are chosen, and one corner is to be reached from the other one by chosen nodes."""
    nodes = [(x, y) for x in range(1, side + 1) for y in range(1, side + 1)]
    texts = [f"{{open({x},{y})}}." for x, y in nodes]
    texts.append("reach(1,1) :- open(1,1).")
    known = set(nodes)
    for x, y in nodes:
        for u, v in ((x - 1, y), (x + 1, y), (x, y - 1), (x, y + 1)):
            if (u, v) in known:
                texts.append(f"reach({x},{y}) :- reach({u},{v}), open({x},{y}).")
    texts.append(f":- not reach({side},{side}).")
    return level(texts)


def levels():
    for count in (5, 10, 20, 40):
        yield Level(f"10,000 rules, {count} loops", loops(10_000, count))
    for rules in (2_500, 5_000, 20_000):
        yield Level(f"{rules:,} rules, 20 loops", loops(rules, 20))
    for count in (1_000, 2_000, 4_000):
        yield Level(f"a ring of {count:,} rules", ring(count))
    for count in (100, 200, 400):
        yield Level(f"{count} disjunctions of two atoms", pairs(count, False))
    for count in (100, 200, 400):
        yield Level(f"{count} disjunctions of two atoms that follow from each other", pairs(count, True))
    for side in (10, 20, 30):
        yield Level(f"reachability over a grid of {side} by {side} nodes", grid(side))


def run_once(program, text, wanted):
    """Runs the program once, and returns what it prints and the processor seconds; none where it is stopped."""
    with subprocess.Popen([program, str(wanted)], stdin=subprocess.PIPE, stdout=subprocess.PIPE, text=True) as child:
        signal.signal(signal.SIGALRM, lambda *_: child.kill())
        signal.alarm(SECONDS)
        child.stdin.write(text)
        child.stdin.close()
        line = child.stdout.read()
        _, status, usage = os.wait4(child.pid, 0)
        signal.alarm(0)
        child.returncode = os.waitstatus_to_exitcode(status)
    if child.returncode != 0:
        return None
    return line, usage.ru_utime + usage.ru_stime


def run(program, one, wanted):
    """Runs the program, and returns what it found and the least time; none where it is stopped."""
    least = None
    for _ in range(RUNS):
        ended = run_once(program, one.text, wanted)
        if ended is None:
            return None
        line, seconds = ended
        if least is None or seconds < least[1]:
            least = line, seconds
    line, seconds = least
    if wanted == 0:
        return Run(0, 0, seconds) if line == "game true\n" else sys.exit(f"{one.name}: {line}")
    found = re.fullmatch(r"moves (\d+) all (true|false) nogoods (\d+)\n", line)
    if not found:
        sys.exit(f"{one.name}: {line}")
    return Run(int(found[1]), int(found[3]), seconds)


def shown(ended, alone):
    """The milliseconds without those of the text alone, and the moves and nogoods."""
    if ended is None or alone is None:
        return f"stopped after {SECONDS} s", ""
    return f"{1000 * (ended.seconds - alone.seconds):.0f} ms", f"{ended.moves}, {ended.nogoods}"


def main():
    options = argparse.ArgumentParser(description="Measures how long the moves of a large level take.")
    options.add_argument("--only", default="", help="only the rows whose name has this text in it")
    options.add_argument("program", nargs="?", default=ROOT / "crates/level_bench/out/level_bench")
    given = options.parse_args()
    program = Path(given.program).resolve()
    if not program.is_file():
        print(f"skipped: {program} isn't built (rt run in crates/level_bench builds it)")
        return 0
    print(f"| level | text alone | first move | moves, nogoods | {MANY} moves | moves, nogoods |")
    print("|---|---|---|---|---|---|")
    for one in levels():
        if given.only not in one.name:
            continue
        alone = run(program, one, 0)
        first, of_first = shown(run(program, one, 1), alone)
        many, of_many = shown(run(program, one, MANY), alone)
        text = f"{1000 * alone.seconds:.0f} ms" if alone else "-"
        print(f"| {one.name} | {text} | {first} | {of_first} | {many} | {of_many} |", flush=True)
    return 0


if __name__ == "__main__":
    sys.exit(main())
