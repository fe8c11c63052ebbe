#!/usr/bin/env python3
"""Compares sat_bench with Debian's minisat on generated formulas, and prints a Markdown table of ratios.

    bench/sat.py [PROGRAM]                  PROGRAM: the built sat_bench (default: crates/sat_bench/out/sat_bench)
    bench/sat.py --only FAMILY [PROGRAM]    only the rows whose name has this text in it
    bench/sat.py --searches N [PROGRAM]     instead N searches over 100,000 clauses, each under 50 assumptions and with 20 loose
                                            clauses, and one such search: what is between the two is what begins cost

Each formula is put to sat_bench, to minisat as it comes and to minisat without restarts, one after the other, and their
answers are compared. Times are those of the processor (user and system), memory is the peak of the resident set as /usr/bin/time tells it, and propagations are
minisat's own count of propagations and sat_bench's count of placements. Formulas are made from fixed seeds, so that two
runs compare. A program that takes more than a minute is stopped.
"""

import argparse
import os
import random
import re
import resource
import shutil
import statistics
import subprocess
import sys
import tempfile
from collections import namedtuple
from pathlib import Path

ROOT = Path(__file__).resolve().parent.parent
SECONDS = 60

Run = namedtuple("Run", "answer seconds kilobytes propagations decisions conflicts")


def random_3sat(atoms, seed):
    """Random clauses of three different atoms, at 4.26 clauses an atom."""
    source = random.Random(f"3sat {atoms} {seed}")
    clauses = []
    for _ in range(round(4.26 * atoms)):
        chosen = source.sample(range(1, atoms + 1), 3)
        clauses.append([atom if source.random() < 0.5 else -atom for atom in chosen])
    return atoms, clauses


def pigeons(holes):
    """One pigeon more than there are holes, at most one in each."""
    def sits(pigeon, hole):
        return pigeon * holes + hole + 1

    clauses = [[sits(pigeon, hole) for hole in range(holes)] for pigeon in range(holes + 1)]
    for hole in range(holes):
        for first in range(holes + 1):
            for second in range(first):
                clauses.append([-sits(first, hole), -sits(second, hole)])
    return (holes + 1) * holes, clauses


def chain(atoms, satisfiable):
    """Each atom implies the next; the first is true, and the last is false unless the formula is to be satisfiable."""
    clauses = [[-atom, atom + 1] for atom in range(1, atoms)]
    clauses.append([1])
    if not satisfiable:
        clauses.append([-atoms])
    return atoms, clauses


def parity_chain(atoms, seed):
    """Two chains of sums modulo 2 over the same atoms, in two orders, that end in different values."""
    source = random.Random(f"parity chain {atoms} {seed}")
    clauses = []
    used = atoms

    def sum_is(first, second, third):
        """third is first + second modulo 2"""
        clauses.extend([[-first, -second, -third], [-first, second, third], [first, -second, third], [first, second, -third]])

    ends = []
    for _ in range(2):
        order = source.sample(range(1, atoms + 1), atoms)
        total = order[0]
        for atom in order[1:]:
            used += 1
            sum_is(total, atom, used)
            total = used
        ends.append(total)
    clauses.extend([[ends[0]], [-ends[1]]])
    return used, clauses


def colouring(nodes, seed):
    """Three colours for a random graph with 2.3 edges a node, so that neighbours differ."""
    source = random.Random(f"colouring {nodes} {seed}")
    edges = set()
    while len(edges) < round(2.3 * nodes):
        first, second = source.sample(range(nodes), 2)
        edges.add((min(first, second), max(first, second)))
    clauses = [[3 * node + colour for colour in (1, 2, 3)] for node in range(nodes)]
    for first, second in sorted(edges):
        clauses.extend([-(3 * first + colour), -(3 * second + colour)] for colour in (1, 2, 3))
    return 3 * nodes, clauses


def counter(bits, steps, seed):
    """A counter of some bits that at each step adds one or keeps its value, from a random value: whether it reaches another,
    drawn as one that it can reach or one behind, in so many steps."""
    source = random.Random(f"counter {bits} {steps} {seed}")
    start = source.randrange(2 ** bits - 2 * steps)
    end = start + (steps if seed % 2 else steps + 1)
    clauses = []

    def bit(step, place):
        return step * 2 * bits + place + 1

    def carry(step, place):
        return step * 2 * bits + bits + place + 1

    for place in range(bits):
        clauses.append([bit(0, place) if start >> place & 1 else -bit(0, place)])
        clauses.append([bit(steps, place) if end >> place & 1 else -bit(steps, place)])
    for step in range(steps):
        for place in range(bits):
            now, into, then = bit(step, place), carry(step, place), bit(step + 1, place)
            clauses.extend([[-now, -into, -then], [-now, into, then], [now, -into, then], [now, into, -then]])
            if place + 1 < bits:
                out = carry(step, place + 1)
                clauses.extend([[-now, -into, out], [now, -out], [into, -out]])
    return (steps + 1) * 2 * bits, clauses


def families():
    """Each row of the table: a name and its formulas."""
    for atoms in (150, 200, 225, 250):
        yield f"random 3-SAT, {atoms} atoms", [random_3sat(atoms, seed) for seed in range(10)]
    for holes in (7, 8, 9):
        yield f"{holes + 1} pigeons, {holes} holes", [pigeons(holes)]
    yield "chain, 200,000 atoms", [chain(200_000, True), chain(200_000, False)]
    for atoms in (25, 30):
        yield f"two chains of sums, {atoms} atoms", [parity_chain(atoms, seed) for seed in range(10)]
    yield "counter, 20 bits, 40 steps", [counter(20, 40, seed) for seed in range(10)]
    yield "3 colours, 400 nodes", [colouring(400, seed) for seed in range(10)]


def write_searches(path, searches):
    """A text of so many searches over 100,000 clauses of three of 20,000 atoms, each with a literal that is positive. The first and
    the last assumption of a search exclude each other by a loose clause, so it ends as soon as it has placed the assumptions."""
    source = random.Random("searches")
    atoms = 20_000
    with open(path, "w", encoding="ascii") as file:
        file.write(f"p cnf {atoms} 100000\n")
        for _ in range(100_000):
            first, *others = source.sample(range(1, atoms + 1), 3)
            literals = [first, *(atom if source.random() < 0.5 else -atom for atom in others)]
            file.write(" ".join(map(str, literals)) + " 0\n")
        for _ in range(searches):
            assumed = sorted(source.sample(range(1, atoms + 1), 50))
            file.write("a " + " ".join(map(str, assumed)) + " 0\n")
            file.write(f"l {-assumed[0]} {-assumed[-1]} 0\n")
            for _ in range(19):
                file.write("l " + " ".join(str(atom) for atom in source.sample(range(1, atoms + 1), 3)) + " 0\n")


def write(path, formula):
    atoms, clauses = formula
    with open(path, "w", encoding="ascii") as file:
        file.write(f"p cnf {atoms} {len(clauses)}\n")
        file.writelines(" ".join(map(str, clause)) + " 0\n" for clause in clauses)


def run(command, path, counts):
    """Runs a command on a file as its input; counts gives a pattern for each number to read from what it prints."""
    # A child of this script would begin with this script's memory: /usr/bin/time starts the command from its own.
    with open(path, "rb") as file, tempfile.TemporaryFile("w+") as out, tempfile.NamedTemporaryFile("r") as memory:
        child = subprocess.Popen(["/usr/bin/time", "-q", "-o", memory.name, "-f", "%M", *command],
                                 stdin=file, stdout=out, stderr=subprocess.STDOUT,
                                 preexec_fn=lambda: resource.setrlimit(resource.RLIMIT_CPU, (SECONDS, SECONDS)))
        _, status, usage = os.wait4(child.pid, 0)
        child.returncode = os.waitstatus_to_exitcode(status)
        out.seek(0)
        text = out.read()
        kilobytes = int(memory.read())
    answer = re.search(r"^(UNSATISFIABLE|SATISFIABLE)$", text, re.MULTILINE)
    if "Error" in text:
        print(text, file=sys.stderr)
    numbers = [int(found.group(1)) if (found := re.search(pattern, text)) else None for pattern in counts]
    return Run(answer and answer.group(1), usage.ru_utime + usage.ru_stime, kilobytes, *numbers)


def ours(program, path):
    return run([program], path, [r"placements (\d+)", r"decisions (\d+)", r"conflicts (\d+)"])


def minisat(path, *options):
    return run(["minisat", "-verb=1", *options], path, [r"propagations\s*:\s*(\d+)", r"decisions\s*:\s*(\d+)", r"conflicts\s*:\s*(\d+)"])


def ratio(values):
    """The geometric mean, with the least and the greatest where there are several."""
    values = [value for value in values if value]
    if not values:
        return "-"
    middle = f"{statistics.geometric_mean(values):.2f}"
    return middle if len(values) == 1 else f"{middle} ({min(values):.2f} to {max(values):.2f})"


def quotient(above, below):
    return above / below if above is not None and below else None


def row(name, runs):
    ended = [(mine, theirs, plain) for mine, theirs, plain in runs if mine.answer and theirs.answer and plain.answer]
    # Below 20 milliseconds a time says little.
    timed = [run for run in ended if max(each.seconds for each in run) >= 0.02]
    cells = [
        name,
        f"{len(ended)} of {len(runs)}",
        *(f"{statistics.median(each.seconds for each in column):.3f}" for column in zip(*runs)),
        ratio([quotient(mine.seconds, max(theirs.seconds, 0.001)) for mine, theirs, _ in timed]),
        ratio([quotient(mine.seconds, max(plain.seconds, 0.001)) for mine, _, plain in timed]),
        ratio([quotient(mine.propagations / max(mine.seconds, 0.001), theirs.propagations / max(theirs.seconds, 0.001))
               for mine, theirs, _ in timed if mine.propagations and theirs.propagations]),
        ratio([quotient(mine.conflicts, theirs.conflicts) for mine, theirs, _ in ended if theirs.conflicts]),
        ratio([quotient(mine.kilobytes, theirs.kilobytes) for mine, theirs, _ in ended]),
    ]
    return "| " + " | ".join(cells) + " |"


def time_searches(program, searches):
    """Prints what one search over many clauses takes, and what so many take."""
    print("| searches | seconds | placements | memory |")
    print("|---|---|---|---|")
    ended = True
    with tempfile.TemporaryDirectory() as folder:
        path = Path(folder) / "searches.cnf"
        for count in (1, searches):
            write_searches(path, count)
            mine = ours(program, path)
            ended = ended and mine.answer is not None
            print(f"| {count:,} | {mine.seconds:.2f}{'' if mine.answer else ', stopped'} | {mine.propagations} | {mine.kilobytes // 1000} MB |", flush=True)
    return 0 if ended else 1


def main():
    parser = argparse.ArgumentParser()
    parser.add_argument("program", nargs="?", default=ROOT / "crates/sat_bench/out/sat_bench", type=Path)
    parser.add_argument("--only", default="")
    parser.add_argument("--searches", type=int)
    arguments = parser.parse_args()
    program = arguments.program.resolve()
    if arguments.searches and program.is_file() and shutil.which("/usr/bin/time"):
        return time_searches(str(program), arguments.searches)
    for needed, package in (("minisat", "minisat"), ("/usr/bin/time", "time")):
        if not shutil.which(needed):
            print(f"skipped: {needed} isn't installed (Debian's package {package})")
            return 0
    if not program.is_file():
        print(f"skipped: {program} isn't built (rt run in crates/sat_bench builds it)")
        return 0
    print("| formulas | ended in all | seconds | minisat's | without restarts | time, ratio | to that without restarts | propagations a second, ratio | conflicts, ratio | memory, ratio |")
    print("|---|---|---|---|---|---|---|---|---|---|")
    wrong = 0
    with tempfile.TemporaryDirectory() as folder:
        path = Path(folder) / "formula.cnf"
        for name, formulas in families():
            if arguments.only not in name:
                continue
            runs = []
            for formula in formulas:
                write(path, formula)
                mine, theirs = ours(str(program), path), minisat(path)
                plain = minisat(path, "-rfirst=2000000000", "-no-luby")
                if mine.answer and theirs.answer and mine.answer != theirs.answer:
                    print(f"{name}: {mine.answer}, minisat says {theirs.answer}", file=sys.stderr)
                    wrong += 1
                runs.append((mine, theirs, plain))
            print(row(name, runs), flush=True)
    return 1 if wrong else 0


if __name__ == "__main__":
    sys.exit(main())
