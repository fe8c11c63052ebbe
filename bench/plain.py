#!/usr/bin/env python3
"""Puts texts of 20 atoms that are hard for trying all sets to `aspq solve`, and prints a table of the times.

    bench/plain.py [PROGRAM]

PROGRAM is crates/aspq/out/aspq where none is named. The texts are made from fixed seeds, so that two runs compare. All
sets have to be tried for each of them, and none has more than 1,048,576 bytes.
"""

import itertools
import os
import random
import resource
import subprocess
import sys

LETTERS = "abcdefghijklmnopqrst"
LAST = 19
MOST_BYTES = 1_048_000
NEVER = [":- a.", ":- not a."]


def bit(atom):
    return 1 << atom


def mask(atoms):
    return sum(bit(atom) for atom in atoms)


def letters(atoms):
    return [letter for atom, letter in enumerate(LETTERS) if atoms >> atom & 1]


def rule(head, positive=0, negative=0):
    body = ",".join(letters(positive) + ["not " + letter for letter in letters(negative)])
    return "|".join(letters(head)) + (":-" + body if body else "") + "."


def choice(atom, positive=0):
    body = ",".join(letters(positive))
    return "{" + LETTERS[atom] + "}" + (":-" + body if body else "") + "."


def some(source, count, among):
    return mask(source.sample(among, count))


def text(level, constraints, quantifier="exists", between=()):
    """One level, perhaps further ones, and the constraint part, with as many rules as a million bytes hold."""
    parts = [f"%@{quantifier}\n"]
    size = 200 + sum(len(line) for line in constraints) + sum(len(line) for line in between)
    for line in level:
        size += len(line)
        if size > MOST_BYTES:
            break
        parts.append(line)
    return "".join(parts) + "\n" + "".join(between) + "%@constraint\n" + "".join(constraints) + "\n"


def subsets_broken(count, spare):
    """For each set of the first atoms a rule that it alone breaks, among the sets that lack the spare atom."""
    every = bit(count) - 1
    return [rule(every & ~part | spare, part) for part in range(bit(count) if spare else every)]


def texts():
    last, others, everything = bit(LAST), range(LAST), range(20)
    all_free = ["{" + ";".join(LETTERS) + "}."]
    asking = [choice(atom, last) for atom in others]
    deriving = [rule(last, bit(atom)) for atom in others]

    yield "a choice of all atoms", text(all_free, NEVER)
    yield "ten disjunctions of two atoms", text([rule(bit(2 * i) | bit(2 * i + 1)) for i in range(10)], NEVER)
    yield "ten even loops", text([rule(bit(i), 0, bit(i ^ 1)) for i in everything], NEVER)
    yield "a ring of positive rules, and a choice", text([rule(bit((i + 1) % 20), bit(i)) for i in everything] + [choice(0)], NEVER)
    yield "a fact, and a chain of choices", text(["a."] + [choice(i + 1, bit(i)) for i in others], [":- a."])
    yield "choices that ask for the last atom, which each derives", text(asking + deriving, [":- not t."])

    source = random.Random(1)
    sets = [mask(part) for size in range(1, 8) for part in itertools.combinations(others, size)]
    yield "the same, and as many sets that derive it as there is room for", text(asking + [rule(last, part) for part in sets], [":- not t."])
    yield "choices, and heads of eight atoms with the last", text(
        [choice(atom) for atom in others] + [rule(some(source, 7, others) | last) for _ in range(80_000)], NEVER)
    yield "choices that ask for the last atom, and heads of eight with it", text(
        asking + [rule(some(source, 7, others) | last) for _ in range(80_000)], NEVER)
    beside = [atom for atom in everything if atom != 2]
    heads = [some(source, 8, beside) | bit(2) for _ in range(2_048)]
    yield "2,048 heads of nine atoms that share one, each under a negation", text(
        [rule(head, 0, some(source, 1, [a for a in everything if not head >> a & 1])) for head in heads], NEVER)
    yield "14 atoms whose sets each break a rule of their own", text(
        subsets_broken(14, 0) + [choice(atom, 1) for atom in range(14, 20)], [":- a."])
    yield "the same, but for sets with one more atom, which asks for them", text(
        [choice(atom) for atom in range(15, 20)] + [choice(atom, bit(14)) for atom in range(14)] + subsets_broken(14, bit(14)), NEVER)
    others_ask = [choice(atom, bit(14)) for atom in everything if atom != 14]
    yield "the same, all other atoms asking for it, and five of them in a disjunction", text(
        others_ask + [rule(mask(range(15, 20)))] + subsets_broken(14, bit(14)), NEVER)

    free = ["{" + ";".join(LETTERS[:8]) + "}."]
    inner = [rule(some(source, 4, range(8, 20)), some(source, 1, range(8))) for _ in range(5_000)]
    yield "two levels of eight and twelve atoms, 5,000 rules", text(free, NEVER, "exists", ["%@forall\n"] + inner + ["\n"])
    levels = [f"%@{'forall' if i % 2 else 'exists'}\na:-b,c.\n" for i in range(1, 16)]
    yield "sixteen levels, all atoms in the first", text(all_free, NEVER, "exists", levels)
    tests = [rule(0, some(source, 6, others) | last) for _ in range(MOST_BYTES // 16 - 20)]
    yield "a choice of all atoms, and constraints of seven atoms", text(all_free, tests + [":-not t.", ":-t."], "forall")


def main():
    top = os.path.join(os.path.dirname(os.path.abspath(__file__)), "..")
    program = sys.argv[1] if len(sys.argv) > 1 else os.path.join(top, "crates/aspq/out/aspq")
    print("| text | bytes | answer | seconds |")
    print("|---|---|---|---|")
    for name, content in texts():
        before = resource.getrusage(resource.RUSAGE_CHILDREN)
        run = subprocess.run([program, "solve"], input=content.encode(), capture_output=True)
        after = resource.getrusage(resource.RUSAGE_CHILDREN)
        seconds = after.ru_utime + after.ru_stime - before.ru_utime - before.ru_stime
        print(f"| {name} | {len(content):,} | `{run.stdout.decode().strip()}` | {seconds:.2f} |", flush=True)
    print(f"most memory: {resource.getrusage(resource.RUSAGE_CHILDREN).ru_maxrss // 1024} MB")


if __name__ == "__main__":
    main()
