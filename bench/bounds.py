#!/usr/bin/env python3
"""Puts texts with bounds of choices and with strong negation to `aspq check` and `aspq solve`, and prints a table of the times.

    bench/bounds.py [PROGRAM]

PROGRAM is crates/aspq/out/aspq where none is named. Times are those of the processor, and the memory is the most of that one run.
No text has more than 1,048,576 bytes.
"""

import os
import subprocess
import sys
import tempfile

LETTERS = "abcdefghijklmnopqrst"
MOST_BYTES = 1_048_576
NEVER = "%@constraint\n:- a.\n:- not a.\n"


def filled(head, line):
    """A text of one level that is full of a line."""
    return head + line * ((MOST_BYTES - len(head)) // len(line))


def bounded(count):
    """A choice of all letters, and so many bounds that all sets meet, over three letters each."""
    triples = [(i, j, k) for i in range(20) for j in range(i) for k in range(j)]
    lines = ["{" + ";".join(LETTERS[atom] for atom in triples[n % len(triples)]) + "}3.\n" for n in range(count)]
    return "%@exists\n{" + ";".join(LETTERS) + "}.\n" + "".join(lines) + NEVER


def texts():
    pairs = "".join(f"{{p{i}(1); -p{i}(1)}}.\n" for i in range(32))
    yield "check", "32 predicates over 4,096 constants with their negations, 262,144 atoms", "%@exists\np0(1..4096).\n" + pairs
    yield "check", "a choice between two bounds, as often as there is room for", filled("%@exists\n", "1 {a; b} 2 :- c.\n")
    yield "check", "a fact and its negation, as often as there is room for", filled("%@exists\n", "-a. a.\n")
    every = ";".join(LETTERS)
    yield "solve", "exactly one of 20 atoms", "%@exists\n1 {" + every + "} 1.\n" + NEVER
    yield "solve", "from five to fifteen of 20 atoms", "%@exists\n5 {" + every + "} 15.\n" + NEVER
    halves = ";".join(f"{letter};-{letter}" for letter in LETTERS[:10])
    yield "solve", "ten atoms and their negations, a choice of each", "%@exists\n{" + halves + "}.\n" + NEVER
    yield "solve", "the same, five in each of two levels", "%@forall\n{" + halves[:24] + "}.\n%@exists\n{" + halves[25:] + "}.\n" + NEVER
    yield "solve", "a choice of 20 atoms, and 100 bounds that all sets meet", bounded(100)
    yield "solve", "the same, and 1,000 bounds", bounded(1_000)


def run(program, command, content):
    """The first line of the answer, the processor's seconds, and the memory in kilobytes."""
    with tempfile.TemporaryFile() as source, tempfile.TemporaryFile() as sink:
        source.write(content.encode())
        source.seek(0)
        child = subprocess.Popen([program, command], stdin=source, stdout=sink)
        _, _, used = os.wait4(child.pid, 0)
        sink.seek(0)
        answer = sink.read()
    line = answer.split(b"\n")[0].decode()
    shown = "the program" if line.startswith("%@") else f"`{line}`"
    return shown, used.ru_utime + used.ru_stime, used.ru_maxrss


def main():
    top = os.path.join(os.path.dirname(os.path.abspath(__file__)), "..")
    program = sys.argv[1] if len(sys.argv) > 1 else os.path.join(top, "crates/aspq/out/aspq")
    print("| text | bytes | command, answer | seconds | memory |")
    print("|---|---|---|---|---|")
    for command, name, content in texts():
        answer, seconds, memory = run(program, command, content)
        print(f"| {name} | {len(content):,} | `{command}`, {answer} | {seconds:.2f} | {memory // 1024} MB |", flush=True)


if __name__ == "__main__":
    main()
