#!/usr/bin/env python3
"""Runs a command of aspq over standard input, and tells in one line what it says.

usage: examples/read_output.py ./aspq solve < TEXT
"""

import subprocess
import sys


def read(status, output):
    """What a run says: a kind and what belongs to it."""
    if status == 0:
        return "program", sum(line in ("%@exists", "%@forall") for line in output.split("\n"))
    if status in (10, 20):
        return "verdict", output == "COHERENT\n"
    if status == 30:
        _, kind, level, number = output.split()
        return "open", kind, int(level), int(number)
    if status in (2, 3):
        return "refused", output[len("aspq: "):-1]
    return "failed", {4: "reading", 5: "writing", 6: "out of memory"}.get(status, "ended by something else")


def main():
    run = subprocess.run(sys.argv[1:], stdout=subprocess.PIPE, encoding="ascii")
    print(*read(run.returncode, run.stdout))
    return 0


if __name__ == "__main__":
    sys.exit(main())
