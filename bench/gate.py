#!/usr/bin/env python3
"""Measures what a whole run of `rt ci` from nothing costs, crate by crate: processor seconds (user and system) of each
crate's proof, of its tests and of its must-fail edits.

usage: bench/gate.py [FOLDER]

It clones the commit at hand into FOLDER (a new temporary one where none is given), runs `rt ci --anew` there with nothing
left out, and reads twice a second how much processor time each of its processes has used. It prints a table in Markdown,
and below it the sums and the time that the run took. Nothing else should run on the machine.
"""

import collections
import os
import re
import subprocess
import sys
import tempfile
import time

TICKS = os.sysconf("SC_CLK_TCK")
KINDS = ("proof", "tests", "edits", "programs")


def read(path):
    """Returns the bytes of a file of /proc as text, or nothing where the process has gone."""
    try:
        with open(path, encoding="utf-8", errors="replace") as file:
            return file.read()
    except OSError:
        return ""


def processes():
    """Returns for each process its parent, its start and its processor seconds."""
    found = {}
    for name in filter(str.isdigit, os.listdir("/proc")):
        fields = read(f"/proc/{name}/stat").rpartition(")")[2].split()
        if fields:
            spent = (int(fields[11]) + int(fields[12])) / TICKS
            found[int(name)] = (int(fields[1]), fields[19], spent)
    return found


def is_below(pid, root, found):
    """Returns whether a process was started by another, at any depth."""
    while pid in found and pid != root:
        pid = found[pid][0]
    return pid == root


def command_of(pid):
    """Returns where a process works and its words, or nothing where it has gone."""
    try:
        return f"{os.readlink(f'/proc/{pid}/cwd')} " + read(f"/proc/{pid}/cmdline").replace("\0", " ")
    except OSError:
        return ""


def kind_of(words):
    """Returns the crate for which a command of the prover runs, and what it does there. An edit is tried in a folder of its own."""
    crate = re.search(r"--crate-name (\w+)", words)
    if not crate:
        return "", "programs"
    if "/rt-edit-" in words.partition(" ")[0]:
        return crate.group(1), "edits"
    return crate.group(1), "tests" if " --test" in words else "proof"


def measure(folder):
    """Runs the gate and returns its status, its last line, the seconds that it took, and the processor seconds of each crate and kind."""
    started = time.monotonic()
    log = open(f"{folder}/gate.log", "w+", encoding="utf-8")
    gate = subprocess.Popen(["rt", "ci", "--anew"], cwd=f"{folder}/repository", stdout=log, stderr=log)
    words, spent = {}, {}
    while gate.poll() is None:
        found = processes()
        for pid, (_, start, seconds) in found.items():
            if is_below(pid, gate.pid, found):
                words[pid, start] = command_of(pid) or words.get((pid, start), "")
                spent[pid, start] = seconds
        time.sleep(0.5)
    took = time.monotonic() - started
    log.seek(0)
    last = log.read().splitlines()[-1]
    costs = collections.Counter()
    for key, seconds in spent.items():
        costs[kind_of(words[key])] += seconds
    return gate.returncode, last, took, costs


def show(costs):
    """Prints the table and the sums."""
    crates = sorted({crate for crate, _ in costs if crate})
    print("| crate | proof | tests | edits | sum |")
    print("|---|---|---|---|---|")
    for crate in crates:
        row = [costs[crate, kind] for kind in KINDS[:3]]
        print(f"| `{crate}` | " + " | ".join(f"{it:.0f}" if it else "-" for it in [*row, sum(row)]) + " |")
    sums = [sum(costs[it, kind] for it in [*crates, ""]) for kind in KINDS]
    print("| all | " + " | ".join(f"{it:.0f}" for it in [*sums[:3], sum(sums[:3])]) + " |")
    print(f"\nprograms and rt itself: {sums[3]:.0f} processor seconds; together {sum(sums) / 60:.1f} processor minutes")


def main():
    folder = sys.argv[1] if len(sys.argv) > 1 else tempfile.mkdtemp(prefix="aspq-gate-")
    top = subprocess.run(["git", "rev-parse", "--show-toplevel"], capture_output=True, text=True, check=True).stdout.strip()
    subprocess.run(["git", "clone", "-q", top, f"{folder}/repository"], check=True)
    status, last, took, costs = measure(folder)
    show(costs)
    print(f"{last}; {took / 60:.1f} minutes")
    return status


if __name__ == "__main__":
    sys.exit(main())
