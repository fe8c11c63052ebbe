#!/usr/bin/env python3
"""Runs every command that a document shows, and compares what it prints with what the document says.

    bench/documents.py [PROGRAM]      PROGRAM: the built aspq (default: crates/aspq/out/aspq)

A command stands behind `$ ` in an indented block of a document or of the manual page, and its output below it. What `cat` shows of a file that
isn't there is that file. A line that begins with `./aspq` and no `$ ` has to print what the document names. A block that begins with `%` is a
program that `check` accepts. Of examples/README.md each row's verdict is compared. `rt` isn't run. What differs is told, and makes the script fail.
"""

import os
import re
import subprocess
import sys
import tempfile
from pathlib import Path

ROOT = Path(__file__).resolve().parent.parent
SECONDS = 120


def blocks(path):
    """The indented blocks of a document, or those without filling of a manual page, each as a list of lines."""
    text = path.read_text(encoding="utf-8")
    if path.suffix == ".1":
        for found in re.findall(r"^\.nf\n(.*?)^\.fi$", text, re.M | re.S):
            yield re.sub(r"\\([-e])", lambda it: "-" if it[1] == "-" else "\\", found.replace(r"\(aq", "'")).split("\n")[:-1]
        return
    for found in re.findall(r"(?:^    .*\n|^\n(?=    ))+", text, re.M):
        yield [line[4:] for line in found.strip("\n").split("\n")]


def sessions(block):
    """The commands of a block, each with the lines that it is said to print."""
    shown = []
    for line in block:
        if line.startswith("$ "):
            shown.append((line[2:], []))
        elif shown:
            shown[-1][1].append(line)
    return [(command, "".join(f"{line}\n" for line in lines)) for command, lines in shown]


class Runs:
    """The commands that were run in a folder of their own, and what differed."""

    def __init__(self, program, folder):
        self.folder = Path(folder)
        (self.folder / "aspq").symlink_to(program)
        (self.folder / "examples").symlink_to(ROOT / "examples")
        self.path = f"{folder}{os.pathsep}{os.environ['PATH']}"
        self.count, self.wrong = 0, 0

    def output_of(self, command):
        self.count += 1
        run = subprocess.run(["sh", "-c", command], cwd=self.folder, env={**os.environ, "PATH": self.path}, stdout=subprocess.PIPE,
                             timeout=SECONDS, check=False)
        return run.stdout.decode()

    def differs(self, where, command, wanted, printed):
        self.wrong += 1
        print(f"{where}: {command}\n  should print {wanted!r}\n  and prints   {printed!r}")

    def compare(self, where, command, wanted):
        file = re.fullmatch(r"cat (\S+)", command)
        if file and not (self.folder / file[1]).exists():
            (self.folder / file[1]).write_text(wanted, encoding="utf-8")
        printed = self.output_of(command)
        if printed != wanted:
            self.differs(where, command, wanted, printed)

    def document(self, path):
        name = path.relative_to(ROOT)
        for block in blocks(path):
            for command, wanted in sessions(block):
                if not command.startswith("rt "):
                    self.compare(name, command, wanted)
            for line in block:
                if line.startswith("./aspq "):
                    printed = self.output_of(line)
                    if f"`{printed.strip()}`" not in path.read_text(encoding="utf-8"):
                        self.differs(name, line, "what the document names", printed)
            if block[0].startswith("%") and path.name != "definitions.md":
                (self.folder / "block").write_text("\n".join(block), encoding="utf-8")
                self.compare(name, "aspq check < block > /dev/null; echo $?", "0\n")

    def examples(self):
        rows = re.findall(r"^\| `(\w+)` \|.*\| `((?:IN)?COHERENT)` \|", (ROOT / "examples/README.md").read_text(encoding="utf-8"), re.M)
        for name, verdict in rows:
            self.compare("examples/README.md", f"aspq solve < examples/{name}.aspq", f"{verdict}\n")
        there = {path.stem for path in (ROOT / "examples").glob("*.aspq")}
        if there != {name for name, _ in rows}:
            self.differs("examples/README.md", "its rows", sorted(there), sorted(name for name, _ in rows))


def main():
    program = Path(sys.argv[1] if len(sys.argv) > 1 else ROOT / "crates/aspq/out/aspq").resolve()
    if not program.is_file():
        print(f"skipped: {program} isn't built (./aspq builds it)")
        return 0
    with tempfile.TemporaryDirectory() as folder:
        runs = Runs(program, folder)
        for path in [ROOT / "README.md", ROOT / "examples/README.md", *sorted((ROOT / "docs").glob("*.md")), ROOT / "docs/aspq.1"]:
            runs.document(path)
        runs.examples()
    print(f"{runs.count} commands, {runs.wrong} differ")
    return 1 if runs.wrong else 0


if __name__ == "__main__":
    sys.exit(main())
