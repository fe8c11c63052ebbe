#!/usr/bin/env python3
"""Puts problems to `aspq solve` and to its peers, compares the answers, and prints a Markdown table of the times.

    bench/solve.py [PROGRAM]                 PROGRAM: the built aspq (default: crates/aspq/out/aspq)
    bench/solve.py --only FAMILY [PROGRAM]   only the rows whose name has this text in it
    bench/solve.py --sizes N [PROGRAM]       only the N smallest sizes of each row
    bench/solve.py --peers                   only the peers, which are compared with each other
    bench/solve.py --picture docs/solve.svg  draws the times too
    bench/solve.py --show FAMILY SIZE SEED   prints one problem's text

Problems are made from fixed seeds (bench/families.py), and each is run once. Peers are depqbf, on the problem as a quantified Boolean
formula, and clingo: on the same text where there is one level, else on what a saturation or a text of its own makes of the problem.
A peer that isn't installed is skipped. Times are those of the processor in the program's own code (user), memory is the peak of the
resident set. Each run is stopped after --seconds (10). An answer that differs from a peer's, or from the one that the problem's maker
computed, is told on standard error, counted, and makes the script fail.
"""

import argparse
import math
import os
import resource
import shutil
import statistics
import subprocess
import sys
import tempfile
from collections import namedtuple
from pathlib import Path

from families import FAMILIES, other

ROOT = Path(__file__).resolve().parent.parent
NEEDS = {"depqbf": "depqbf", "clingo": "gringo"}

Run = namedtuple("Run", "answer seconds megabytes")


def run(command, text, seconds, answers):
    """Runs a command on a text as its input; `answers` gives what a status means, and any other one means that it didn't end."""
    with tempfile.TemporaryFile() as file, tempfile.NamedTemporaryFile("r") as memory:
        file.write(text.encode())
        file.seek(0)
        # A child of this script would begin with this script's memory: /usr/bin/time starts the command from its own.
        child = subprocess.Popen(["/usr/bin/time", "-q", "-o", memory.name, "-f", "%M", *command], stdin=file, stdout=subprocess.DEVNULL,
                                 stderr=subprocess.DEVNULL, preexec_fn=lambda: resource.setrlimit(resource.RLIMIT_CPU, (seconds, seconds + 1)))
        _, status, usage = os.wait4(child.pid, 0)
        child.returncode = os.waitstatus_to_exitcode(status)
        if child.returncode in (2, 3) and command[1:] == ["solve"]:
            sys.exit("a text is refused")
        kilobytes = memory.read().split()
    return Run(answers.get(child.returncode), usage.ru_utime, int(kilobytes[-1]) / 1000 if kilobytes else 0)


def runs_of(problem, program, installed, seconds):
    """The runs of one problem by name: ours, and those of its peers that are installed."""
    made = {}
    if program:
        made["aspq"] = run([program, "solve"], problem.text, seconds, {10: "COHERENT", 20: "INCOHERENT", 30: "UNKNOWN"})
    if problem.formula and "depqbf" in installed:
        made["depqbf"] = run(["depqbf"], problem.formula.qdimacs(), seconds, {10: "COHERENT", 20: "INCOHERENT"})
    if problem.program and "clingo" in installed:
        # clingo's statuses: 10 with an answer set, 30 with an answer set and the whole space searched, 20 with none.
        found = problem.satisfied
        made["clingo"] = run(["clingo", "-V0", "-"], problem.program, seconds, {10: found, 30: found, 20: other(found)})
    return made


def differ(problem, made):
    """Whether two of the answers differ, or one differs from what the problem's maker computed."""
    answers = {one.answer for one in made.values()} | {problem.verdict}
    return {"COHERENT", "INCOHERENT"} <= answers


def seconds_of(runs, limit):
    """The median, in which a run that didn't end counts as the limit."""
    if not runs:
        return "-"
    median = statistics.median(one.seconds if one.answer in ("COHERENT", "INCOHERENT") else limit for one in runs)
    return "stopped" if median >= limit else f"{median:.2f}"


def row(name, size, every, limit):
    of = {solver: [made[solver] for made in every if solver in made] for solver in ("aspq", "depqbf", "clingo")}
    answers = [one.answer for made in every for one in [next((it for it in made.values() if it.answer not in (None, "UNKNOWN")), None)] if one]
    cells = [name, size, len(every), f"{answers.count('COHERENT')} of {len(answers)}",
             *(seconds_of(of[solver], limit) for solver in ("aspq", "depqbf", "clingo")),
             sum(one.answer is None for one in of["aspq"]), sum(one.answer == "UNKNOWN" for one in of["aspq"]),
             f"{max((one.megabytes for one in of['aspq']), default=0):.0f} MB"]
    return "| " + " | ".join(map(str, cells)) + " |"


def picture(points, limit):
    """The times as SVG: each problem that both ended, or one did, as a dot, ours upwards and the best peer's to the right."""
    side, edge, least = 520, 60, 0.01
    span = math.log(limit / least)
    names = list(dict.fromkeys(name for name, _, _ in points))

    def at(seconds):
        return edge + (side - edge - 10) * math.log(min(max(seconds, least), limit) / least) / span

    def hue(name):
        return f"hsl({360 * names.index(name) // len(names)},70%,42%)"

    parts = [f'<svg xmlns="http://www.w3.org/2000/svg" viewBox="0 0 {side + 280} {side + 10}" font-family="sans-serif" font-size="12">',
             f'<rect width="{side + 280}" height="{side + 10}" fill="white"/>']
    for factor in (0.1, 1, 10):
        # The line on which ours takes so many times the peer's time.
        low, high = max(least, least / factor), min(limit, limit / factor)
        parts.append(f'<line x1="{at(low):.1f}" y1="{side - at(low * factor):.1f}" x2="{at(high):.1f}" y2="{side - at(high * factor):.1f}" stroke="#ccc"/>')
    tick = least
    while tick <= limit:
        parts.append(f'<text x="{at(tick):.1f}" y="{side - edge + 18}" text-anchor="middle">{tick:g}</text>'
                     f'<text x="{edge - 6}" y="{side - at(tick) + 4:.1f}" text-anchor="end">{tick:g}</text>')
        tick *= 10
    parts.append(f'<text x="{side // 2}" y="{side - 14}" text-anchor="middle">seconds of the faster peer</text>')
    parts.append(f'<text transform="translate(16,{side // 2}) rotate(-90)" text-anchor="middle">seconds of aspq</text>')
    for name, ours, theirs in points:
        parts.append(f'<circle cx="{at(theirs):.1f}" cy="{side - at(ours):.1f}" r="4" fill="{hue(name)}" fill-opacity="0.6"/>')
    for place, name in enumerate(names):
        parts.append(f'<circle cx="{side + 20}" cy="{30 + 20 * place}" r="5" fill="{hue(name)}"/><text x="{side + 32}" y="{34 + 20 * place}">{name}</text>')
    return "\n".join([*parts, "</svg>"]) + "\n"


def show(name, size, seed):
    for row_name, family, _, _ in FAMILIES:
        if name in row_name:
            print(family(int(size), int(seed)).text, end="")
            return 0
    return 1


def main():
    parser = argparse.ArgumentParser()
    parser.add_argument("program", nargs="?", default=ROOT / "crates/aspq/out/aspq", type=Path)
    parser.add_argument("--only", default="")
    parser.add_argument("--sizes", type=int)
    parser.add_argument("--peers", action="store_true")
    parser.add_argument("--picture", type=Path)
    parser.add_argument("--seconds", type=int, default=10)
    parser.add_argument("--show", nargs=3, metavar=("FAMILY", "SIZE", "SEED"))
    arguments = parser.parse_args()
    if arguments.show:
        return show(*arguments.show)
    if not shutil.which("/usr/bin/time"):
        print("skipped: /usr/bin/time isn't installed (Debian's package time)")
        return 0
    installed = {peer for peer in NEEDS if shutil.which(peer)}
    for peer in NEEDS.keys() - installed:
        print(f"skipped: {peer} isn't installed (Debian's package {NEEDS[peer]})")
    program = None if arguments.peers else str(arguments.program.resolve())
    if program and not os.path.isfile(program):
        print(f"skipped: {program} isn't built (rt run in crates/aspq builds it)")
        return 0
    print(f"A load of {os.getloadavg()[0]:.1f} at the start.\n")
    print("| problems | size | runs | COHERENT | aspq, seconds | depqbf | clingo | aspq stopped | UNKNOWN | aspq, memory |")
    print("|---|---|---|---|---|---|---|---|---|---|")
    wrong, points = 0, []
    for name, family, sizes, count in FAMILIES:
        for size in sizes[:arguments.sizes] if arguments.only in name else ():
            every = []
            for seed in range(count):
                problem = family(size, seed)
                made = runs_of(problem, program, installed, arguments.seconds)
                if differ(problem, made):
                    wrong += 1
                    print(f"{name} {size} {seed}: {problem.verdict} computed, {made}", file=sys.stderr, flush=True)
                peers = [one.seconds for solver, one in made.items() if solver != "aspq" and one.answer]
                if "aspq" in made and (peers or made["aspq"].answer in ("COHERENT", "INCOHERENT")):
                    ended = made["aspq"].answer in ("COHERENT", "INCOHERENT")
                    points.append((name, made["aspq"].seconds if ended else arguments.seconds, min(peers, default=arguments.seconds)))
                every.append(made)
            print(row(name, size, every, arguments.seconds), flush=True)
            # A size that no one ends has no larger one that says more.
            if all(one.answer is None for made in every for one in made.values()):
                break
    print(f"\nA load of {os.getloadavg()[0]:.1f} at the end; {wrong} answers that differ.")
    if arguments.picture and points:
        arguments.picture.write_text(picture(points, arguments.seconds), encoding="ascii")
    return 1 if wrong else 0


if __name__ == "__main__":
    sys.exit(main())
