#!/usr/bin/env python3
"""Proves the crates below the program `aspq` side by side, as crates.txt allows, and builds the program.

usage: build.py TOP

TOP is the top of the repository. Each crate is checked in a tree of its own under the user's cache folder, beside the
built libraries of the crates below it, since `rt` lets only one check at a time into a tree. What is proved there is
found again by the next call, so a build that was stopped goes on where it was. The program is left as
TOP/crates/aspq/out/aspq. Progress goes to standard error; the status is 0 where the program is there, else 1.
"""

import collections
import contextlib
import fcntl
import hashlib
import os
import re
import shutil
import signal
import subprocess
import sys
import time

PROGRAM = "aspq"
# What a check of a crate reads.
PARTS = ("src", "specs", "proofs")
# A check of a large crate takes about this much memory, in bytes.
NEED = 2_500_000_000
# What `rt run` says of a proved program, now or in an earlier call that was stopped.
PROVED = re.compile(r"^(logic=proved|rt: nothing has changed since the last proved build)", re.M)
# How many lines of a failed crate's log are shown.
TAIL = 25


def read_crates(top):
    """Returns the lines of crates.txt as a map from each crate to the libraries that it names."""
    crates = {}
    with open(f"{top}/crates.txt", encoding="utf-8") as lines:
        for line in lines:
            name, colon, deps = line.partition("#")[0].partition(":")
            if colon:
                crates[name.split()[0]] = deps.split()
    return crates


def below(crates, name):
    """Returns the crates of the repository on which a crate stands, at any depth, lowest first."""
    found = []
    for dep in crates[name]:
        if dep in crates:
            found += [it for it in [*below(crates, dep), dep] if it not in found]
    return found


def files_of(folder):
    """Yields the files that a check of the crate reads, each with its path in the crate."""
    for part in PARTS:
        for at, folders, names in os.walk(f"{folder}/{part}"):
            folders.sort()
            for name in sorted(names):
                yield os.path.relpath(f"{at}/{name}", folder)


def copy_changed(source, target):
    """Makes the crate's files in the target those of the source, and leaves what is the same already."""
    wanted = set(files_of(source))
    for path in set(files_of(target)) - wanted:
        os.remove(f"{target}/{path}")
    for path in wanted:
        with open(f"{source}/{path}", "rb") as file:
            text = file.read()
        with contextlib.suppress(OSError), open(f"{target}/{path}", "rb") as file:
            if file.read() == text:
                continue
        os.makedirs(os.path.dirname(f"{target}/{path}"), exist_ok=True)
        with open(f"{target}/{path}", "wb") as file:
            file.write(text)


class Build:
    """One build: the crates, where each is checked, and what is done so far."""

    def __init__(self, top, cache):
        self.top, self.cache = top, cache
        self.crates = read_crates(top)
        self.order = [*below(self.crates, PROGRAM), PROGRAM]
        self.kit = subprocess.run(["rt", "version"], capture_output=True, text=True).stdout
        self.sums = {}
        for name in self.order:
            self.sums[name] = self.sum_of(name)
        self.done = {it for it in self.order if self.is_built(it)}
        self.running = {}
        self.started = time.monotonic()
        self.shown = ""

    def sum_of(self, name):
        """Returns a checksum of all that the crate is made from."""
        total = hashlib.sha256(repr([self.kit, name, self.crates[name]]).encode())
        for path in files_of(f"{self.top}/crates/{name}"):
            with open(f"{self.top}/crates/{name}/{path}", "rb") as file:
                total.update(repr((path, file.read())).encode())
        for dep in self.crates[name]:
            total.update(self.sums.get(dep, dep).encode())
        return total.hexdigest()

    def crate_at(self, tree, name):
        """Returns the folder of a crate in the tree of a crate."""
        return f"{self.cache}/{tree}/crates/{name}"

    def stamp(self, name):
        return f"{self.cache}/{name}/built"

    def is_built(self, name):
        """Returns whether the crate is proved and built as its text stands."""
        product = f"out/{name}" if name == PROGRAM else "out/rlib"
        with contextlib.suppress(OSError), open(self.stamp(name), encoding="utf-8") as it:
            return it.read() == self.sums[name] and os.path.exists(f"{self.crate_at(name, name)}/{product}")
        return False

    def prepare(self, name):
        """Lays out the crate's tree: its text, and the text and the built libraries of the crates below it."""
        others = below(self.crates, name)
        for it in [*others, name]:
            copy_changed(f"{self.top}/crates/{it}", self.crate_at(name, it))
        for it in others:
            library = f"{self.crate_at(name, it)}/out/rlib"
            shutil.rmtree(library, ignore_errors=True)
            os.makedirs(os.path.dirname(library), exist_ok=True)
            shutil.copytree(f"{self.crate_at(it, it)}/out/rlib", library, copy_function=os.link)
        with open(f"{self.cache}/{name}/crates.txt", "w", encoding="utf-8") as file:
            file.writelines(f"{it}: {' '.join(self.crates[it])}\n" for it in [*others, name])
        shutil.copyfile(f"{self.top}/HANDLES", f"{self.cache}/{name}/HANDLES")

    def start(self, name, jobs):
        """Starts the check of a crate whose libraries are all there."""
        self.prepare(name)
        with contextlib.suppress(FileNotFoundError):
            os.remove(self.stamp(name))
        # The program is run once without words, which it refuses at once.
        words = ["rt", "run"] if name == PROGRAM else ["rt", "lib"]
        with open(f"{self.cache}/{name}/log", "w", encoding="utf-8") as log:
            self.running[name] = subprocess.Popen(
                [*words, "--jobs", str(jobs)],
                cwd=self.crate_at(name, name),
                stdin=subprocess.DEVNULL,
                stdout=log,
                stderr=subprocess.STDOUT,
                start_new_session=True,
            )

    def log_of(self, name):
        with open(f"{self.cache}/{name}/log", encoding="utf-8", errors="replace") as log:
            return log.read()

    def finish(self, name):
        """Takes in a check that has ended, and returns whether the crate is proved."""
        status = self.running.pop(name).returncode
        is_proved = PROVED.search(self.log_of(name)) is not None
        product = f"{self.crate_at(name, name)}/out/{'rlib' if name != PROGRAM else name}"
        if not os.path.exists(product) or not (is_proved if name == PROGRAM else status == 0):
            return False
        with open(self.stamp(name), "w", encoding="utf-8") as file:
            file.write(self.sums[name])
        self.done.add(name)
        return True

    def show(self, at_end=False):
        """Says what is at work, how much is done and how long it has taken: on a terminal in one line that is renewed."""
        spent = int(time.monotonic() - self.started)
        line = f"aspq: {len(self.done)} of {len(self.order)} crates proved"
        if self.running:
            line += f", at work: {' '.join(self.running)}"
        after = f" ({spent // 60} min {spent % 60:02} s)"
        if sys.stderr.isatty():
            print(f"\r\033[K{line}{after}", end="\n" if at_end else "", file=sys.stderr, flush=True)
        elif line != self.shown or at_end:
            print(f"{line}{after}", file=sys.stderr, flush=True)
        self.shown = line

    def stop(self):
        """Ends the checks that are at work."""
        for process in self.running.values():
            with contextlib.suppress(ProcessLookupError):
                os.killpg(process.pid, signal.SIGTERM)
        for process in self.running.values():
            process.wait()

    def heights(self):
        """Returns for each crate how much text stands on the longest chain of crates from it upwards, itself included."""
        heights = collections.Counter()
        for name in reversed(self.order):
            folder = f"{self.top}/crates/{name}"
            above = max((heights[it] for it in self.order if name in self.crates[it]), default=0)
            heights[name] = above + sum(os.path.getsize(f"{folder}/{it}") for it in files_of(folder))
        return heights

    def ready(self, heights):
        """Returns the crates that can be started, the one with the longest chain first."""
        waiting = [it for it in self.order if it not in self.done and it not in self.running]
        able = [it for it in waiting if self.done.issuperset(below(self.crates, it))]
        return sorted(able, key=lambda it: -heights[it])

    def run(self):
        """Proves what isn't proved yet, and returns the first crate that fails, if one does."""
        places, heights = places_at_once(), self.heights()
        while len(self.done) < len(self.order):
            able = self.ready(heights)
            while able and len(self.running) < places:
                name = able.pop(0)
                # Each further job costs processor time, so only what the longest chain waits for gets more than one.
                is_longest = all(heights[name] > heights[it] for it in self.running)
                is_alone = not able and not self.running
                self.start(name, places if is_alone else min(places, 2) if is_longest else 1)
            self.show()
            time.sleep(0.2)
            for name in [it for it, process in self.running.items() if process.poll() is not None]:
                if not self.finish(name):
                    return name
        return None


def places_at_once():
    """Returns how many checks run at once: one for each processor, as memory allows."""
    with contextlib.suppress(OSError), open("/proc/meminfo", encoding="utf-8") as it:
        free = int(re.search(r"MemAvailable:\s+(\d+)", it.read()).group(1)) * 1024
        return max(1, min(len(os.sched_getaffinity(0)), free // NEED))
    return 1


def cache_of(top):
    """Returns the folder in which the crates of this checkout are checked."""
    home = os.environ.get("XDG_CACHE_HOME") or os.path.expanduser("~/.cache")
    return f"{home}/aspq/{hashlib.sha256(top.encode()).hexdigest()[:16]}"


def main():
    if not shutil.which("rt"):
        print(
            "aspq: the command rt of the Rattle kit is not on the path.\n"
            "Unpack the kit and put its folder bin on the path (export PATH=KIT/bin:$PATH); docs/proving.md names the kit.",
            file=sys.stderr,
        )
        return 1
    top = os.path.realpath(sys.argv[1])
    cache = cache_of(top)
    os.makedirs(cache, exist_ok=True)
    with open(f"{cache}/lock", "w", encoding="utf-8") as lock:
        try:
            fcntl.flock(lock, fcntl.LOCK_EX | fcntl.LOCK_NB)
        except BlockingIOError:
            print("aspq: another call is building; waiting for it", file=sys.stderr, flush=True)
            fcntl.flock(lock, fcntl.LOCK_EX)
        build = Build(top, cache)
        signal.signal(signal.SIGTERM, lambda *_: sys.exit(143))
        try:
            failed = build.run()
            build.show(at_end=True)
        except KeyboardInterrupt:
            print("\naspq: stopped; the next call goes on from what is proved", file=sys.stderr)
            return 130
        finally:
            build.stop()
        if failed:
            print(*build.log_of(failed).splitlines()[-TAIL:], sep="\n", file=sys.stderr)
            print(f"aspq: the crate {failed} could not be proved; the log ends as shown", file=sys.stderr)
            return 1
        out = f"{top}/crates/{PROGRAM}/out"
        os.makedirs(out, exist_ok=True)
        shutil.copy2(f"{build.crate_at(PROGRAM, PROGRAM)}/out/{PROGRAM}", f"{out}/.{PROGRAM}")
        os.replace(f"{out}/.{PROGRAM}", f"{out}/{PROGRAM}")
    return 0


if __name__ == "__main__":
    sys.exit(main())
