#!/usr/bin/env python3
"""Runs the merge gate and tells what it costs: for each crate the processor time of its proof, of its tests and of its edits.

usage: bench/gate.py [WORD..]

The words go to `rt ci`, by default `--anew`, which proves everything from nothing. Every half second the processes of the run are
looked at; the time of each counts for the crate that it names, and for the tests or an edit of it where its command says so. The log
goes to gate.log, each line with its second. At the end a table is printed, and the chain of crates, each standing on the one
before it, that took longest from start to end. The status is that of `rt ci`. It isn't part of the gate.
"""
import os
import re
import subprocess
import sys
import threading
import time

TICKS = os.sysconf("SC_CLK_TCK")


def status_of(pid):
    """The parent and the processor seconds of a process, its ended children included, or none where it is gone."""
    try:
        with open(f"/proc/{pid}/stat") as file:
            fields = file.read().rsplit(")", 1)[1].split()
        return int(fields[1]), sum(int(it) for it in fields[11:15]) / TICKS
    except (OSError, IndexError):
        return None


def words_of(pid):
    try:
        with open(f"/proc/{pid}/cmdline", "rb") as file:
            return file.read().decode(errors="replace").split("\0"), os.readlink(f"/proc/{pid}/cwd")
    except OSError:
        return [], ""


class Meter:
    """Adds up what the processes below one process take."""

    def __init__(self, root):
        self.root, self.seen, self.names = root, {}, {}

    def look(self):
        parents, times = {}, {}
        for name in os.listdir("/proc"):
            found = status_of(name) if name.isdigit() else None
            if found:
                parents[int(name)], times[int(name)] = found
        for pid in times:
            if self.is_below(pid, parents):
                words, folder = words_of(pid)
                if "--crate-name" in words:
                    crate = words[words.index("--crate-name") + 1]
                    self.seen[pid] = (crate, kind_of(words, folder), times[pid])

    def is_below(self, pid, parents):
        while pid in parents and pid != self.root:
            pid = parents[pid]
        return pid == self.root

    def totals(self):
        found = {}
        for crate, kind, seconds in self.seen.values():
            kind = "tests" if crate.endswith("_tests") else kind
            own = found.setdefault(crate.removesuffix("_tests"), {"proof": 0, "tests": 0, "edits": 0})
            own[kind] += seconds
        return found


def kind_of(words, folder):
    if "rt-edit" in folder:
        return "edits"
    return "tests" if "--test" in words else "proof"


def lines_of(top):
    """The lines of code, specs and proofs of each crate."""
    found = {}
    for crate in os.listdir(f"{top}/crates"):
        count = 0
        for folder, _, files in os.walk(f"{top}/crates/{crate}"):
            if "/out" not in folder:
                count += sum(sum(1 for _ in open(f"{folder}/{name}", "rb")) for name in files if name.endswith((".rt", ".antt")))
        found[crate] = count
    return found


def stands_on(top):
    found = {}
    with open(f"{top}/crates.txt") as file:
        for line in file:
            if ":" in line:
                name, below = line.split("#")[0].split(":")
                found[name.split()[0]] = below.split()
    return found


def longest_chain(below, spent):
    """The crates, each standing on the one before it, whose proofs took longest together."""
    best = {}

    def chain(crate):
        if crate not in best:
            before = max((chain(it) for it in below.get(crate, []) if it in below), default=(0, []))
            best[crate] = (before[0] + spent.get(crate, 0), before[1] + [crate])
        return best[crate]

    return max((chain(crate) for crate in below), default=(0, []))


def main():
    top = os.path.dirname(os.path.dirname(os.path.abspath(__file__)))
    start = time.time()
    run = subprocess.Popen(["rt", "ci", *(sys.argv[1:] or ["--anew"])], cwd=top, stdout=subprocess.PIPE, stderr=subprocess.STDOUT, text=True)
    meter, done = Meter(run.pid), threading.Event()

    def watch():
        while not done.wait(0.5):
            meter.look()

    watcher = threading.Thread(target=watch)
    watcher.start()
    last = ""
    with open("gate.log", "w") as log:
        for line in run.stdout:
            log.write(f"{time.time() - start:8.1f} {line}")
            last = line.strip() or last
    run.wait()
    done.set()
    watcher.join()
    totals, lines = meter.totals(), lines_of(top)
    print(f"{'crate':16} {'lines':>7} {'proof':>7} {'tests':>7} {'edits':>7}  processor seconds")
    for crate, own in sorted(totals.items(), key=lambda it: -sum(it[1].values())):
        print(f"{crate:16} {lines.get(crate, 0):7} {own['proof']:7.0f} {own['tests']:7.0f} {own['edits']:7.0f}")
    spent = sum(sum(own.values()) for own in totals.values()) / 60
    code = sum(lines.values()) / 1000
    print(f"{code:.1f} thousand lines, {spent:.0f} processor minutes, {spent / code:.2f} a thousand lines, {(time.time() - start) / 60:.0f} minutes in all")
    took, chain = longest_chain(stands_on(top), {crate: own["proof"] for crate, own in totals.items()})
    print(f"longest chain, proofs alone: {took / 60:.0f} processor minutes: {' '.join(chain)}")
    print(re.sub(r"\s+", " ", last))
    return run.returncode


if __name__ == "__main__":
    sys.exit(main())
