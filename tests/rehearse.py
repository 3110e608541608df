#!/usr/bin/env python3
"""Compares the lines of `vodpack rehearse N` to a model that is written from the same rules, with the lists of tests/model.py.

usage: tests/rehearse.py [--jobs J] [PROGRAM [FIRST [LAST]]]

PROGRAM is the built vodpack, by default crates/vodpack/out/vodpack; it is run for each N from FIRST to LAST, by default 0 and 40, J runs
at once, by default 1. For N the program builds a film and a mapping in memory, and tells how many segments the media playlist of
v1-a1 lists, how many samples of video and audio are in them, and of how many bytes. The film and the mapping are told by `film` and
`mapping` below. A run passes where it ends with status 0, writes the model's line and nothing else, and nothing on standard error. The
model is first tried on two lines that were worked out elsewhere. The status is 0 where all passed.
"""
import os
import subprocess
import sys
import time
from concurrent.futures import ThreadPoolExecutor

from boxes import u32
from model import UNITS, Cells, answer, checked, counts_of, selected, timeline

KNOWN = {0: (65, 9344, 22344), 1: (66, 9315, 1234810)}
SETTINGS = {"segment_ms": 2000}
GRID = {"step": 2000, "bootstrap": [], "policy": "last_short"}
ASKED = {"v": 1, "a": 1}


# The film and the mapping of a number


class Track:
    """A track without an edit list: its samples are (ticks, offset, delta, sync, bytes)."""

    entry, edit_fault = b"", None

    def __init__(self, kind, codec, scale, samples):
        self.kind, self.codec, self.scale, self.samples = kind, codec, scale, samples

    def cut(self, honoured):
        return 0, 0, 0

    def units(self, ticks):
        return ticks * UNITS // self.scale


def film(n):
    """The video has 25 ticks a second and runs of 500 samples with a delta each, the audio 48000 and one delta."""
    pictures, ticks = [], 0
    for i in range(5000 + 250 * (n % 20)):
        size, delta = 1 + i * (n % 251) % 200, 1 + n // 20 * (i // 500) % 2
        pictures.append((ticks, 2, delta, i % (10 + n % 41) == 0, u32(size) + bytes(size)))
        ticks += delta
    sounds = [(1024 * i, 0, 1024, True, bytes(1 + i * (n % 127) % 300)) for i in range(15000)]
    return [Track("v", "avc1", 25, pictures), Track("a", "mp4a", 48000, sounds)]


def mapping(n):
    """Two clips of the film, the second from a place of its own on."""
    clips = [{"type": "source", "path": "/m.mp4"}, {"type": "source", "path": "/m.mp4", "clipFrom": n % 50000}]
    return {"durations": [80000 + n % 80000, 50000 + n % 100000], "sequences": [{"clips": clips}]}


# What the program must tell


def segments(films, mapped):
    """The number of each listed segment, and its rows of both kinds."""
    parts = timeline(mapped, 1, (None, None), None)
    counts = counts_of(films, GRID, parts, ASKED, "v", True)
    before = 0
    for part, count in zip(parts, counts):
        own = {kind: [] for kind in ASKED}
        for piece in part[2]:
            for kind, rows in selected(piece, checked(films, piece, ASKED, True), "v", True).items():
                own[kind] += rows
        leads = own["v"]
        cut = Cells(GRID, False, part, count, leads)
        for k in range(count):
            first, last = cut.place(k), cut.place(k + 1)
            if first < last:
                begins = leads[first].time
                heard = [row for row in own["a"] if row.time >= begins and (last == len(leads) or row.time < leads[last].time)]
                yield before + k + 1, leads[first:last] + heard
        before += count


def told(n):
    """The numbers of segments, samples and bytes."""
    films, mapped = {"m.mp4": film(n)}, mapping(n)
    found = list(segments(films, mapped))
    ask = {"window": (None, None), "tracks": None, "sequence": 1, "asked": ASKED, "named": "v1-a1", "stream": False, "list": None}
    lines = answer(films, mapped, SETTINGS, ask)[0].decode().split("\n")
    assert [line for line in lines if line.startswith("seg-")] == [f"seg-{number}-f1-v1-a1.ts" for number, _ in found]
    return len(found), sum(len(rows) for _, rows in found), sum(len(row.data) for _, rows in found for row in rows)


def line_of(n, numbers):
    return b"rehearse %d segments %d samples %d media %d\n" % (n, *numbers)


# Runs


def rehearse(program, n):
    """The status of a run, what it wrote, and how long it took."""
    start = time.perf_counter()
    ran = subprocess.run([program, "rehearse", str(n)], stdin=subprocess.DEVNULL, capture_output=True)
    return (ran.returncode, ran.stdout, ran.stderr), time.perf_counter() - start


def words_of(words):
    """The number of jobs, and the other words; none where they are of no form."""
    jobs, rest = 1, list(words)
    if "--jobs" in rest:
        place = rest.index("--jobs")
        jobs = int(rest[place + 1]) if rest[place + 1 : place + 2] and rest[place + 1].isdigit() else 0
        del rest[place : place + 2]
    if jobs < 1 or len(rest) > 3 or not all(word.isdigit() for word in rest[1:]):
        return None
    return jobs, rest


def main():
    here = os.path.dirname(os.path.abspath(__file__))
    words = words_of(sys.argv[1:])
    if words is None:
        print("usage: tests/rehearse.py [--jobs J] [PROGRAM [FIRST [LAST]]]")
        return 2
    jobs, words = words
    program = os.path.abspath(words[0] if words else f"{here}/../crates/vodpack/out/vodpack")
    if not os.access(program, os.X_OK):
        print(f"there is no program {program}: build it with rt run in crates/vodpack, or name it")
        return 2
    first = int(words[1]) if len(words) > 1 else 0
    last = int(words[2]) if len(words) > 2 else max(first, 40)
    for n, numbers in KNOWN.items():
        if told(n) != numbers:
            print(f"the model tells {told(n)} of {n}, and {numbers} is known")
            return 1
    differing, slowest, numbers = [], (0, first), range(first, last + 1)
    with ThreadPoolExecutor(jobs) as pool:
        runs = [pool.submit(rehearse, program, n) for n in numbers]
        for n, run in zip(numbers, runs):
            want = (0, line_of(n, told(n)), b"")
            have, took = run.result()
            slowest = max(slowest, (took, n))
            if have != want:
                differing.append(n)
                print(f"{n} differs: want {want}, have {have}", flush=True)
    print(f"rehearse {first} to {last}: {len(numbers) - len(differing)} of {len(numbers)} lines are the model's, slowest {slowest[1]} with {slowest[0]:.1f} s")
    return 1 if differing or not numbers else 0


if __name__ == "__main__":
    sys.exit(main())
