#!/usr/bin/env python3
"""Times one segment of an hour of film, in both forms, against a copy of as many bytes.

usage: bench/segment.py [PROGRAM]

PROGRAM is the built vodpack, by default crates/vodpack/out/vodpack. The film has 90,000 pictures at 25 a second, with a sync
sample every 2 seconds and frames out of order, and 168,750 samples of audio at 48000, in 3,600 chunks each that stand by
turns; each picture is one NAL unit, and the movie box stands behind the samples. It is made in a folder that is removed again, of
about 225 MB. For the first and the last segment of v1-a1, as a fragment and as a transport stream, the script prints the least
seconds of several runs, those of dd, and the ratio. The status is 0 where each segment took less than 2 seconds.
"""
import os
import shutil
import struct
import subprocess
import sys
import tempfile
import time

sys.path.insert(0, os.path.join(os.path.dirname(os.path.abspath(__file__)), "..", "tests"))
from boxes import box, full, u32

SECONDS = 3600
PICTURES = 25 * SECONDS
SOUNDS = 48000 * SECONDS // 1024
RUNS = 5
GOAL = 2.0


def runs(values):
    """The runs of equal values as (count, value)."""
    found = []
    for value in values:
        if found and found[-1][1] == value:
            found[-1][0] += 1
        else:
            found.append([1, value])
    return found


def mp4a():
    config = bytes([5, 2, 0x11, 0x90])
    decoder = bytes([4, 13 + len(config), 0x40, 0x15]) + bytes(11) + config
    es = bytes([3, 3 + len(decoder), 0, 1, 0]) + decoder
    head = bytes(6) + b"\0\1" + bytes(8) + struct.pack(">HH", 2, 16) + bytes(4) + u32(48000 << 16)
    return box(b"mp4a", head, full(b"esds", es))


def avc1():
    config = b"\x01\x42\xc0\x1e\xff\xe1\x00\x04\x67\x42\xc0\x1e\x01\x00\x04\x68\xce\x3c\x80"
    head = bytes(6) + b"\0\1" + bytes(16) + struct.pack(">HH", 640, 360) + bytes(50)
    return box(b"avc1", head, box(b"avcC", config))


def track(kind, timescale, delta, entry, sizes, chunks, offsets, keys):
    """The box of a track, whose chunks are (place, samples)."""
    tables = [full(b"stsd", u32(1), entry), full(b"stts", u32(1, len(sizes), delta))]
    if offsets:
        found = runs(offsets)
        tables.append(full(b"ctts", u32(len(found)), *(u32(*it) for it in found)))
    if keys:
        tables.append(full(b"stss", u32(len(keys), *keys)))
    first, counts = 1, []
    for count, samples in runs(samples for _, samples in chunks):
        counts.append(u32(first, samples, 1))
        first += count
    tables.append(full(b"stsc", u32(len(counts)), *counts))
    tables.append(full(b"stsz", u32(0, len(sizes), *sizes)))
    tables.append(full(b"stco", u32(len(chunks), *(place for place, _ in chunks))))
    header = full(b"mdhd", u32(0, 0, timescale, 0), b"\x55\xc4\0\0")
    handler = full(b"hdlr", u32(0), kind, bytes(13))
    return box(b"trak", box(b"mdia", header, handler, box(b"minf", box(b"stbl", *tables))))


def write_film(path):
    """Writes the film, and returns how long its movie box is."""
    pictures = [1500 + i * 7919 % 1000 for i in range(PICTURES)]
    sounds = [200 + i * 104729 % 100 for i in range(SOUNDS)]
    video, audio = [], []
    with open(path, "wb") as film:
        film.write(box(b"ftyp", b"isom", u32(0), b"isom"))
        film.write(u32(8 + sum(pictures) + sum(sounds)) + b"mdat")
        place, heard = film.tell(), 0
        for second in range(SECONDS):
            sizes = pictures[25 * second : 25 * second + 25]
            video.append((place, 25))
            film.write(b"".join(u32(size - 4) + b"\x41" + os.urandom(size - 5) for size in sizes))
            place += sum(sizes)
            until = min(SOUNDS, (48000 * (second + 1) + 1023) // 1024)
            size = sum(sounds[heard:until])
            audio.append((place, until - heard))
            film.write(os.urandom(size))
            place, heard = place + size, until
        # one picture that others need ahead, and then two that need it
        offsets = [(3, 0, 0)[i % 3] if i % 50 else 1 for i in range(PICTURES)]
        keys = list(range(1, PICTURES + 1, 50))
        movie = box(
            b"moov",
            track(b"vide", 25, 1, avc1(), pictures, video, offsets, keys),
            track(b"soun", 48000, 1024, mp4a(), sounds, audio, None, None),
        )
        film.write(movie)
    return len(movie)


def least(words, folder, out):
    """The least seconds of several runs of a command that succeeds."""
    best = None
    for _ in range(RUNS):
        with open(out, "wb") as to:
            start = time.perf_counter()
            subprocess.run(words, cwd=folder, stdout=to, stderr=subprocess.DEVNULL, check=True)
            took = time.perf_counter() - start
        best = took if best is None else min(best, took)
    return best


def main():
    here = os.path.dirname(os.path.abspath(__file__))
    program = f"{here}/../crates/vodpack/out/vodpack" if len(sys.argv) < 2 else sys.argv[1]
    program = os.path.abspath(program)
    if not os.access(program, os.X_OK):
        print(f"there is no program {program}: build it with rt run in crates/vodpack, or name it")
        return 2
    folder = tempfile.mkdtemp()
    try:
        movie = write_film(f"{folder}/film.mp4")
        size = os.path.getsize(f"{folder}/film.mp4")
        print(f"film {size} bytes, movie box {movie} bytes, {PICTURES} pictures, {SOUNDS} samples of audio")
        worst = 0
        names = ("dash/film.mp4/fragment-%d-v1-a1.m4s", "hls/film.mp4/seg-%d-v1-a1.ts")
        for name, number in ((name, number) for name in names for number in (1, SECONDS // 10)):
            path = f"/local/{name % number}"
            out = f"{folder}/out"
            took = least([program, "get", ".", "-", path], folder, out)
            length = os.path.getsize(out)
            skip = 0 if number == 1 else size - movie - length
            words = ["dd", "if=film.mp4", "bs=64k", f"count={length}", f"skip={skip}", "iflag=count_bytes,skip_bytes"]
            copied = least(words, folder, out)
            assert os.path.getsize(out) == length
            print(f"{name.split('/')[-1] % number}: {length} bytes, {took:.3f} s; dd {copied:.4f} s; ratio {took / copied:.0f}")
            worst = max(worst, took)
        print(f"slowest {worst:.3f} s, goal below {GOAL} s")
        return 0 if worst < GOAL else 1
    finally:
        shutil.rmtree(folder, ignore_errors=True)


if __name__ == "__main__":
    sys.exit(main())
