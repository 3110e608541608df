#!/usr/bin/env python3
"""Shows what the metadata of an hour of film takes to load, as a multiple of what dd takes for the same bytes.

usage: bench/load.py [PROGRAM]

PROGRAM is the built vodpack, by default crates/vodpack/out/vodpack. ffmpeg makes a minute of small pictures at 25 a second, two of three
out of order, and of audio at 48000, and joins sixty of it to one film of some 35 MB: 90,000 pictures, 168,840 samples of audio and a
movie box of some 2.5 MB, in a folder that is removed again. `get` of a segment behind the last one loads the metadata of the film by
`vod_meta::load` (it reads the movie box, checks the tables of all tracks and puts down their indexes), finds with a few looks that there
is no such segment, and ends refused, with status 2. Its processor time, user and system, is the least of several runs, less the least of
a run with no words, which writes the usage line. dd copies the movie box in pieces of 65,536 bytes to /dev/null, and its time is taken
likewise, less that of a dd of no bytes. All is measured by turns, and the files are in the page cache.

The aim for loading metadata is at most 5 times dd; the status is 0 where it is met, or where there is no ffmpeg with libx264 and aac.
"""
import os
import shutil
import subprocess
import sys
import tempfile

AIM = 5
RUNS = 20
PATH = "/local/dash/hour.mp4/fragment-99999-v1.m4s"
MINUTE = [
    *("-f", "lavfi", "-i", "testsrc=size=128x72:rate=25:duration=60", "-f", "lavfi", "-i", "sine=frequency=440:sample_rate=48000:duration=60"),
    *("-c:v", "libx264", "-preset", "ultrafast", "-bf", "2", "-g", "50", "-pix_fmt", "yuv420p", "-c:a", "aac", "-b:a", "32k", "minute.mp4"),
]
HOUR = ["-stream_loop", "59", "-i", "minute.mp4", "-c", "copy", "hour.mp4"]


def has_codecs():
    if shutil.which("ffmpeg") is None:
        return False
    listed = subprocess.run(["ffmpeg", "-v", "error", "-encoders"], capture_output=True, text=True).stdout
    return " libx264 " in listed and " aac " in listed


def boxes(data, at, end):
    """The boxes between two places: the kind of each, and where it begins and ends, and where its body begins."""
    while at < end:
        size, body = int.from_bytes(data[at : at + 4], "big"), at + 8
        if size == 1:
            size, body = int.from_bytes(data[at + 8 : at + 16], "big"), at + 16
        yield data[at + 4 : at + 8], at, at + size, body
        at += size


def sample_counts(data, at, end):
    """The number of samples of each track in the boxes between two places."""
    for kind, _, until, body in boxes(data, at, end):
        if kind == b"stsz":
            yield int.from_bytes(data[body + 8 : body + 12], "big")
        elif kind in (b"trak", b"mdia", b"minf", b"stbl"):
            yield from sample_counts(data, body, until)


def processor_time(words, folder, status):
    """The processor seconds of a command that ends with this status."""
    run = subprocess.Popen(words, cwd=folder, stdin=subprocess.DEVNULL, stdout=subprocess.DEVNULL, stderr=subprocess.DEVNULL)
    _, ended, used = os.wait4(run.pid, 0)
    run.returncode = os.waitstatus_to_exitcode(ended)
    if run.returncode != status:
        raise SystemExit(f"{' '.join(words)} ended with {run.returncode}")
    return used.ru_utime + used.ru_stime


def main():
    here = os.path.dirname(os.path.abspath(__file__))
    program = os.path.abspath(sys.argv[1] if len(sys.argv) > 1 else f"{here}/../crates/vodpack/out/vodpack")
    if not os.access(program, os.X_OK):
        print(f"there is no program {program}: build it with rt run in crates/vodpack, or name it")
        return 2
    if not has_codecs():
        print("ffmpeg with libx264 and aac isn't installed: nothing is measured")
        return 0
    folder = tempfile.mkdtemp()
    try:
        for words in (MINUTE, HOUR):
            subprocess.run(["ffmpeg", "-v", "error", *words], cwd=folder, stdin=subprocess.DEVNULL, check=True)
        with open(f"{folder}/hour.mp4", "rb") as file:
            film = file.read()
        start, end, body = next(it[1:] for it in boxes(film, 0, len(film)) if it[0] == b"moov")
        counts = list(sample_counts(film, body, end))
        print(f"film {len(film)} bytes, movie box {end - start} bytes, {' and '.join(map(str, counts))} samples")
        copy = ["dd", "if=hour.mp4", "of=/dev/null", "bs=64k", "iflag=count_bytes,skip_bytes", f"skip={start}"]
        commands = [
            ([program, "get", ".", "-", PATH], 2),
            ([program], 1),
            ([*copy, f"count={end - start}"], 0),
            ([*copy, "count=0"], 0),
        ]
        rounds = [[processor_time(words, folder, status) for words, status in commands] for _ in range(RUNS)]
        get, usage, dd, none = (1000 * min(times) for times in zip(*rounds))
        load, copied = get - usage, dd - none
        print(f"{PATH.split('/')[-1]}: {get:.2f} ms of processor time, less {usage:.2f} ms with no words: {load:.2f} ms")
        print(f"dd of the movie box: {dd:.2f} ms, less {none:.2f} ms for no bytes: {copied:.2f} ms")
        ratio = load / copied if copied > 0 else float("inf")
        print(f"ratio {ratio:.1f}, aim at most {AIM}; to the whole run of dd {load / dd:.1f}")
        return 0 if ratio <= AIM else 1
    finally:
        shutil.rmtree(folder, ignore_errors=True)


if __name__ == "__main__":
    sys.exit(main())
