#!/usr/bin/env python3
"""Takes the processor time of single requests by `get` over an hour of film, beside that of dd for as many bytes.

usage: bench/get.py [PROGRAM]

PROGRAM is the built vodpack, by default crates/vodpack/out/vodpack. The film is that of bench/served.py: an hour with a movie box of some
2.5 MB. A fragment and a transport stream of 50 seconds have some 3 MB, and the media playlist has 360 segments of ten seconds. Each time, user
and system, is the least of several runs, less the least of a run with no words, which writes the usage line; that of dd, which copies as
many bytes of the film in pieces of 65,536, is taken likewise, less that of a dd of no bytes. `load` is an initialization segment: all
metadata. All is measured by turns in one run, with the files in the page cache. The status is 0 where the aims are met, or without ffmpeg.
"""
import os
import shutil
import subprocess
import sys
import tempfile

from load import has_codecs, processor_time
from served import make_film

RUNS = 20
NAMES = {"load": "dash/film.mp4/init-c1-v1.mp4", "fragment": "dash/film.mp4/fragment-30-v1-a1.m4s", "stream": "hls/film.mp4/seg-30-v1-a1.ts", "list": "hls/film.mp4/index-v1-a1.m3u8"}


def main():
    here = os.path.dirname(os.path.abspath(__file__))
    program = os.path.abspath(sys.argv[1] if len(sys.argv) > 1 else f"{here}/../crates/vodpack/out/vodpack")
    if not os.access(program, os.X_OK):
        print(f"there is no program {program}: build it with rt run in crates/vodpack, or name it")
        return 2
    if not has_codecs():
        print("ffmpeg with libx264 and aac isn't installed: nothing is measured")
        return 0
    folder = tempfile.mkdtemp()
    try:
        print(f"film {make_film(folder)} bytes")
        with open(f"{folder}/long.json", "w") as file:
            file.write('{"segment_ms":50000}')
        words = {name: [program, "get", ".", "-" if name == "list" else "long.json", f"/local/{path}"] for name, path in NAMES.items()}
        sizes = {name: len(subprocess.run(it, cwd=folder, capture_output=True, check=True).stdout) for name, it in words.items()}
        copy = ["dd", "if=film.mp4", "of=/dev/null", "bs=64k", "iflag=count_bytes"]
        commands = {"usage": ([program], 1), "none": ([*copy, "count=0"], 0)}
        for name, it in words.items():
            commands[name] = (it, 0)
            commands[f"dd {name}"] = ([*copy, f"count={sizes[name]}"], 0)
        rounds = [{name: processor_time(*[it[0], folder, it[1]]) for name, it in commands.items()} for _ in range(RUNS)]
        least = {name: 1000 * min(it[name] for it in rounds) for name in commands}
        took = {name: least[name] - least["usage"] for name in words}
        copied = {name: max(0.01, least[f"dd {name}"] - least["none"]) for name in words}
        for name, path in NAMES.items():
            print(f"{path.split('/')[-1]}: {sizes[name]} bytes, {took[name]:.2f} ms; dd of as many {copied[name]:.2f} ms")
        aims = [
            ("fragment", took["fragment"] - took["load"], copied["fragment"], 2, "dd, behind the load"),
            ("stream", took["stream"] - took["load"], copied["stream"], 4, "dd, behind the load"),
            ("list", took["list"], took["load"], 3, "loads"),
        ]
        met = True
        for name, own, unit, most, of in aims:
            print(f"{name}: {own / unit:.1f} times {of}, aim at most {most}")
            met = met and own <= most * unit
        return 0 if met else 1
    finally:
        shutil.rmtree(folder, ignore_errors=True)


if __name__ == "__main__":
    sys.exit(main())
