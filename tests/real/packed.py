#!/usr/bin/env python3
"""Lets the command `pack` write whole packagings of a film of two minutes, and plays them.

usage: tests/real/packed.py [PROGRAM]

PROGRAM is the built vodpack, by default crates/vodpack/out/vodpack. ffmpeg makes the film. What `pack` writes for each list is cut
into its names: each has a line with its length, and then so many bytes. Every name that the lists name stands there once, `get`
answers each with the same bytes, and ffmpeg's HLS and DASH readers play the folder of them as package.py says. The status is 0 where all
passed, or where there is no ffmpeg with libx264 and aac.
"""
import os
import shutil
import subprocess
import sys
import tempfile

from package import Failed, compare, named_in, run

FILM = [
    *("-f", "lavfi", "-i", "testsrc2=size=160x90:rate=25:duration=120", "-f", "lavfi", "-i", "sine=frequency=440:sample_rate=48000:duration=120"),
    *("-c:v", "libx264", "-preset", "fast", "-bf", "2", "-g", "50", "-pix_fmt", "yuv420p", "-c:a", "aac", "-b:a", "64k", "-ac", "2"),
]

# The name of each case, its settings, and the path of its list.
CASES = [
    ("transport streams", "plain.json", "/local/hls/film.mp4/master.m3u8"),
    ("HLS of fragments", "fmp4.json", "/local/hls/film.mp4/master.m3u8"),
    ("DASH", "plain.json", "/local/dash/film.mp4/manifest.mpd"),
]


def cut(text):
    """The names of a packaging and their bytes, in order."""
    at, entries = 0, []
    while at < len(text):
        end = text.index(b"\n", at)
        name, length = text[at:end].decode().split(" ")
        at = end + 1 + int(length)
        if at > len(text):
            raise Failed(f"{name} ends behind the packaging")
        entries.append((name, text[end + 1 : at]))
    return entries


def packaging(program, films, settings, path):
    """Packs a list, and compares it name by name; the number of names, and of the pictures that ffmpeg plays."""
    target, top = path.rsplit("/", 1)
    entries = cut(run([program, "pack", films, settings, path], films, path))
    names = [name for name, _ in entries]
    if not names or names[0] != top or len(set(names)) != len(names):
        raise Failed(f"{top} isn't the first name, or a name stands twice")
    named = {top}
    for name, body in entries:
        named |= set(named_in(name, body.decode(errors="replace")))
        if run([program, "get", films, settings, f"{target}/{name}"], films, name) != body:
            raise Failed(f"get answers {name} otherwise")
    if named != set(names):
        raise Failed(f"named and not packed, or packed and not named: {sorted(named ^ set(names))}")
    folder = tempfile.mkdtemp()
    try:
        for name, body in entries:
            with open(f"{folder}/{name}", "wb") as file:
                file.write(body)
        return len(names), compare(films, top, folder, ["film.mp4"])
    finally:
        shutil.rmtree(folder)


def main():
    here = os.path.dirname(os.path.abspath(__file__))
    program = os.path.abspath(sys.argv[1] if len(sys.argv) > 1 else f"{here}/../../crates/vodpack/out/vodpack")
    if not shutil.which("ffmpeg"):
        print("skipped: there is no ffmpeg")
        return 0
    encoders = subprocess.run(["ffmpeg", "-hide_banner", "-encoders"], capture_output=True).stdout
    if b" libx264 " not in encoders or b" aac " not in encoders:
        print("skipped: ffmpeg has no encoder libx264 or aac")
        return 0
    if not os.access(program, os.X_OK):
        print(f"there is no program {program}: build it with rt run in crates/vodpack, or name it")
        return 2
    films, failed = tempfile.mkdtemp(), 0
    try:
        run(["ffmpeg", "-nostdin", "-v", "error", *FILM, "film.mp4"], films, "the film")
        for name, text in [("plain.json", "{}"), ("fmp4.json", '{"hls_fmp4":true}')]:
            with open(f"{films}/{name}", "w") as file:
                file.write(text)
        for what, settings, path in CASES:
            try:
                names, pictures = packaging(program, films, settings, path)
                print(f"ok      {what}: {names} names, {pictures} pictures")
            except Failed as error:
                failed += 1
                print(f"FAILED  {what}: {error}")
    finally:
        shutil.rmtree(films)
    return 1 if failed else 0


if __name__ == "__main__":
    sys.exit(main())
