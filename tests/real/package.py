#!/usr/bin/env python3
"""Packages real films into folders, each file of a packaging by one request, and plays the folders.

usage: tests/real/package.py [PROGRAM]

PROGRAM is the built vodpack, by default crates/vodpack/out/vodpack. ffmpeg makes two films. For each of several targets and settings
the master playlist or the description is asked for, then every list and segment that it names, into a folder of its own. ffmpeg's HLS
and DASH readers play each folder from there: every decoded picture is the film's, and every packet of audio but the encoder's first,
which the edit list cuts off. Where Python's m3u8 and mpegdash are installed, they read each list and find the segments that stand in
the folder, their durations and the languages. The status is 0 where all passed, or where there is no ffmpeg with libx264 and aac.
"""
import json
import os
import re
import shutil
import subprocess
import sys
import tempfile

try:
    import m3u8
except ImportError:
    m3u8 = None
try:
    from mpegdash.parser import MPEGDASHParser
except ImportError:
    MPEGDASHParser = None

FILM = [
    *("-f", "lavfi", "-i", "testsrc2=size=160x90:rate=25:duration=21", "-f", "lavfi", "-i", "sine=frequency=440:sample_rate=48000:duration=21"),
    *("-c:v", "libx264", "-preset", "fast", "-bf", "2", "-g", "50", "-pix_fmt", "yuv420p", "-c:a", "aac", "-b:a", "64k", "-ac", "2"),
]
OTHER = ["-f", "lavfi", "-i", "sine=frequency=700:sample_rate=48000:duration=21", "-c:a", "aac", "-b:a", "64k", "-ac", "2"]

# A film with its own sound, and sounds of two languages beside its pictures.
MAPPING = {
    "sequences": [
        {"clips": [{"path": "film.mp4", "tracks": "v1"}]},
        {"language": "eng", "label": "English", "clips": [{"path": "film.mp4", "tracks": "a1"}]},
        {"language": "deu", "label": "Deutsch", "clips": [{"path": "other.m4a"}]},
    ]
}


class Failed(Exception):
    """What went wrong with a packaging."""


def run(words, folder, what):
    ran = subprocess.run(words, cwd=folder, capture_output=True)
    if ran.returncode != 0:
        raise Failed(f"{what}: {ran.stderr.decode(errors='replace')[-300:]}")
    return ran.stdout


def ask(program, films, settings, path, folder):
    """Asks for a path and keeps the answer under its last word."""
    name = path.split("/")[-1]
    body = run([program, "get", films, settings, path], films, path)
    with open(f"{folder}/{name}", "wb") as file:
        file.write(body)
    return body.decode(errors="replace")


def named_in(name, text):
    """What a list names, and nothing where the name isn't that of a list."""
    if name.endswith(".m3u8"):
        return re.findall(r'URI="([^"]+)"', text) + [line for line in text.splitlines() if line and line[0] != "#"]
    if name.endswith(".mpd"):
        return re.findall(r'(?:sourceURL|media)="([^"]+)"', text)
    return []


def package(program, films, settings, target, top, folder):
    """Asks for a list, and for all that it and the lists that it names do name."""
    left, seen = [top], set()
    while left:
        name = left.pop()
        if name in seen:
            continue
        seen.add(name)
        text = ask(program, films, settings, f"{target}/{name}", folder)
        left += named_in(name, text)
    return seen


def checksums(file, stream, options, output, folder):
    words = ["ffmpeg", "-nostdin", "-v", "fatal", *options, "-i", file, "-map", f"0:{stream}", *output, "-f", "framehash", "-hash", "md5", "-"]
    lines = run(words, folder, file).decode().splitlines()
    return [re.split(", *", line)[5] for line in lines if line and line[0] != "#"]


def pictures(file, options, folder):
    return checksums(file, "v:0", options, ["-fps_mode", "passthrough"], folder)


def sounds(file, stream, options, folder):
    return checksums(file, f"a:{stream}", options, ["-c", "copy", "-bsf:a", "aac_adtstoasc"], folder)


def compare(films, top, folder, heard):
    """Whether the folder plays as the films do; `heard` names the film of each stream of audio."""
    options = ["-allowed_extensions", "ALL"] if top.endswith(".m3u8") else []
    want = pictures("film.mp4", [], films)
    have = pictures(top, options, folder)
    if not want or have != want:
        raise Failed(f"{len(have)} pictures of {len(want)}, or others")
    for stream, film in enumerate(heard):
        want = sounds(film, 0, ["-ignore_editlist", "1"], films)[1:]
        have = sounds(top, stream, options, folder)
        if not want or have != want:
            raise Failed(f"audio {stream}: {len(have)} packets of {len(want)}, or others")
    return len(want)


def read_playlists(names, folder):
    """What Python's m3u8 finds in the playlists of a folder."""
    for name in sorted(it for it in names if it.endswith(".m3u8")):
        found = m3u8.load(f"{folder}/{name}")
        with open(f"{folder}/{name}") as file:
            text = file.read()
        lasting = [float(it) for it in re.findall(r"#EXTINF:([0-9.]+),", text)]
        if [it.duration for it in found.segments] != lasting or not all(it.uri in names for it in found.segments):
            raise Failed(f"m3u8 reads {name} otherwise")
        if lasting and found.target_duration < max(round(it) for it in lasting):
            raise Failed(f"{name} has a target duration that is too short")
        languages = re.findall(r'LANGUAGE="([a-z]+)"', text)
        if [it.language for it in found.media if it.language] != languages:
            raise Failed(f"m3u8 finds other languages in {name}")
        if name == "master.m3u8" and not found.playlists:
            raise Failed("m3u8 finds no variant")


def read_description(names, folder):
    """What Python's mpegdash finds in a description."""
    found = MPEGDASHParser.parse(f"{folder}/manifest.mpd")
    for period in found.periods:
        for own in period.adaptation_sets:
            for representation in own.representations:
                for segments in representation.segment_lists:
                    urls = [it.media for it in segments.segment_urls]
                    times = [it for timeline in segments.segment_timelines for it in timeline.Ss]
                    if not urls or len(urls) != len(times) or not all(it in names for it in urls):
                        raise Failed(f"mpegdash reads {representation.id} otherwise")
                    if any(one.t + one.d != two.t for one, two in zip(times, times[1:])):
                        raise Failed(f"the times of {representation.id} don't meet")


def packaging(program, films, settings, target, top, heard):
    folder = tempfile.mkdtemp()
    try:
        names = package(program, films, settings, target, top, folder)
        compare(films, top, folder, heard)
        if top.endswith(".mpd"):
            if MPEGDASHParser:
                read_description(names, folder)
        elif m3u8:
            read_playlists(names, folder)
        print(f"ok      {target}/{top} {settings}: {len(names)} files")
        return True
    except Failed as failed:
        if "refused 14 " in str(failed):
            print(f"left out {target}/{top}: the program says that this form isn't built")
            return True
        print(f"FAILED  {target}/{top} {settings}: {failed}")
        return False
    finally:
        shutil.rmtree(folder, ignore_errors=True)


def main():
    here = os.path.dirname(os.path.abspath(__file__))
    program = os.path.abspath(sys.argv[1] if len(sys.argv) > 1 else f"{here}/../../crates/vodpack/out/vodpack")
    if not shutil.which("ffmpeg"):
        print("skipped: there is no ffmpeg")
        return 0
    encoders = subprocess.run(["ffmpeg", "-hide_banner", "-encoders"], capture_output=True, text=True).stdout
    if " libx264 " not in encoders or " aac " not in encoders:
        print("skipped: ffmpeg has no libx264 or no aac")
        return 0
    if not os.access(program, os.X_OK):
        print(f"there is no program {program}: build it with rt run in crates/vodpack, or name it")
        return 2
    films = tempfile.mkdtemp()
    try:
        run(["ffmpeg", "-nostdin", "-v", "error", "-y", *FILM, "film.mp4"], films, "film.mp4")
        run(["ffmpeg", "-nostdin", "-v", "error", "-y", *OTHER, "other.m4a"], films, "other.m4a")
        for name, value in (("m.json", MAPPING), ("fmp4.json", {"hls_fmp4": True}), ("keys.json", {"iframes": True, "align": True})):
            with open(f"{films}/{name}", "w") as file:
                json.dump(value, file)
        passed = [
            packaging(program, films, settings, target, top, heard)
            for target, top, heard, every in (
                ("/local/hls/film.mp4", "master.m3u8", ["film.mp4"], ("-", "fmp4.json", "keys.json")),
                ("/mapped/hls/m.json", "master.m3u8", ["film.mp4", "other.m4a"], ("-", "fmp4.json")),
                ("/local/dash/film.mp4", "manifest.mpd", ["film.mp4"], ("-", "keys.json")),
                ("/mapped/dash/m.json", "manifest.mpd", ["film.mp4", "other.m4a"], ("-",)),
            )
            for settings in every
        ]
        print(f"{sum(passed)} passed, {len(passed) - sum(passed)} failed")
        return 0 if all(passed) else 1
    finally:
        shutil.rmtree(films, ignore_errors=True)


if __name__ == "__main__":
    sys.exit(main())
