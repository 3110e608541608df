#!/usr/bin/env python3
"""Many requests of all kinds on one served origin, good and bad, for heads and for parts of clips too, over more films than are kept: each
reply must be that of `vodpack get`, or the part of it that is asked for, and memory mustn't grow after the first thousand.

usage: tests/soak.py [PROGRAM [COUNT [SEED]]]

PROGRAM is the built vodpack, by default crates/vodpack/out/vodpack; COUNT is 1000000. ffmpeg makes the films; where it is missing
nothing is tried.
"""
import json
import os
import random
import re
import shutil
import subprocess
import sys
import tempfile
import time

sys.path.insert(0, os.path.join(os.path.dirname(os.path.abspath(__file__)), "serve"))
from peer import PROGRAM, Served, get, replies  # noqa: E402

EACH = 10000
FILMS = 20
STATUSES = {4: 404, 10: 404, 12: 500, 15: 404, 16: 404, 17: 404, 18: 404, 20: 404, 21: 500, 22: 500, 25: 404, 40: 404, 41: 404, 45: 404, 47: 404}


def make_films(root):
    for i in range(FILMS):
        subprocess.run(
            ["ffmpeg", "-v", "error", "-f", "lavfi", "-i", f"testsrc2=size=64x36:rate=25:duration={2 + i % 5}", "-f", "lavfi", "-i",
             f"sine=frequency={200 + 50 * i}:sample_rate=48000:duration={2 + i % 5}", "-c:v", "libx264", "-preset", "ultrafast", "-g", "25", "-bf",
             str(i % 3), "-c:a", "aac", "-b:a", "32k", "-shortest", os.path.join(root, f"{i}.mp4")],
            check=True,
        )
    with open(os.path.join(root, "0.mp4"), "rb") as film:
        whole = film.read()
    for name, body in (("cut.mp4", whole[: len(whole) // 2]), ("noise.mp4", random.Random(1).randbytes(5000)), ("bad.json", b"{")):
        with open(os.path.join(root, name), "wb") as out:
            out.write(body)
    clips = [{"path": f"/{i}.mp4"} for i in (0, 5, 10)]
    with open(os.path.join(root, "joined.json"), "w") as out:
        json.dump({"durations": [2000, 2000, 2000], "sequences": [{"clips": clips}]}, out)


def paths():
    found = ["/", "/x", "/local/hls/gone.mp4/master.m3u8", "/mapped/hls/gone.json/master.m3u8", "/mapped/hls/bad.json/master.m3u8"]
    targets = [f"local/%s/{i}.mp4" for i in range(FILMS)] + ["local/%s/cut.mp4", "local/%s/noise.mp4", "mapped/%s/joined.json"]
    for target in targets:
        hls, dash = "/" + target % "hls", "/" + target % "dash"
        found += [f"{hls}/{leaf}" for leaf in ("master.m3u8", "index-f1-v1-a1.m3u8", "seg-1-f1-v1-a1.ts", "seg-1-f1-a1.ts", "iframes-f1-v1.m3u8", "iframe-1-1-f1-v1.ts",
                                               "seg-9-f1-v1.ts", "index-f2-v1.m3u8", "iframe-1-99-f1-v1.ts")]
        found += [f"{dash}/{leaf}" for leaf in ("manifest.mpd", "init-c1-f1-v1.mp4", "init-c1-f1-a1.mp4", "init-c9-f1-a1.mp4", "fragment-1-f1-v1.m4s", "fragment-1-f1-a1.m4s",
                                                "clipFrom/500/clipTo/1500/fragment-1-f1-v1.m4s", "fragment-1-f1-v2.m4s", "clip-f1-v1-a1.mp4", "clipFrom/900000/clip-f1-v1.mp4")]
    return found


def due(program, root, path):
    """Status and body of a reply, by `get`; None where the body is cut, which ends a connection."""
    status, body, line = get(program, root, path)
    if status == 0:
        return 200, body
    number = int(re.match(rb"refused (\d+) ", line).group(1))
    return None if number == 28 else (STATUSES[number], line)


def drawn(draw, path, whole):
    """A request for a path, as its method and its head, with the status and the body that are due."""
    status, body = whole
    kind = draw.random()
    if kind < 0.05:
        return "HEAD", f"HEAD {path} HTTP/1.1\r\n\r\n", (status, b"")
    if status == 200 and "/clip-" in path and kind < 0.7:
        first = draw.randrange(len(body) + 5)
        last = first + draw.choice([0, 99, 5000])
        due = (206, body[first : last + 1]) if first < len(body) else (416, b"refused 7 BadRange\n")
        return "GET", f"GET {path} HTTP/1.1\r\nRange: bytes={first}-{last}\r\n\r\n", due
    return "GET", f"GET {path} HTTP/1.1\r\n\r\n", whole


def main():
    program = os.path.abspath(sys.argv[1]) if len(sys.argv) > 1 else PROGRAM
    count = int(sys.argv[2]) if len(sys.argv) > 2 else 1000000
    draw = random.Random(int(sys.argv[3]) if len(sys.argv) > 3 else 1)
    if not shutil.which("ffmpeg"):
        print("ffmpeg isn't installed: nothing is tried")
        return
    with tempfile.TemporaryDirectory() as root:
        make_films(root)
        known = {path: due(program, root, path) for path in paths()}
        asked = [path for path in known if known[path]]
        links = -(-count // EACH)
        origin = Served(program, root, links)
        first, last, done, start = 0, 0, 0, time.time()
        try:
            for link_number in range(links):
                with origin.connect() as link:
                    left = min(EACH, count - done)
                    while left:
                        batch = [drawn(draw, path, known[path]) for path in draw.choices(asked, k=min(left, 50))]
                        link.sendall("".join(head for _, head, _ in batch).encode())
                        got, found, rest = b"", [], b"?"
                        while len(found) < len(batch) or rest or not found[-1][3]:
                            piece = link.recv(1 << 20)
                            if not piece:
                                sys.exit(f"FAILED: the connection was closed after {done} requests")
                            got += piece
                            if len(got) < sum(len(body) for _, _, (_, body) in batch):
                                continue
                            found, rest = replies(got, [method for method, _, _ in batch])
                        for (_, head, want), (status, _, body, _) in zip(batch, found):
                            if (status, body) != want:
                                sys.exit(f"FAILED: {head!r} has another reply than get: {status}, {len(body)} bytes")
                        left -= len(batch)
                        done += len(batch)
                        if first == 0 and done >= 1000:
                            first = origin.memory()
                        if left:
                            last = origin.memory()
                if link_number % 10 == 0:
                    print(f"{done} requests, {last} KB, {time.time() - start:.0f} s", flush=True)
            grown = last - first
            if grown > 256:
                sys.exit(f"FAILED: memory grew by {grown} KB from {first}")
            status, line = origin.end()
            if (status, line) != (0, b""):
                sys.exit(f"FAILED: the program ended with {status}: {line!r}")
            print(f"{done} requests for {len(asked)} paths: each reply is that of get; memory grew by {grown} KB after the first thousand")
        finally:
            origin.stop()


if __name__ == "__main__":
    main()
