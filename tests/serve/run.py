#!/usr/bin/env python3
"""Serves a film over a loopback port and asks as clients do: kept connections, requests in a row, HTTP/1.0, HEAD, requests that
are refused, a client that leaves in the middle of a body, 10,000 requests on one connection, and curl where it is installed.
Each body must be that of `vodpack get`.

usage: tests/serve/run.py [PROGRAM]

PROGRAM is the built vodpack, by default crates/vodpack/out/vodpack. ffmpeg makes the film; where it is missing nothing is tried.
Where strace is installed the system calls of a large transport stream are counted.
"""
import os
import re
import shutil
import subprocess
import sys
import tempfile

from peer import PROGRAM, Served, drain, get, replies

LINES = 0


def check(holds, text):
    global LINES
    if not holds:
        sys.exit(f"FAILED: {text}")
    LINES += 1
    print(f"ok: {text}")


def head(path, method="GET", version="1.1", *fields):
    return "".join([f"{method} {path} HTTP/{version}\r\n", *(f"{field}\r\n" for field in fields), "\r\n"]).encode()


def make_film(root, name, seconds, rate):
    subprocess.run(
        ["ffmpeg", "-v", "error", "-y", "-f", "lavfi", "-i", f"testsrc2=size=640x360:rate=25:duration={seconds}", "-f", "lavfi", "-i",
         f"sine=frequency=440:sample_rate=48000:duration={seconds}", "-c:v", "libx264", "-preset", "ultrafast", "-b:v", rate, "-minrate", rate,
         "-maxrate", rate, "-bufsize", rate, "-x264-params", "nal-hrd=cbr", "-g", "50", "-bf", "0", "-c:a", "aac", "-ac", "2", "-shortest",
         os.path.join(root, name)],
        check=True,
    )


def ask_kept(program, root, lists):
    origin = Served(program, root, 2)
    try:
        with origin.connect() as link:
            for path in lists:
                link.sendall(head(path))
                status, body, _ = get(program, root, path)
                got, found, rest = b"", [], b""
                while not found or rest or not found[0][3]:
                    got += link.recv(1 << 20)
                    if len(got) >= len(body):
                        found, rest = replies(got, ["GET"])
                check(status == 0 and found[0][0] == 200 and found[0][2] == body, f"on a kept connection {path} has the {len(body)} bytes of get")
        sent = b"".join(head(path) for path in lists) + head(lists[-1], "HEAD")
        found, rest = replies(origin.exchange(sent), ["GET"] * len(lists) + ["HEAD"])
        check(len(found) == len(lists) + 1 and not rest, "requests that come in a row get as many replies")
        check(all(it[2] == get(program, root, path)[1] for it, path in zip(found, lists)), "and each has the bytes of get")
        check(found[-1][1] == found[-2][1], "HEAD has the head of GET")
        check(origin.end() == (0, b""), "and after as many connections the program ends with 0")
    finally:
        origin.stop()


def ask_oddly(program, root, stream, fragment):
    origin = Served(program, root, 9)
    try:
        for path in (stream, fragment):
            text = origin.exchange(head(path, "GET", "1.0"), shut=False)
            found, _ = replies(text, ["GET"])
            check(found[0][2] == get(program, root, path)[1], f"HTTP/1.0 has the bytes of get and is closed: {path}")
            check(found[0][1].get("connection") == "close" and "transfer-encoding" not in found[0][1], "without chunks")
        asked = [
            (head("/local/hls/gone.mp4/master.m3u8"), 404, b"refused 20 NoFile\n"),
            (head("/nothing"), 404, b"refused 4 BadPath\n"),
            (head("/local/hls/film.mp4/seg-9999-f1-v1.ts"), 404, b"refused 40 NoSegment\n"),
            (head(fragment, "DELETE"), 405, b"refused 2 Method\n"),
            (head(fragment, "GET", "1.1", "Content-Length: 5"), 400, b"refused 5 BodyNotTaken\n"),
        ]
        for sent, status, text in asked:
            found, _ = replies(origin.exchange(sent + head(fragment)), ["GET", "GET"])
            check(found[0][0] == status and found[0][2] == text, f"{text.decode().strip()} has status {status}")
            if status != 400:
                check(found[1][2] == get(program, root, fragment)[1], "and the next request is answered as if nothing had been")
        with origin.connect() as link:
            link.sendall(head(stream) * 50)
            link.recv(1000)
        found, _ = replies(origin.exchange(head(fragment)), ["GET"])
        check(found[0][2] == get(program, root, fragment)[1], "a client that leaves in the middle of a body changes nothing for the next one")
        check(origin.end() == (0, b""), "and the program ends with 0")
    finally:
        origin.stop()


def ask_many(program, root, path):
    origin = Served(program, root, 1)
    try:
        body = get(program, root, path)[1]
        with origin.connect() as link:
            memory = 0
            for turn in range(100):
                link.sendall(head(path) * 100)
                got, wanted = b"", None
                while wanted is None or len(got) < wanted:
                    piece = link.recv(1 << 20)
                    if not piece:
                        sys.exit(f"FAILED: the connection was closed in turn {turn}")
                    got += piece
                    if wanted is None and b"\r\n\r\n" in got:
                        wanted = 100 * (got.index(b"\r\n\r\n") + 4 + len(body)) + (turn == 99) * len("Connection: close\r\n")
                found, rest = replies(got, ["GET"] * 100)
                if len(found) != 100 or rest or any(it[2] != body for it in found):
                    sys.exit(f"FAILED: another body in turn {turn}")
                if turn == 9:
                    memory = origin.memory()
                if turn == 98:
                    grown = origin.memory() - memory
            check(found[-1][1].get("connection") == "close" and drain(link) == b"", "10,000 requests on one connection have their bytes, and the last closes it")
            check(grown <= 64, f"memory grew by {grown} KB from the thousandth to the 9,900th")
        check(origin.end() == (0, b""), "and the program ends with 0")
    finally:
        origin.stop()


def ask_heads(program, root):
    origin = Served(program, root, 1)
    try:
        found, rest = replies(origin.exchange(head("/x", "HEAD") * 10001), ["HEAD"] * 10001)
        check(len(found) == 10000 and not rest and all(it[0] == 404 for it in found), "of 10,001 requests in a row 10,000 are answered")
        closing = [i for i, it in enumerate(found) if "connection" in it[1]]
        check(closing == [9999], "and the last of them closes the connection")
        check(origin.end() == (0, b""), "and the program ends with 0")
    finally:
        origin.stop()


def ask_damaged(program, root, fragment):
    """A film whose third picture has a unit that doesn't fit."""
    words = ["ffprobe", "-v", "error", "-select_streams", "v", "-show_entries", "packet=pos", "-of", "csv=p=0", os.path.join(root, "film.mp4")]
    place = int(subprocess.run(words, check=True, capture_output=True, text=True).stdout.split()[2].strip(","))
    with open(os.path.join(root, "film.mp4"), "rb") as film:
        damaged = bytearray(film.read())
    damaged[place : place + 4] = b"\x7f\xff\xff\xff"
    with open(os.path.join(root, "damaged.mp4"), "wb") as out:
        out.write(damaged)
    path = "/local/hls/damaged.mp4/seg-1-f1-v1.ts"
    status, front, line = get(program, root, path)
    check((status, line) == (2, b"refused 28 BadNal\n") and front, "get writes a stream before a bad sample and ends with 2")
    origin = Served(program, root, 1)
    try:
        text = origin.exchange(head(path) + head(fragment))
        found, rest = replies(text, ["GET"])
        check(found[0][0] == 200 and found[0][2] == front and not found[0][3] and not rest, "a connection gets as much, without the last chunk and with nothing behind it")
        check(origin.end() == (0, b""), "and the program ends with 0")
    finally:
        origin.stop()


def ask_by_curl(program, root, paths):
    if not shutil.which("curl"):
        print("curl isn't installed: not tried")
        return
    origin = Served(program, root, 1)
    try:
        with tempfile.TemporaryDirectory() as folder:
            words = []
            for i, path in enumerate(paths):
                words += ["-o", os.path.join(folder, str(i)), f"http://127.0.0.1:{origin.port}{path}"]
            subprocess.run(["curl", "-sS", *words], check=True)
            for i, path in enumerate(paths):
                with open(os.path.join(folder, str(i)), "rb") as got:
                    check(got.read() == get(program, root, path)[1], f"curl gets the bytes of get: {path}")
        check(origin.end() == (0, b""), "by one connection")
    finally:
        origin.stop()


def count_calls(program, root, stream):
    if not shutil.which("strace"):
        print("strace isn't installed: not tried")
        return
    with tempfile.TemporaryDirectory() as folder:
        table = os.path.join(folder, "calls")
        origin = Served(program, root, 1, wrap=("strace", "-f", "-c", "-o", table))
        try:
            found, _ = replies(origin.exchange(head(stream)), ["GET"])
            origin.end()
        finally:
            origin.stop()
        with open(table) as text:
            calls = {line.split()[-1]: int(line.split()[3]) for line in text if re.match(r" *[0-9.]+ +[0-9.]+ +\d+ +\d+", line)}
    length = len(found[0][2])
    writes = sum(calls.get(name, 0) for name in ("write", "writev", "sendto", "sendmsg"))
    reads, opens = calls.get("pread64", 0), calls.get("open", 0) + calls.get("openat", 0)
    check(writes <= 3 + length * 194 / 188 / 60000, f"a stream of {length} bytes takes {writes} writes")
    check(opens <= 12, f"and {opens} files are opened for its {reads} reads, the program's own libraries among them")


def main():
    program = os.path.abspath(sys.argv[1]) if len(sys.argv) > 1 else PROGRAM
    if not shutil.which("ffmpeg"):
        print("ffmpeg isn't installed: nothing is tried")
        return
    with tempfile.TemporaryDirectory() as root:
        make_film(root, "film.mp4", 30, "2500k")
        place = "/local/hls/film.mp4/"
        stream, fragment = place + "seg-2-f1-v1-a1.ts", "/local/dash/film.mp4/fragment-2-f1-a1.m4s"
        lists = [place + "master.m3u8", place + "index-f1-v1-a1.m3u8", "/local/dash/film.mp4/manifest.mpd", "/local/dash/film.mp4/init-c1-f1-v1.mp4",
                 fragment, place + "iframe-1-1-f1-v1.ts", stream]
        ask_kept(program, root, lists)
        ask_oddly(program, root, stream, fragment)
        ask_many(program, root, fragment)
        ask_heads(program, root)
        ask_damaged(program, root, fragment)
        ask_by_curl(program, root, lists)
        count_calls(program, root, stream)
    print(f"{LINES} checks passed")


if __name__ == "__main__":
    main()
