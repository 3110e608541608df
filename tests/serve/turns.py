#!/usr/bin/env python3
"""Eight connections to one origin in turns, two of which send their requests byte by byte: each gets the bytes of `vodpack get`.

usage: tests/serve/turns.py [PROGRAM]

PROGRAM is the built vodpack, by default crates/vodpack/out/vodpack. ffmpeg makes the film; where it is missing nothing is tried.
"""
import os
import shutil
import socket
import sys
import tempfile
import threading
import time

from peer import PROGRAM, Served, drain, get, replies
from run import head, make_film

COUNT = 8


def send(link, sent, slow):
    if slow:
        for at in range(len(sent)):
            link.sendall(sent[at : at + 1])
            time.sleep(0.002)
    else:
        link.sendall(sent)
    link.shutdown(socket.SHUT_WR)


def main():
    program = os.path.abspath(sys.argv[1]) if len(sys.argv) > 1 else PROGRAM
    if not shutil.which("ffmpeg"):
        print("ffmpeg isn't installed: nothing is tried")
        return
    with tempfile.TemporaryDirectory() as root:
        make_film(root, "film.mp4", 10, "800k")
        place, dash = "/local/hls/film.mp4/", "/local/dash/film.mp4/"
        paths = [place + "master.m3u8", dash + "fragment-1-f1-v1.m4s", place + "seg-1-f1-v1-a1.ts", "/x"]
        due = [get(program, root, path) for path in paths]
        want = [body if status == 0 else line for status, body, line in due]
        origin = Served(program, root, COUNT, command="turns")
        try:
            links = [origin.connect() for _ in range(COUNT)]
            sent = b"".join(head(path) for path in paths)
            senders = [threading.Thread(target=send, args=(link, sent, i in (2, 5))) for i, link in enumerate(links)]
            got = [None] * COUNT
            readers = [threading.Thread(target=lambda i=i: got.__setitem__(i, drain(links[i]))) for i in range(COUNT)]
            for it in senders + readers:
                it.start()
            for it in senders + readers:
                it.join(120)
            for i, text in enumerate(got):
                found, rest = replies(text or b"", ["GET"] * len(paths))
                if [it[2] for it in found] != want or rest:
                    sys.exit(f"FAILED: link {i} has other replies")
            status, line = origin.end()
            if (status, line) != (0, b""):
                sys.exit(f"FAILED: the program ended with {status}: {line!r}")
        finally:
            origin.stop()
        print(f"{COUNT} connections in turns, two of them slow: each has the bytes of get for {len(paths)} requests")


if __name__ == "__main__":
    main()
