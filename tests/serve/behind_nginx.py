#!/usr/bin/env python3
"""Two origins behind nginx with the configuration of docs/operating/nginx.conf, and ffmpeg's own readers of HLS and DASH in front
of it: every frame of film and of sound must be the source's.

usage: tests/serve/behind_nginx.py [PROGRAM]

PROGRAM is the built vodpack, by default crates/vodpack/out/vodpack. Where nginx or ffmpeg is missing nothing is tried.
"""
import json
import os
import shutil
import subprocess
import sys
import tempfile
import time
import urllib.error
import urllib.request

from peer import PROGRAM, TOP, Served, free_port, get
from run import make_film

COUNT = 4000


def check(holds, text):
    if not holds:
        sys.exit(f"FAILED: {text}")
    print(f"ok: {text}")


def hashes(source, *words):
    """The hashes of what ffmpeg takes of a source."""
    done = subprocess.run(["ffmpeg", "-nostdin", "-v", "error", *words[0], "-i", source, *words[1:], "-f", "framehash", "-hash", "md5", "-"],
                          capture_output=True, text=True, timeout=300)
    if done.returncode:
        sys.exit(f"FAILED: {source}: {done.stderr}")
    return [line.split(",")[5].strip() for line in done.stdout.splitlines() if line and line[0] != "#"]


def pictures(source):
    """Of all decoded pictures."""
    return hashes(source, (), "-map", "0:v:0")


def sound(source, *options):
    """Of all packets of audio."""
    return hashes(source, options, "-map", "0:a:0", "-c", "copy", "-bsf:a", "aac_adtstoasc")


def nginx_conf(folder, port, origins):
    with open(os.path.join(TOP, "docs/operating/nginx.conf")) as text:
        conf = text.read()
    for name, origin in zip(("127.0.0.1:8101", "127.0.0.1:8102"), origins):
        conf = conf.replace(name, f"127.0.0.1:{origin.port}")
    conf = conf.replace("127.0.0.1:8080", f"127.0.0.1:{port}")
    conf = conf.replace("http {", f"http {{\n    access_log {folder}/access.log;", 1)
    path = os.path.join(folder, "nginx.conf")
    with open(path, "w") as out:
        out.write(conf)
    return path


def ask(url, method="GET"):
    request = urllib.request.Request(url, method=method)
    try:
        with urllib.request.urlopen(request, timeout=30) as reply:
            return reply.status, dict(reply.headers), reply.read()
    except urllib.error.HTTPError as reply:
        return reply.code, dict(reply.headers), reply.read()


def try_all(program, root, base):
    for path in ("/local/hls/film.mp4/master.m3u8", "/local/hls/film.mp4/seg-1-f1-v1-a1.ts", "/local/dash/film.mp4/manifest.mpd"):
        status, fields, body = ask(base + path)
        check(status == 200 and body == get(program, root, path)[1], f"through nginx {path} has the bytes of get")
        check(fields.get("Access-Control-Allow-Origin") == "*", "with the field for players of other pages")
    check(ask(base + "/local/hls/film.mp4/master.m3u8", "OPTIONS")[0] == 204, "OPTIONS is answered by nginx")
    check(ask(base + "/local/hls/gone.mp4/master.m3u8")[0] == 404, "a film that isn't there has status 404")
    film = os.path.join(root, "film.mp4")
    # The settings are the default ones, by which edit lists are passed over.
    shown, heard = pictures(film), sound(film, "-ignore_editlist", "1")
    for path in ("/local/hls/film.mp4/master.m3u8", "/mapped/hls/whole.json/master.m3u8", "/local/dash/film.mp4/manifest.mpd"):
        check(pictures(base + path) == shown, f"ffmpeg plays all {len(shown)} pictures of {path}")
        found = sound(base + path)
        check(found in (heard, heard[1:]), f"and all {len(found)} packets of its sound")


def main():
    program = os.path.abspath(sys.argv[1]) if len(sys.argv) > 1 else PROGRAM
    nginx = shutil.which("nginx") or shutil.which("nginx", path="/usr/sbin")
    if not nginx or not shutil.which("ffmpeg"):
        print("nginx or ffmpeg isn't installed: nothing is tried")
        return
    with tempfile.TemporaryDirectory() as folder:
        os.chmod(folder, 0o755)
        root = os.path.join(folder, "films")
        os.mkdir(root)
        make_film(root, "film.mp4", 30, "1000k")
        with open(os.path.join(root, "whole.json"), "w") as out:
            json.dump({"sequences": [{"clips": [{"path": "/film.mp4"}]}]}, out)
        origins = [Served(program, root, COUNT), Served(program, root, COUNT)]
        port = free_port()
        conf = nginx_conf(folder, port, origins)
        proxy = subprocess.Popen([nginx, "-p", folder, "-e", f"{folder}/error.log", "-c", conf, "-g", f"daemon off; pid {folder}/pid;"])
        try:
            time.sleep(1)
            try_all(program, root, f"http://127.0.0.1:{port}")
        finally:
            proxy.terminate()
            proxy.wait()
            for origin in origins:
                origin.stop()


if __name__ == "__main__":
    main()
