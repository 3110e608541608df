#!/usr/bin/env python3
"""Headless Chromium plays a film and a mapping from two origins behind nginx, by HLS and DASH, to their ends, on the page of demo/.

usage: tests/serve/in_chromium.py [PROGRAM]

PROGRAM is the built vodpack, by default crates/vodpack/out/vodpack. Where nginx, ffmpeg or chromium is missing nothing is tried.
"""
import http.server
import json
import os
import queue
import shutil
import subprocess
import sys
import tempfile
import threading
import time
import urllib.parse

from behind_nginx import check, nginx_conf
from peer import PROGRAM, TOP, Served, free_port
from run import make_film

COUNT = 4000
FAST = 4

# Watches the page in a frame, and sends what it tells at last.
WATCH = """<!doctype html><iframe id="it" width="800" height="700"></iframe><script>
const frame = document.getElementById("it");
frame.src = "/index.html#" + decodeURIComponent(location.search.slice(1));
const watch = setInterval(() => {
  const page = frame.contentDocument, video = page && page.getElementById("video"), told = page && page.getElementById("told");
  if (!told) return;
  video.playbackRate = RATE;
  if (told.textContent) {
    clearInterval(watch);
    fetch("/told", { method: "POST", body: JSON.stringify([told.textContent, video.videoWidth, video.duration]) });
  }
}, 100);
</script>""".replace("RATE", str(FAST))


def pages(told):
    class Pages(http.server.SimpleHTTPRequestHandler):
        def __init__(self, *args):
            super().__init__(*args, directory=os.path.join(TOP, "demo"))

        def do_GET(self):
            if not self.path.startswith("/watch"):
                return super().do_GET()
            self.send_response(200)
            self.send_header("Content-Type", "text/html")
            self.end_headers()
            self.wfile.write(WATCH.encode())

        def do_POST(self):
            told.put(json.loads(self.rfile.read(int(self.headers["Content-Length"]))))
            self.send_response(204)
            self.end_headers()

        def log_message(self, *_):
            pass

    return http.server.ThreadingHTTPServer(("127.0.0.1", 0), Pages)


def played(chromium, folder, server, told, url):
    """What the page tells of this address in the end: a text, the width of the film, its duration."""
    words = [chromium, "--headless=new", "--no-sandbox", "--disable-gpu", "--mute-audio", "--autoplay-policy=no-user-gesture-required",
             f"--user-data-dir={folder}", f"http://127.0.0.1:{server.server_port}/watch?{urllib.parse.quote(url, safe='')}"]
    browser = subprocess.Popen(words, stdout=subprocess.DEVNULL, stderr=subprocess.DEVNULL)
    try:
        return told.get(timeout=120)
    except queue.Empty:
        return "nothing in two minutes", 0, 0
    finally:
        browser.terminate()
        browser.wait()


def main():
    program = os.path.abspath(sys.argv[1]) if len(sys.argv) > 1 else PROGRAM
    nginx = shutil.which("nginx") or shutil.which("nginx", path="/usr/sbin")
    chromium = shutil.which("chromium")
    if not nginx or not chromium or not shutil.which("ffmpeg"):
        print("nginx, ffmpeg or chromium isn't installed: nothing is tried")
        return
    told = queue.Queue()
    server = pages(told)
    threading.Thread(target=server.serve_forever, daemon=True).start()
    with tempfile.TemporaryDirectory(ignore_cleanup_errors=True) as folder:
        os.chmod(folder, 0o755)
        root = os.path.join(folder, "films")
        os.mkdir(root)
        make_film(root, "film.mp4", 20, "1000k")
        clips = [{"path": "/film.mp4", "clipFrom": 2000}, {"path": "/film.mp4", "clipFrom": 10000}]
        with open(os.path.join(root, "joined.json"), "w") as out:
            json.dump({"durations": [6000, 8000], "sequences": [{"clips": clips}]}, out)
        origins = [Served(program, root, COUNT), Served(program, root, COUNT)]
        port = free_port()
        conf = nginx_conf(folder, port, origins)
        proxy = subprocess.Popen([nginx, "-p", folder, "-e", f"{folder}/error.log", "-c", conf, "-g", f"daemon off; pid {folder}/pid;"])
        try:
            time.sleep(1)
            for target, length in (("local/{}/film.mp4", 20), ("mapped/{}/joined.json", 14)):
                for proto, leaf in (("hls", "master.m3u8"), ("dash", "manifest.mpd")):
                    path = f"/{target.format(proto)}/{leaf}"
                    text, width, duration = played(chromium, os.path.join(folder, "profile"), server, told, f"http://127.0.0.1:{port}{path}")
                    check(text.startswith("played ") and width == 640 and abs(duration - length) < 0.2, f"Chromium: {path}: {text}, {width} points wide")
        finally:
            proxy.terminate()
            proxy.wait()
            for origin in origins:
                origin.stop()


if __name__ == "__main__":
    main()
