#!/usr/bin/env python3
"""A clip of ten minutes over `serve`: ranges as players and proxies ask for them; behind nginx, which fetches it a megabyte at a time, ffmpeg
and headless Chromium play it as it comes and seek in it.

usage: tests/serve/clips.py [PROGRAM]

PROGRAM is the built vodpack, by default crates/vodpack/out/vodpack. Each part is compared with the whole clip that `get` writes, and what
ffmpeg decodes with what it decodes of the film. ffmpeg makes the film; where it is missing nothing is tried, without nginx no player, and
without chromium no browser.
"""
import http.server
import json
import os
import queue
import shutil
import subprocess
import sys
import tempfile
import threading
import time

from behind_nginx import nginx_conf
from peer import PROGRAM, Asker, Served, free_port, get

SECONDS = 600
COUNT = 2000

# Plays a clip, seeks to some places, and sends for each the time and the width that is shown there.
PAGE = """<!doctype html><video id="it" muted></video><script>
const video = document.getElementById("it"), told = [];
const tell = (why) => fetch("/told", { method: "POST", body: JSON.stringify([why, video.duration, told]) });
video.onerror = () => tell("error " + video.error.message);
const places = [PLACES];
const next = () => {
  if (!places.length) return tell("done");
  video.currentTime = places.shift();
};
video.onseeked = () => { told.push([video.currentTime, video.videoWidth, video.readyState]); next(); };
video.onplaying = () => { video.onplaying = null; setTimeout(() => { told.push([video.currentTime, video.videoWidth, video.readyState]); next(); }, 1000); };
video.src = "URL";
video.play();
</script>"""


def check(passed, text):
    print(("ok      " if passed else "FAILED  ") + text, flush=True)
    if not passed:
        sys.exit(1)


def make_film(root):
    sources = [f"testsrc2=size=320x180:rate=25:duration={SECONDS}", f"sine=frequency=440:sample_rate=48000:duration={SECONDS}"]
    words = ["ffmpeg", "-nostdin", "-v", "error"]
    for it in sources:
        words += ["-f", "lavfi", "-i", it]
    words += ["-c:v", "libx264", "-preset", "ultrafast", "-bf", "2", "-g", "50", "-b:v", "300k", "-pix_fmt", "yuv420p", "-c:a", "aac", "-b:a", "64k"]
    subprocess.run([*words, os.path.join(root, "film.mp4")], check=True)


def ranges(origin, path, whole):
    """Each field with the part that is due, as its first and last byte, or what else."""
    size = len(whole)
    asker = Asker(origin)
    parts = [
        ("bytes=0-0", 0, 0),
        (f"bytes={size - 1}-{size - 1}", size - 1, size - 1),
        (f"bytes={size // 2}-{size // 2 + 99999}", size // 2, size // 2 + 99999),
        (f"bytes={size - 5000}-", size - 5000, size - 1),
        ("bytes=0-", 0, size - 1),
        ("bytes=-1", size - 1, size - 1),
        ("bytes=-70000", size - 70000, size - 1),
        (f"bytes=-{size + 10}", 0, size - 1),
        (f"bytes={size - 10}-{size + 1000000}", size - 10, size - 1),
    ]
    for field, first, last in parts:
        status, fields, body, _ = asker.ask(path, fields=f"Range: {field}\r\n")
        told = (status, fields.get("content-range"), fields.get("content-length"))
        check(told == (206, f"bytes {first}-{last}/{size}", str(last + 1 - first)) and body == whole[first : last + 1], f"{field}: {told}")
    for field in (f"bytes={size}-", f"bytes={size + 7}-{size + 9}", "bytes=-0"):
        status, fields, body, _ = asker.ask(path, fields=f"Range: {field}\r\n")
        check((status, fields.get("content-range"), body) == (416, f"bytes */{size}", b"refused 7 BadRange\n"), f"{field}: {status}")
    for field in ("bytes=0-1,4-5", "bytes=5-4", "items=0-1", "bytes=", "bytes=0-9223372036854775808"):
        status, fields, body, _ = asker.ask(path, fields=f"Range: {field}\r\n")
        check((status, fields.get("content-range")) == (200, None) and body == whole, f"{field}: the whole")
    status, fields, _, _ = asker.ask(path, method="HEAD", fields="Range: bytes=0-1\r\n")
    check((status, fields.get("content-length")) == (200, str(size)), "HEAD has no range")
    asker.close()


def decoded(source, *words):
    """The sums of what ffmpeg makes of a source."""
    ran = subprocess.run(["ffmpeg", "-nostdin", "-v", "error", *words[:2], "-i", source, *words[2:], "-f", "framemd5", "-"], capture_output=True, text=True)
    return [line.split(",")[-1].strip() for line in ran.stdout.splitlines() if line and not line.startswith("#")], ran.stderr


def in_ffmpeg(url, film):
    pictures = [decoded(it, "-threads", "2", "-map", "0:v", "-fps_mode", "passthrough") for it in (url, film)]
    check(pictures[0] == pictures[1] and len(pictures[0][0]) == 25 * SECONDS, f"ffmpeg plays it as it comes: {len(pictures[0][0])} pictures are the film's")
    packets = [decoded(it, "-threads", "2", "-map", "0:a", "-c", "copy") for it in (url, film)]
    lacks = len(packets[1][0]) - len(packets[0][0])
    check(0 <= lacks <= 2 and packets[0][0] == packets[1][0][lacks:], f"{len(packets[0][0])} packets of audio are the film's but for {lacks} at its beginning")
    for place in (3, 299, 597):
        seen = [decoded(it, "-ss", str(place), "-map", "0:v", "-frames:v", "5") for it in (url, film)]
        check(seen[0] == seen[1] and len(seen[0][0]) == 5, f"ffmpeg seeks to {place} s")


def pages(told, page):
    class Pages(http.server.BaseHTTPRequestHandler):
        def do_GET(self):
            self.send_response(200)
            self.send_header("Content-Type", "text/html")
            self.end_headers()
            self.wfile.write(page.encode())

        def do_POST(self):
            told.put(json.loads(self.rfile.read(int(self.headers["Content-Length"]))))
            self.send_response(204)
            self.end_headers()

        def log_message(self, *_):
            pass

    return http.server.ThreadingHTTPServer(("127.0.0.1", 0), Pages)


def in_chromium(url, folder):
    chromium = shutil.which("chromium")
    if not chromium:
        print("chromium isn't installed: no browser is tried")
        return
    places, told = [300, 12.5, 590], queue.Queue()
    server = pages(told, PAGE.replace("URL", url).replace("PLACES", ", ".join(map(str, places))))
    threading.Thread(target=server.serve_forever, daemon=True).start()
    words = [chromium, "--headless=new", "--no-sandbox", "--disable-gpu", "--mute-audio", "--autoplay-policy=no-user-gesture-required"]
    browser = subprocess.Popen([*words, f"--user-data-dir={folder}", f"http://127.0.0.1:{server.server_port}/"], stdout=subprocess.DEVNULL, stderr=subprocess.DEVNULL)
    try:
        why, duration, shown = told.get(timeout=120)
    except queue.Empty:
        why, duration, shown = "nothing in two minutes", 0, []
    finally:
        browser.terminate()
        browser.wait()
        server.shutdown()
    good = why == "done" and abs(duration - SECONDS) < 0.2 and len(shown) == 4 and shown[0][0] > 0
    good = good and all(width == 320 and state >= 2 for _, width, state in shown)
    good = good and all(abs(time - want) < 0.1 for (time, _, _), want in zip(shown[1:], places))
    check(good, f"Chromium plays it and seeks to {places}: {why}, {duration} s, {shown}")


def in_players(folder, origins, path):
    nginx = shutil.which("nginx") or shutil.which("nginx", path="/usr/sbin")
    if not nginx:
        print("nginx isn't installed: no player is tried")
        return
    port = free_port()
    conf = nginx_conf(folder, port, origins)
    proxy = subprocess.Popen([nginx, "-p", folder, "-e", f"{folder}/error.log", "-c", conf, "-g", f"daemon off; pid {folder}/pid;"])
    try:
        time.sleep(1)
        url = f"http://127.0.0.1:{port}{path}"
        in_ffmpeg(url, os.path.join(folder, "films", "film.mp4"))
        in_chromium(url, os.path.join(folder, "profile"))
    finally:
        proxy.terminate()
        proxy.wait()


def main():
    program = os.path.abspath(sys.argv[1]) if len(sys.argv) > 1 else PROGRAM
    if not shutil.which("ffmpeg"):
        print("ffmpeg isn't installed: nothing is tried")
        return
    with tempfile.TemporaryDirectory(ignore_cleanup_errors=True) as folder:
        os.chmod(folder, 0o755)
        root = os.path.join(folder, "films")
        os.mkdir(root)
        make_film(root)
        path = "/local/dash/film.mp4/clip-f1-v1-a1.mp4"
        status, whole, line = get(program, root, path)
        check(status == 0, f"get writes the clip: {len(whole)} bytes {line.decode()}")
        origins = [Served(program, root, COUNT) for _ in range(2)]
        try:
            ranges(origins[0], path, whole)
            in_players(folder, origins, path)
        finally:
            for origin in origins:
                origin.stop()


if __name__ == "__main__":
    main()
