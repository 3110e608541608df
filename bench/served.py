#!/usr/bin/env python3
"""Takes the processor time of a running origin for each reply, beside nginx's and dd's for as many bytes of the same film.

usage: bench/served.py [PROGRAM]

PROGRAM is the built vodpack, by default crates/vodpack/out/vodpack. ffmpeg makes a minute of film and joins sixty of it to an hour, with a
movie box of some 2.5 MB; without ffmpeg it is the film of bench/segment.py, which nginx's mp4 module doesn't read. Segments last 50
seconds, so that a fragment has some 3 MB. On one connection each name is asked for once, so that the metadata are kept, and then many
times; what `serve` took for that is divided by the number of replies. nginx, where it is there, gives the fragment as a file without
sendfile, and 50 seconds of the film by its mp4 module where that is there; dd copies as many bytes. All in one run: the ratios are what
counts. The status is 0.
"""
import os
import resource
import shutil
import subprocess
import sys
import tempfile

HERE = os.path.dirname(os.path.abspath(__file__))
sys.path[:0] = [os.path.join(HERE, "..", "tests", "serve"), HERE]
from peer import Asker, Served, free_port
from segment import write_film

REPLIES = 40
TICK = os.sysconf("SC_CLK_TCK")
NAMES = ("dash/film.mp4/fragment-30-v1-a1.m4s", "hls/film.mp4/seg-30-v1-a1.ts", "hls/film.mp4/index-v1-a1.m3u8", "dash/film.mp4/init-c1-v1-a1.mp4")
NGINX = """
daemon off; master_process off; pid %(folder)s/pid; error_log %(folder)s/log;%(load)s
events {}
http { access_log off; sendfile off; keepalive_requests 100000; server { listen 127.0.0.1:%(port)d; root %(folder)s; location /film.mp4 { %(mp4)s } } }
"""


MINUTE = [
    *("-f", "lavfi", "-i", "testsrc2=size=640x360:rate=25:duration=60", "-f", "lavfi", "-i", "sine=frequency=440:sample_rate=48000:duration=60"),
    *("-c:v", "libx264", "-preset", "ultrafast", "-bf", "0", "-g", "50", "-b:v", "430k", "-minrate", "430k", "-maxrate", "430k", "-bufsize", "430k"),
    *("-x264-params", "nal-hrd=cbr", "-pix_fmt", "yuv420p", "-c:a", "aac", "-b:a", "64k", "minute.mp4"),
]


def make_film(folder):
    """An hour of film."""
    if shutil.which("ffmpeg") is None:
        write_film(f"{folder}/film.mp4")
        return os.path.getsize(f"{folder}/film.mp4")
    for words in (MINUTE, ["-stream_loop", "59", "-i", "minute.mp4", "-c", "copy", "-movflags", "+faststart", "film.mp4"]):
        subprocess.run(["ffmpeg", "-nostdin", "-v", "error", *words], cwd=folder, check=True)
    return os.path.getsize(f"{folder}/film.mp4")


def spent(pid):
    """The processor seconds of a process."""
    with open(f"/proc/{pid}/stat") as file:
        fields = file.read().rsplit(")", 1)[1].split()
    return (int(fields[11]) + int(fields[12])) / TICK


def timed(served, path):
    """The processor milliseconds of a server for one reply, and the length of its body."""
    asker = Asker(served)
    status, _, body, whole = asker.ask(path)
    assert status == 200 and whole, f"{path}: {status}"
    before = spent(served.process.pid)
    for _ in range(REPLIES):
        assert len(asker.ask(path)[2]) == len(body)
    took = spent(served.process.pid) - before
    asker.close()
    return 1000 * took / REPLIES, len(body), body


class Nginx(Served):
    """nginx over a folder."""

    def __init__(self, folder, mp4):
        self.port = free_port()
        module = "/usr/lib/nginx/modules/ngx_http_mp4_module.so"
        load = f" load_module {module};" if mp4 and os.path.exists(module) else ""
        with open(f"{folder}/nginx.conf", "w") as file:
            file.write(NGINX % {"folder": folder, "port": self.port, "mp4": "mp4; mp4_max_buffer_size 20m;" if mp4 else "", "load": load})
        self.process = subprocess.Popen(["nginx", "-c", f"{folder}/nginx.conf"], stderr=subprocess.PIPE)
        self.wait_for_door()


def copied(folder, length):
    """The processor milliseconds of dd for one copy of as many bytes."""
    words = ["dd", "if=film.mp4", "of=/dev/null", "bs=64k", f"count={length}", "iflag=count_bytes"]
    before = resource.getrusage(resource.RUSAGE_CHILDREN)
    for _ in range(REPLIES):
        subprocess.run(words, cwd=folder, stderr=subprocess.DEVNULL, check=True)
    after = resource.getrusage(resource.RUSAGE_CHILDREN)
    return 1000 * (after.ru_utime + after.ru_stime - before.ru_utime - before.ru_stime) / REPLIES


def by_nginx(folder, fragment):
    """What nginx takes for the fragment as a file, and for 50 seconds of the film, where it can."""
    with open(f"{folder}/fragment.m4s", "wb") as file:
        file.write(fragment)
    for told, mp4, path in (("static file", False, "/fragment.m4s"), ("mp4 module", True, "/film.mp4?start=1450&end=1500")):
        try:
            server = Nginx(folder, mp4)
        except SystemExit as end:
            print(f"nginx, {told}: not there ({str(end)[:100]})")
            continue
        took, length, _ = timed(server, path)
        server.stop()
        print(f"nginx, {told}: {length} bytes, {took:.2f} ms")


def main():
    program = os.path.abspath(sys.argv[1] if len(sys.argv) > 1 else f"{HERE}/../crates/vodpack/out/vodpack")
    if not os.access(program, os.X_OK):
        print(f"there is no program {program}: build it with rt run in crates/vodpack, or name it")
        return 2
    folder = tempfile.mkdtemp()
    try:
        os.chmod(folder, 0o755)
        size = make_film(folder)
        with open(f"{folder}/s.json", "w") as file:
            file.write('{"segment_ms":50000}')
        print(f"film {size} bytes; processor time of one reply, over {REPLIES}")
        served = Served(program, folder, 1000, f"{folder}/s.json")
        fragment = b""
        for name in NAMES:
            took, length, body = timed(served, f"/local/{name}")
            fragment = fragment or body
            print(f"vodpack, {name.split('/')[-1]}: {length} bytes, {took:.2f} ms")
        print(f"vodpack holds {served.memory()} kB")
        served.stop()
        print(f"dd: {len(fragment)} bytes, {copied(folder, len(fragment)):.2f} ms")
        if shutil.which("nginx"):
            by_nginx(folder, fragment)
        return 0
    finally:
        shutil.rmtree(folder, ignore_errors=True)


if __name__ == "__main__":
    sys.exit(main())
