#!/usr/bin/env python3
"""One allocation after another fails: each request is answered whole, or ends for want of memory before a byte of it, and the next request
is answered as if nothing had been.

usage: tests/fail_alloc.py [PROGRAM [MOST]]

PROGRAM is the built vodpack, by default crates/vodpack/out/vodpack. A library that is loaded before the C library, built by gcc, fails the
Nth call of malloc, calloc, realloc and their like, for N from 1 until a run makes fewer calls, at most MOST, 3000. Where there is no gcc
nothing is tried.

`get` of several names of a stored film must end with status 0 and all of its bytes, with 5 and nothing written (and no line where memory ran out
before `run`), or with 3 and a prefix, since a file that can't be kept open counts as a failure of the store. On a connection to `serve` every reply but one must be the whole one, and that
one may be of status 503; or the program ends with status 5, or with 6 where the door had no memory, before it takes the connection's first
request.
"""
import os
import shutil
import subprocess
import sys
import tempfile

sys.path.insert(0, os.path.join(os.path.dirname(os.path.abspath(__file__)), "serve"))
from peer import PROGRAM, TOP, Served, get, replies  # noqa: E402

FAILING = r"""
#include <errno.h>
#include <stdlib.h>
extern void *__libc_malloc(size_t), *__libc_calloc(size_t, size_t), *__libc_realloc(void *, size_t), *__libc_memalign(size_t, size_t);
static long made, due = -1;
static int fails(void) {
    if (due < 0) { const char *text = getenv("FAIL_AT"); due = text ? atol(text) : 0; }
    if (++made != due) return 0;
    errno = ENOMEM;
    return 1;
}
void *malloc(size_t n) { return fails() ? 0 : __libc_malloc(n); }
void *calloc(size_t m, size_t n) { return fails() ? 0 : __libc_calloc(m, n); }
void *realloc(void *p, size_t n) { return fails() ? 0 : __libc_realloc(p, n); }
void *aligned_alloc(size_t a, size_t n) { return fails() ? 0 : __libc_memalign(a, n); }
void *memalign(size_t a, size_t n) { return fails() ? 0 : __libc_memalign(a, n); }
int posix_memalign(void **p, size_t a, size_t n) { if (fails()) return ENOMEM; *p = __libc_memalign(a, n); return *p ? 0 : ENOMEM; }
__attribute__((destructor)) static void told(void) {
    const char *path = getenv("FAIL_TOLD");
    if (path && made < due) { char words[256] = "touch "; int i = 6; while (*path && i < 255) words[i++] = *path++; words[i] = 0; unsetenv("LD_PRELOAD"); if (system(words)) {} }
}
"""

NAMES = [
    "/local/dash/a.mp4/fragment-1-a1.m4s",
    "/local/hls/a.mp4/seg-1-f1-a1.ts",
    "/local/hls/a.mp4/master.m3u8",
    "/local/hls/a.mp4/index-f1-a1.m3u8",
    "/local/dash/a.mp4/manifest.mpd",
    "/local/dash/a.mp4/init-c1-f1-a1.mp4",
    "/local/dash/a.mp4/clip-f1-a1.mp4",
    "/local/dash/a.mp4/fragment-9-a1.m4s",
    "/x",
]


def built(folder):
    source, library = os.path.join(folder, "fails.c"), os.path.join(folder, "fails.so")
    with open(source, "w") as out:
        out.write(FAILING)
    subprocess.run(["gcc", "-O1", "-fPIC", "-shared", "-o", library, source], check=True)
    return library


def failing(library, at, told):
    return {**os.environ, "LD_PRELOAD": library, "FAIL_AT": str(at), "FAIL_TOLD": told}


def try_get(program, root, library, folder, path, most):
    """How many runs ended whole, for want of memory, and by the store."""
    told, whole, counts = os.path.join(folder, "told"), get(program, root, path), {}
    for at in range(1, most):
        ran = subprocess.run([program, "get", root, "-", path], env=failing(library, at, told), capture_output=True, timeout=60)
        found = (ran.returncode, ran.stdout, ran.stderr)
        kind = "whole" if found == whole else "no memory" if found in ((5, b"", b"no memory\n"), (5, b"", b"")) else None
        if kind is None and ran.returncode == 3 and ran.stderr == b"store failed\n" and whole[1].startswith(ran.stdout):
            kind = "store failed"
        if kind is None:
            sys.exit(f"FAILED: get {path}, allocation {at}: {ran.returncode}, {len(ran.stdout)} bytes, {ran.stderr!r}")
        counts[kind] = counts.get(kind, 0) + 1
        if os.path.exists(told):
            os.remove(told)
            break
    return counts


def try_serve(program, root, library, folder, most):
    told, counts = os.path.join(folder, "told"), {}
    names = [name for name in NAMES for _ in range(2)]
    due = [get(program, root, name) for name in names]
    want = [body if status == 0 else line for status, body, line in due]
    sent = b"".join(f"GET {name} HTTP/1.1\r\n\r\n".encode() for name in names)
    for at in range(1, most):
        before = dict(os.environ)
        os.environ.update(failing(library, at, told))
        try:
            origin = Served(program, root, 1)
        except SystemExit as end:
            origin, why = None, str(end)
        finally:
            os.environ.clear()
            os.environ.update(before)
        if origin is None:
            if "ended with 5" not in why and "ended with 6" not in why:
                sys.exit(f"FAILED: serve, allocation {at}: {why}")
            counts["no memory at the start"] = counts.get("no memory at the start", 0) + 1
            continue
        text = origin.exchange(sent)
        status, line = origin.end()
        found, rest = replies(text, ["GET"] * len(names))
        others = [it for it, body in zip(found, want) if it[2] != body]
        if (status, line) in ((5, b"no memory\n"), (6, b"door failed\n")) and not text:
            kind = "no memory for the connection"
        elif status == 0 and len(found) == len(names) and not rest and not others:
            kind = "whole"
        elif status == 0 and len(found) == len(names) and not rest and len(others) == 1 and others[0][0] == 503:
            kind = "one reply of 503"
        else:
            sys.exit(f"FAILED: serve, allocation {at}: status {status} {line!r}, {len(found)} replies, {[(it[0], it[2][:40]) for it in others]}")
        counts[kind] = counts.get(kind, 0) + 1
        if os.path.exists(told):
            os.remove(told)
            break
    return counts


def main():
    program = os.path.abspath(sys.argv[1]) if len(sys.argv) > 1 else PROGRAM
    most = int(sys.argv[2]) if len(sys.argv) > 2 else 3000
    if not shutil.which("gcc"):
        print("gcc isn't installed: nothing is tried")
        return
    root = os.path.join(TOP, "crates/vodpack/data")
    with tempfile.TemporaryDirectory() as folder:
        library = built(folder)
        for path in NAMES:
            print(f"get {path}: {try_get(program, root, library, folder, path, most)}", flush=True)
        print(f"serve: {try_serve(program, root, library, folder, most)}")


if __name__ == "__main__":
    main()
