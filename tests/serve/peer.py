"""What the scripts of this folder share: the built program on a loopback port, and requests over raw sockets."""
import os
import socket
import subprocess
import sys
import time

HERE = os.path.dirname(os.path.abspath(__file__))
TOP = os.path.dirname(os.path.dirname(HERE))
PROGRAM = os.path.join(TOP, "crates/vodpack/out/vodpack")


def free_port():
    with socket.socket() as it:
        it.bind(("127.0.0.1", 0))
        return it.getsockname()[1]


class Served:
    """`vodpack serve` or `turns` over a folder, for so many connections."""

    def __init__(self, program, root, count, settings="-", command="serve", wrap=()):
        self.port = free_port()
        words = [*wrap, program, command, root, settings, f"127.0.0.1:{self.port}", str(count)]
        self.process = subprocess.Popen(words, stderr=subprocess.PIPE)
        self.wait_for_door()

    def wait_for_door(self):
        """Waits until the port is bound, without a connection, since each counts."""
        want = f"{self.port:04X}"
        for _ in range(500):
            with open("/proc/net/tcp") as table:
                for line in table:
                    fields = line.split()
                    if fields[1].endswith(":" + want) and fields[3] == "0A":
                        return
            if self.process.poll() is not None:
                sys.exit(f"the program ended with {self.process.returncode}: {self.process.stderr.read()}")
            time.sleep(0.01)
        sys.exit("the program doesn't listen")

    def connect(self, timeout=30):
        link = socket.create_connection(("127.0.0.1", self.port), timeout=timeout)
        link.setsockopt(socket.IPPROTO_TCP, socket.TCP_NODELAY, 1)
        return link

    def exchange(self, sent, shut=True):
        """All that comes back for these bytes until the connection is closed."""
        with self.connect() as link:
            try:
                link.sendall(sent)
                if shut:
                    link.shutdown(socket.SHUT_WR)
            except OSError:
                pass
            return drain(link)

    def memory(self):
        """Kilobytes that are resident."""
        with open(f"/proc/{self.process.pid}/status") as table:
            for line in table:
                if line.startswith("VmRSS"):
                    return int(line.split()[1])
        return 0

    def end(self, timeout=60):
        status = self.process.wait(timeout)
        return status, self.process.stderr.read()

    def stop(self):
        self.process.kill()
        self.process.wait()


def drain(link):
    got = b""
    while True:
        try:
            piece = link.recv(65536)
        except ConnectionResetError:
            return got
        if not piece:
            return got
        got += piece


class Asker:
    """Asks a served origin one request after another on a connection, and on a new one where it was closed."""

    def __init__(self, served):
        self.served, self.link, self.file = served, None, None

    def ask(self, path, method="GET", fields=""):
        """The status of the reply to a head with these further fields, the reply's fields, its body, and whether that is whole."""
        if self.link is None:
            self.link = self.served.connect()
            self.file = self.link.makefile("rb")
        self.link.sendall(f"{method} {path} HTTP/1.1\r\nHost: x\r\n{fields}\r\n".encode())
        status = int(self.file.readline().split()[1])
        fields = {}
        while line := self.file.readline().strip():
            name, value = line.decode("latin-1").split(": ", 1)
            fields[name.lower()] = value
        body, whole = (b"", True) if method == "HEAD" else self.body(fields)
        if not whole or fields.get("connection") == "close":
            self.close()
        return status, fields, body, whole

    def body(self, fields):
        if "content-length" in fields:
            length = int(fields["content-length"])
            body = self.file.read(length)
            return body, len(body) == length
        chunks = []
        while line := self.file.readline().strip():
            size = int(line, 16)
            chunks.append(self.file.read(size))
            if len(self.file.read(2)) < 2:
                return b"".join(chunks), False
            if size == 0:
                return b"".join(chunks), True
        return b"".join(chunks), False

    def close(self):
        if self.link is not None:
            self.file.close()
            self.link.close()
            self.link = None


def get(program, root, path, settings="-"):
    """Status, body and line of `vodpack get`."""
    done = subprocess.run([program, "get", root, settings, path], capture_output=True)
    return done.returncode, done.stdout, done.stderr


def chunked(text, at):
    """The body of chunks from a place on, the place behind it, and whether the last chunk was there."""
    body = []
    while True:
        end = text.find(b"\r\n", at)
        if end < 0:
            return b"".join(body), len(text), False
        size = int(text[at:end], 16)
        body.append(text[end + 2 : end + 2 + size])
        at = end + 2 + size + 2
        if size == 0:
            return b"".join(body), at, at <= len(text)
        if at > len(text):
            return b"".join(body), len(text), False


def replies(text, heads):
    """The replies in a text, to as many requests of these methods, each as (status, fields, body, whether it is whole), and what
    is over."""
    found, at = [], 0
    for method in heads:
        mark = text.find(b"\r\n\r\n", at)
        if mark < 0:
            break
        lines = text[at:mark].decode("latin-1").split("\r\n")
        at = mark + 4
        fields = {name.lower(): value for name, value in (line.split(": ", 1) for line in lines[1:])}
        status = int(lines[0].split()[1])
        whole, body = True, b""
        if method == "HEAD":
            pass
        elif "content-length" in fields:
            length = int(fields["content-length"])
            body = text[at : at + length]
            at += len(body)
            whole = len(body) == length
        elif fields.get("transfer-encoding") == "chunked":
            body, at, whole = chunked(text, at)
        else:
            body, at = text[at:], len(text)
        found.append((status, fields, body, whole))
    return found, text[at:]
