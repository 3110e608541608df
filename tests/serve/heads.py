#!/usr/bin/env python3
"""Sends random and damaged request heads to a served origin and compares each reply with a model that is written from
RFC 9112 and the rules of the README, apart from the program.

usage: tests/serve/heads.py [PROGRAM [COUNT [SEED]]]

PROGRAM is the built vodpack, by default crates/vodpack/out/vodpack; COUNT is 100000. The status is 0 where all were equal, else
the first head that differs is printed.
"""
import random
import re
import sys
import tempfile
import urllib.parse

from peer import PROGRAM, Served

TOKEN = set(b"!#$%&'*+-.^_`|~0123456789ABCDEFGHIJKLMNOPQRSTUVWXYZabcdefghijklmnopqrstuvwxyz")
WHITE = b" \t"
MOST = 10000


def line_end(text, at):
    """Behind a line end at a place; None where more is needed, False where there is none."""
    if at == len(text):
        return None
    if text[at] == 10:
        return at + 1
    if text[at] != 13:
        return False
    if at + 1 == len(text):
        return None
    return at + 2 if text[at + 1] == 10 else False


def span(text, at, test):
    while at < len(text) and test(text[at]):
        at += 1
    return at


def is_value(b):
    return b == 9 or 32 <= b != 127


class Refused(Exception):
    def __init__(self, number):
        super().__init__(number)
        self.number = number


class More(Exception):
    pass


def expect(found):
    if found is None:
        raise More
    if found is False:
        raise Refused(1)
    return found


def read_head(text):
    """(used, method, target, minor, fields), or More, or a refusal."""
    at = 0
    while at < len(text) and text[at] in b"\r\n":
        at = expect(line_end(text, at))
    if at == len(text):
        raise More
    start, at = at, span(text, at, lambda b: b in TOKEN)
    if at == len(text):
        raise More
    if at == start or text[at] != 32:
        raise Refused(1)
    method = text[start:at]
    start, at = at + 1, span(text, at + 1, lambda b: 32 < b != 127)
    if at == len(text):
        raise More
    target = text[start:at]
    if at == start or text[at] != 32:
        raise Refused(1)
    try:
        target.decode()
    except UnicodeDecodeError:
        raise Refused(1)
    at += 1
    for i, wanted in enumerate([b"H", b"T", b"T", b"P", b"/", b"1", b".", b"01"]):
        if at == len(text):
            raise More
        if text[at] not in wanted:
            raise Refused(1)
        at += 1
    minor = text[at - 1] - 48
    at = expect(line_end(text, at))
    fields = []
    while True:
        if at == len(text):
            raise More
        if text[at] in b"\r\n":
            return expect(line_end(text, at)), method, target, minor, fields
        start, at = at, span(text, at, lambda b: b in TOKEN)
        if at == start:
            raise Refused(1)
        if len(fields) == 64:
            raise Refused(3)
        if at == len(text):
            raise More
        if text[at] != 58:
            raise Refused(1)
        name = text[start:at]
        start, at = at + 1, span(text, at + 1, is_value)
        if at == len(text):
            raise More
        value = text[start:at].strip(WHITE)
        at = expect(line_end(text, at))
        fields.append((name.lower(), value))


NAMES = {1: ("400 Bad Request", "BadHead"), 2: ("405 Method Not Allowed", "Method"), 3: ("431 Request Header Fields Too Large", "HeadTooLong"),
         4: ("404 Not Found", "BadPath"), 5: ("400 Bad Request", "BodyNotTaken"), 10: ("404 Not Found", "NoMapping"), 15: ("404 Not Found", "NoSequence"),
         20: ("404 Not Found", "NoFile")}


def refusal(number, close, with_body):
    phrase, name = NAMES[number]
    body = f"refused {number} {name}\n"
    head = f"HTTP/1.1 {phrase}\r\nContent-Type: text/plain\r\nContent-Length: {len(body)}\r\n"
    head += "Allow: GET, HEAD\r\n" * (number == 2) + "Connection: close\r\n" * close + "\r\n"
    return (head + body * with_body).encode()


LEAVES = {
    "hls": re.compile(r"master\.m3u8|index-(f(0|[1-9][0-9]{0,3})-)?(v[1-9][0-9]?(-a[1-9][0-9]?)?|a[1-9][0-9]?)\.m3u8"),
    "dash": re.compile(r"manifest\.mpd"),
}


def path_refusal(target):
    """Why a path is refused where there is neither a film nor a mapping. Of the leaves these are known that a damaged target can
    still spell."""
    path = target.split(b"?")[0]
    if len(target) > 2048 or not path.startswith(b"/"):
        return 4
    try:
        parts = [urllib.parse.unquote_to_bytes(part).decode() for part in path[1:].split(b"/")]
    except UnicodeDecodeError:
        return 4
    if len(parts) < 4 or any(part in ("", ".", "..") or any(c < " " or c in "/\x7f" for c in part) for part in parts):
        return 4
    place, proto, leaf = parts[0], parts[1], parts[-1]
    spelled = LEAVES[proto].fullmatch(leaf) if proto in LEAVES else None
    name = "/".join(parts[2:-1])
    if place not in ("local", "mapped") or not spelled or len(name.encode()) > 1024 or name.endswith(".urlset"):
        return 4
    if place == "mapped":
        return 10
    return 15 if proto == "hls" and (spelled.group(2) or "1") != "1" else 20


def served(text):
    """What a connection with this input writes."""
    out = b""
    for turn in range(1, MOST + 1):
        try:
            used, method, target, minor, fields = read_head(text[:8192])
        except More:
            return out + refusal(3, True, True) if len(text) >= 8192 else out
        except Refused as why:
            return out + refusal(why.number, True, True)
        text = text[used:]
        with_body = method != b"HEAD"
        close = minor == 0 or any(
            name == b"connection" and any(part.strip(WHITE).lower() == b"close" for part in value.split(b",")) for name, value in fields
        )
        if any(name == b"transfer-encoding" or name == b"content-length" and value != b"0" for name, value in fields):
            return out + refusal(5, True, with_body)
        close = close or turn == MOST
        number = 2 if method not in (b"GET", b"HEAD") else path_refusal(target)
        out += refusal(number, close, with_body)
        if close:
            return out
    return out


# Heads

METHODS = [b"GET", b"GET", b"GET", b"HEAD", b"HEAD", b"POST", b"get", b"OPTIONS", b"G"]
TARGETS = [b"/", b"/x", b"/local/dash/gone.mp4/manifest.mpd", b"/mapped/hls/gone.json/master.m3u8", b"/local/hls/gone.mp4/index-v1.m3u8?x=1",
           b"*", b"http://a/b", b"/%zz", "/é".encode(), b"/\xff"]
FIELDS = [b"Host: x", b"Connection: close", b"connection:keep-alive , Close", b"Connection: closed", b"Content-Length: 0", b"Content-Length: 5",
          b"content-length:\t0 ", b"Transfer-Encoding: chunked", b"X: \xe9", b"Accept:", b"Range: bytes=0-1", b"A-b_c!: 1", b"Cookie: a=b; c=d"]


def draw_head(draw):
    end = draw.choice([b"\r\n", b"\r\n", b"\r\n", b"\n"])
    head = b"".join(draw.choice([b"\r\n", b"\n"]) for _ in range(draw.choice([0, 0, 0, 1, 2])))
    head += draw.choice(METHODS) + b" " + draw.choice(TARGETS) + b" HTTP/1." + draw.choice([b"1", b"1", b"1", b"0"]) + end
    many = draw.choice([0, 1, 1, 2, 3, 5]) if draw.random() < 0.98 else draw.choice([63, 64, 65, 66])
    if many > 60:
        head += b"".join(b"F%d: %d%s" % (i, i, end) for i in range(many))
    else:
        weights = [8, 1, 1, 2, 2, 0.3, 2, 0.3, 3, 3, 3, 3, 3]
        head += b"".join(field + end for field in draw.choices(FIELDS, weights, k=many))
    if draw.random() < 0.01:
        head += b"Long: " + b"a" * draw.choice([7900, 8050, 8100, 8120, 8150, 8192, 9000]) + end
    return head + end


def damage(draw, text):
    kind = draw.randrange(5)
    if not text:
        return text
    at = draw.randrange(len(text))
    if kind == 0:
        return text[:at] + bytes([draw.randrange(256)]) + text[at + 1 :]
    if kind == 1:
        return text[:at] + text[at + 1 :]
    if kind == 2:
        return text[:at] + draw.choice([b" ", b"\r", b"\n", b"\0", b":", b"\t", b"\x7f", b"\x80"]) + text[at:]
    if kind == 3:
        return text[:at]
    return text[:at] + draw.randbytes(draw.choice([1, 3, 40]))


def is_free(text, want, got):
    """Of a head with too many fields and hopeless bytes either refusal is due, and bytes that end inside a target may count as
    hopeless or as unfinished."""
    many, hopeless = refusal(3, True, True), refusal(1, True, True)
    if want.endswith(many) and got == want[: -len(many)] + hopeless:
        return True
    return ends_in_target(text) and got in (b"", hopeless)


def ends_in_target(text):
    at = len(text) - len(text.lstrip(b"\r\n"))
    method, mark, target = text[at:].partition(b" ")
    return bool(mark) and b" " not in target and all(32 < b != 127 for b in target)


def main():
    program = sys.argv[1] if len(sys.argv) > 1 else PROGRAM
    count = int(sys.argv[2]) if len(sys.argv) > 2 else 100000
    draw = random.Random(int(sys.argv[3]) if len(sys.argv) > 3 else 1)
    with tempfile.TemporaryDirectory() as root:
        origin = Served(program, root, count)
        heads = 0
        try:
            for case in range(count):
                texts = [draw_head(draw) for _ in range(draw.choice([1, 1, 1, 2, 3]))]
                text = b"".join(texts)
                for _ in range(draw.choice([0, 1, 1, 2])):
                    text = damage(draw, text)
                heads += len(texts)
                want = served(text)
                got = origin.exchange(text)
                if got != want and not is_free(text, want, got):
                    sys.exit(f"case {case}: sent {text!r}\nwant {want!r}\ngot  {got!r}")
            status, line = origin.end()
        finally:
            origin.stop()
        if (status, line) != (0, b""):
            sys.exit(f"the program ended with {status}: {line!r}")
        print(f"{count} connections with {heads} heads: each reply is the model's")


if __name__ == "__main__":
    main()
