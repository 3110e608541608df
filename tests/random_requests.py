#!/usr/bin/env python3
"""Compares answers of vodpack on random films and mappings to a model that is written from the same rules, in tests/model.py.

usage: tests/random_requests.py [--served] [PROGRAM [SEED [ROUNDS]]]

PROGRAM is the built vodpack, by default crates/vodpack/out/vodpack. Each answer is asked for by `get`, or with --served on one
connection a round, so that `serve` keeps the metadata of films over its requests. In each round some small films with tables of all forms,
edit lists, AVC and HEVC, a mapping and settings are drawn, and then many paths of initialization segments, fragments, transport
streams, I-frames and lists of all kinds are asked for. Each answer is compared byte for byte, and each refusal by its number. The
status is 0 where all were equal; else the first case that differs is kept in a folder that is named.
"""
import json
import os
import random
import shutil
import struct
import subprocess
import sys
import tempfile

from boxes import box, full, u32
from model import SETS, UNITS, Refused, answer

sys.path.append(os.path.join(os.path.dirname(os.path.abspath(__file__)), "serve"))
from peer import Asker, Served

# Films


def entry_of(kind, codec):
    if kind == "a":
        decoder = bytes([4, 17, 0x40, 0x15]) + bytes(11) + bytes([5, 2, 0x11, 0x90])
        esds = full(b"esds", bytes([3, 25, 0, 1, 0]) + decoder + bytes([6, 1, 2]))
        head = bytes(6) + b"\0\3" + bytes(8) + struct.pack(">HH", 2, 16) + bytes(4) + u32(48000 << 16)
        return box(b"mp4a", head, esds)
    sets = [struct.pack(">H", len(it)) + it for it in SETS[codec]]
    if codec == "avc1":
        config = box(b"avcC", b"\x01\x42\xc0\x1e\xff\xe1" + sets[0] + b"\x01" + sets[1])
    else:
        arrays = b"".join(bytes([0x80 | 32 + i, 0, 1]) + it for i, it in enumerate(sets))
        config = box(b"hvcC", b"\x01\x01\x60" + bytes(3) + b"\xb0" + bytes(5) + b"\x5d" + bytes(8) + b"\xff\x03" + arrays)
    head = bytes(6) + b"\0\1" + bytes(16) + struct.pack(">HH", 640, 360) + bytes(50)
    return box(codec.encode(), head, config)


def draw_sample(draw, kind, codec):
    """The bytes of a sample: of video, mostly NAL units behind their lengths."""
    size = draw.choice([0, 1, 5, 20, draw.randint(0, 60), draw.choice([3, 200, 400])])
    if kind == "a" or draw.random() < 0.01:
        return draw.randbytes(size)
    units = b""
    for _ in range(draw.choice([0, 1, 1, 1, 2, 3])):
        kinds = [0x65, 0x41, 0x09, 0x06] if codec == "avc1" else [0x26, 0x02, 0x46, 0x4e]
        unit = draw.choice([b"", bytes([draw.choice(kinds)]) + draw.randbytes(size)])
        units += u32(len(unit)) + unit
    return units


class Track:
    """A track with random tables: its samples are (ticks, offset, delta, sync, bytes)."""

    def __init__(self, draw, kind, seconds, codec, movie_scale):
        self.kind, self.codec = kind, codec if kind == "v" else "mp4a"
        self.scale = draw.choice([1, 7, 24, 25, 1000, 12800, 30000, 44100, 48000, 90000, 1000003])
        usual = draw.choice([max(1, self.scale // draw.choice([1, 2, 5, 25])), 1024, 1001, draw.randint(1, 2 * self.scale)])
        usual = max(usual, self.scale * seconds // 300, 1)
        ticks = 0
        has_offsets, all_sync = draw.random() < 0.5, draw.random() < 0.4
        key = draw.choice([1, 3, 10, 25, 1000])
        first_sync = draw.random() < 0.9
        self.samples = []
        while ticks < seconds * self.scale and len(self.samples) < 400:
            delta = usual if draw.random() < 0.9 else draw.choice([0, 1, 2 * usual, draw.randint(0, 3 * usual)])
            offset = draw.choice([0, 0, usual, -usual, 2 * usual]) if has_offsets else 0
            number = len(self.samples)
            sync = all_sync or (number % key == 0 and (first_sync or number > 0))
            self.samples.append((ticks, offset, delta, sync, draw_sample(draw, kind, codec)))
            ticks += delta
        self.has_offsets, self.all_sync = has_offsets, all_sync
        self.entry = entry_of(kind, codec)
        self.edits = draw_edits(draw, self.scale, seconds)
        waits, rest = 0, list(self.edits or [])
        while rest and rest[0][1] == -1:
            waits += rest.pop(0)[0]
        self.delay = waits * UNITS // movie_scale
        self.skip = rest[0][1] * UNITS // self.scale if rest else 0
        # a damaged edit list is refused by its table, a damaged box round it by its place
        self.damage = draw.choice(["version", "count", "header"]) if self.edits is not None and draw.random() < 0.02 else None
        is_early = any(time < -1 for _, time in self.edits or [])
        self.edit_fault = 21 if self.damage == "header" else 24 if self.damage or is_early else None

    def cut(self, honoured):
        """What counts of the edit list: the delay, what is skipped, and what of that is kept for decoding."""
        if not honoured:
            return 0, 0, 0
        return self.delay, self.skip, min(self.skip, UNITS) if self.kind == "v" else 0

    def units(self, ticks):
        return ticks * UNITS // self.scale


def draw_edits(draw, scale, seconds):
    """The entries of an edit list, or none: durations in ticks of the movie, and media times in ticks of the track."""
    if draw.random() < 0.5:
        return None
    entries = [(draw.choice([0, 40, 1000, draw.randint(0, 3000)]), -1) for _ in range(draw.choice([0, 0, 1, 2]))]
    for _ in range(draw.choice([0, 1, 1, 2])):
        time = draw.choice([0, 1, scale // 2, scale, 3 * scale, draw.randint(0, scale * max(1, seconds))])
        entries.append((draw.randint(0, 90000), draw.choice([time, time, -1])))
    if draw.random() < 0.02:
        entries.append((0, -2))
    return entries


def runs(draw, values):
    """Runs of equal values, which may be cut at any place."""
    found = []
    for value in values:
        if found and found[-1][1] == value and draw.random() < 0.95:
            found[-1][0] += 1
        else:
            found.append([1, value])
    return found


def film(draw, tracks, movie_scale):
    """The bytes of a film: the chunks of its tracks stand in any order, and the movie box before or behind them."""
    chunks = []
    for number, track in enumerate(tracks):
        left = list(range(len(track.samples)))
        while left:
            count = min(len(left), draw.choice([1, 2, 5, 50, 400]))
            chunks.append((number, left[:count]))
            left = left[count:]
    order = chunks[:]
    if draw.random() < 0.7:
        draw.shuffle(order)
    wide, ends = draw.random() < 0.3, draw.random() < 0.5
    kind = box(b"ftyp", b"isom", u32(0), b"isom")
    junk = box(b"free", draw.randbytes(draw.randint(0, 30)))

    def movie(start):
        places, at = {}, start
        for number, samples in order:
            places[(number, samples[0])] = at
            at += sum(len(tracks[number].samples[i][4]) for i in samples) + 3
        boxes = [full(b"mvhd", u32(0, 0, movie_scale), bytes(84))]
        for number, track in enumerate(tracks):
            boxes.append(track_box(draw_of[number], track, [(places[(n, s[0])], len(s)) for n, s in chunks if n == number], wide))
            if draw_of[number].random() < 0.2:
                boxes.append(box(b"trak", box(b"mdia", full(b"hdlr", u32(0), b"text", bytes(13)))))
        return box(b"moov", *boxes)

    seeds = [draw.randint(0, 1 << 30) for _ in tracks]
    length = 0
    media = b"".join(b"".join(tracks[n].samples[i][4] for i in s) + b"###" for n, s in order)
    for _ in range(2):
        draw_of = [random.Random(seed) for seed in seeds]
        start = len(kind) + len(junk) + 8 + (0 if ends else length)
        moov = movie(start)
        length = len(moov)
    data = box(b"mdat", media)
    return kind + junk + data + moov if ends else kind + junk + moov + data


def track_box(draw, track, chunks, wide):
    samples = track.samples
    times = runs(draw, [it[2] for it in samples])
    tables = [full(b"stsd", u32(1), track.entry), full(b"stts", u32(len(times)), *(u32(*it) for it in times))]
    if track.has_offsets:
        found = runs(draw, [it[1] for it in samples])
        version = 1 if any(it[1] < 0 for it in found) else draw.choice([0, 1])
        fields = b"".join(struct.pack(">Ii", *it) for it in found)
        tables.append(full(b"ctts", u32(len(found)), fields, version=version))
    if not track.all_sync:
        keys = [i + 1 for i, it in enumerate(samples) if it[3]]
        tables.append(full(b"stss", u32(len(keys), *keys)))
    first, counts = 1, []
    for count, many in runs(draw, [it[1] for it in chunks]):
        counts.append(u32(first, many, 1))
        first += count
    tables.append(full(b"stsc", u32(len(counts)), *counts))
    sizes = [len(it[4]) for it in samples]
    if sizes and min(sizes) == max(sizes) > 0:
        tables.append(full(b"stsz", u32(sizes[0], len(sizes))))
    else:
        tables.append(full(b"stsz", u32(0, len(sizes), *sizes)))
    places = [it[0] for it in chunks]
    if wide:
        tables.append(full(b"co64", u32(len(places)), *(struct.pack(">Q", it) for it in places)))
    else:
        tables.append(full(b"stco", u32(len(places), *places)))
    if draw.random() < 0.3:
        draw.shuffle(tables)
    if draw.random() < 0.5:
        header = full(b"mdhd", u32(0, 0, track.scale, 0), b"\x55\xc4\0\0")
    else:
        header = full(b"mdhd", bytes(16), u32(track.scale, 0, 0), b"\x55\xc4\0\0", version=1)
    handler = full(b"hdlr", u32(0), {"v": b"vide", "a": b"soun"}[track.kind], bytes(13))
    media = box(b"mdia", header, handler, box(b"minf", box(b"stbl", *tables)))
    return box(b"trak", full(b"tkhd", bytes(80)), *edit_boxes(draw, track.edits, track.damage), media)


def edit_boxes(draw, entries, damage):
    if entries is None:
        return []
    if damage == "header":
        return [box(b"edts", u32(4) + b"elst" + bytes(8))]
    if damage:
        version, count = (2, 0) if damage == "version" else (0, len(entries) + 1)
        return [box(b"edts", full(b"elst", u32(count), bytes(12 * len(entries)), version=version))]
    if draw.random() < 0.5:
        fields = b"".join(struct.pack(">IiI", lasts, time, 0x10000) for lasts, time in entries)
        return [box(b"edts", full(b"elst", u32(len(entries)), fields))]
    fields = b"".join(struct.pack(">QqI", lasts, time, draw.choice([0, 0x10000])) for lasts, time in entries)
    return [box(b"edts", box(b"free"), full(b"elst", u32(len(entries)), fields, version=1))]


# Random requests


def draw_tracks(draw):
    names = draw.sample(["v1", "a1", "v2", "a2", "a3"], draw.randint(1, 4))
    return "-".join(names)


def draw_clip(draw, names, declared):
    clip = {}
    if draw.random() < 0.4:
        count = draw.randint(1, 4)
        clip["type"] = "concat"
        clip["paths"] = [draw.choice(names) for _ in range(count)]
        clip["durations"] = [draw.randint(1, 9000) for _ in range(count)]
        if draw.random() < 0.6:
            least = 1 - sum(clip["durations"])
            clip["offset"] = draw.randint(-12000 if declared else max(least, -12000), 6000)
    else:
        clip["path"] = draw.choice(["", "/"]) + draw.choice(names)
        if draw.random() < 0.5:
            clip["clipFrom"] = draw.choice([0, 1, draw.randint(0, 9000)])
    if draw.random() < 0.1:
        clip["tracks"] = draw_tracks(draw)
    return clip


def draw_mapping(draw, names):
    mapping = {}
    count = 1
    if draw.random() < 0.7:
        count = draw.randint(1, 5)
        mapping["durations"] = [draw.choice([1, 500 * draw.randint(1, 30), draw.randint(1, 20000)]) for _ in range(count)]
    if draw.random() < 0.6:
        mapping["discontinuity"] = draw.random() < 0.3
    if draw.random() < 0.3:
        mapping["segmentDuration"] = draw.choice([700, 1000, 2000, 10000])
    clips = lambda: [draw_clip(draw, names, "durations" in mapping) for _ in range(count)]
    mapping["sequences"] = [{"clips": clips(), **draw_members(draw)} for _ in range(draw.randint(1, 3))]
    return mapping


def draw_members(draw):
    members = {}
    if draw.random() < 0.5:
        members["language"] = draw.choice(["eng", "deu", "fra"])
    if draw.random() < 0.4:
        members["label"] = draw.choice(["English", "Ton", "M\u00e4rchen"])
    if draw.random() < 0.5:
        members["bitrate"] = {kind: draw.randint(1, 5000000) for kind in "va" if draw.random() < 0.7}
    return members


def draw_settings(draw):
    settings = {}
    if draw.random() < 0.8:
        settings["segment_ms"] = draw.choice([1, 333, 1000, 2000, draw.randint(200, 3000)])
    if draw.random() < 0.4:
        settings["bootstrap"] = [draw.randint(1, 3000) for _ in range(draw.randint(1, 4))]
    if draw.random() < 0.4:
        settings["align"] = draw.random() < 0.8
    if draw.random() < 0.7:
        settings["policy"] = draw.choice(["last_short", "last_long", "last_rounded"])
    if draw.random() < 0.3:
        settings["ignore_edits"] = draw.random() < 0.7
    if draw.random() < 0.4:
        settings["hls_fmp4"] = draw.random() < 0.8
    if draw.random() < 0.4:
        settings["iframes"] = draw.random() < 0.8
    return settings


def draw_ask(draw, is_mapped, names):
    """A path, the mapping that it has where it is local, and what it asks for."""
    ask = {"window": (None, None), "tracks": None, "sequence": 1}
    words, mapping = [], None
    if is_mapped:
        target = "m.json"
    elif draw.random() < 0.3:
        many = [draw.choice(names) for _ in range(draw.randint(1, 3))]
        target = "f," + ",".join(it[1:-4] for it in many) + ",.mp4.urlset"
        mapping = many
    else:
        mapping = [draw.choice(names)]
        target = mapping[0]
    if draw.random() < 0.2:
        ask["sequence"] = draw.randint(0, 3)
    low = high = None
    if draw.random() < 0.4:
        low = draw.choice([0, draw.randint(0, 9000)])
        words.append(f"clipFrom/{low}")
    if draw.random() < 0.4:
        high = (low or 0) + draw.choice([1, 1000, draw.randint(1, 20000)])
        words.append(f"clipTo/{high}")
    ask["window"] = (low, high)
    if draw.random() < 0.1:
        ask["tracks"] = draw_tracks(draw)
        words.append(f"tracks/{ask['tracks']}")
    draw.shuffle(words)
    ask["asked"] = draw.choice([{"v": 1}, {"a": 1}, {"v": 1, "a": 1}, {"v": 1, "a": 1}])
    if draw.random() < 0.05:
        ask["asked"] = draw.choice([{"v": 2}, {"v": 1, "a": 2}])
    named = "-".join(f"{kind}{number}" for kind, number in ask["asked"].items())
    ask["named"], ask["stream"], ask["list"] = named, False, None
    proto, kind = draw.choice(["hls", "dash"]), draw.random()
    if kind < 0.2:
        ask["list"] = draw.choice(["master", "mpd", "iframes", "iframe"])
        if ask["list"] in ("iframes", "iframe"):
            ask["asked"], ask["named"] = {"v": 1}, "v1"
        if ask["list"] == "iframe":
            ask["number"], ask["index"], ask["stream"] = draw.choice([0, 1, 1, 2, 3, 9]), draw.choice([0, 1, 1, 2, 3, 10]), True
        proto = "dash" if ask["list"] == "mpd" else "hls"
        leaf = {
            "master": "master.m3u8",
            "mpd": "manifest.mpd",
            "iframes": f"iframes-f{ask['sequence']}-v1.m3u8",
            "iframe": f"iframe-{ask.get('number')}-{ask.get('index')}-f{ask['sequence']}-v1.ts",
        }[ask["list"]]
    elif kind < 0.28:
        ask["part"] = draw.choice([0, 1, 1, 2, 3])
        leaf = f"init-c{ask['part']}-f{ask['sequence']}-{named}.mp4"
    elif kind < 0.4:
        proto, leaf = "hls", f"index-f{ask['sequence']}-{named}.m3u8"
    elif kind < 0.48:
        ask["list"], leaf = "clip", f"clip-f{ask['sequence']}-{named}.mp4"
    else:
        ask["number"] = draw.choice([0, 1, 1, 2, 2, 3, 4, draw.randint(1, 9), draw.randint(1, 40)])
        ask["stream"] = proto == "hls" and draw.random() < 0.8
        word, ending = ("seg", "ts" if ask["stream"] else "m4s") if proto == "hls" else ("fragment", "m4s")
        leaf = f"{word}-{ask['number']}-f{ask['sequence']}-{named}.{ending}"
    place = "mapped" if is_mapped else "local"
    if mapping is not None:
        mapping = {"sequences": [{"clips": [{"path": it}]} for it in mapping]}
    return "/".join(["", place, proto, target, *words, leaf]), mapping, ask


class ByGet:
    """Asks the command `get`, once a path."""

    def __init__(self, program, folder):
        self.program, self.folder = program, folder

    def ask(self, path):
        ran = subprocess.run([self.program, "get", ".", "s.json", path], cwd=self.folder, capture_output=True)
        return ran.returncode, ran.stdout, ran.stderr

    def part(self, path, whole, draw):
        """It takes no range."""
        return True

    def end(self):
        pass


class ByServe:
    """Asks `serve` on a connection, and tells its replies as `get` would."""

    def __init__(self, program, folder):
        self.served = Served(program, folder, 1000, f"{folder}/s.json")
        self.asker = Asker(self.served)

    def ask(self, path):
        status, fields, body, whole = self.asker.ask(path)
        if status != 200:
            return 2, b"", body
        return (0, body, b"") if whole else (2, body, b"refused 28 BadNal\n")

    def part(self, path, whole, draw):
        """Whether a range of a clip is that part of it."""
        first = draw.randrange(len(whole))
        last = draw.choice([first, draw.randrange(first, len(whole)), len(whole) + 5])
        asked = draw.choice([f"{first}-{last}", f"{first}-", f"-{len(whole) - first}"])
        until = min(last, len(whole) - 1) if asked == f"{first}-{last}" else len(whole) - 1
        status, fields, body, _ = self.asker.ask(path, fields=f"Range: bytes={asked}\r\n")
        told = fields.get("content-range")
        return (status, body, told) == (206, whole[first : until + 1], f"bytes {first}-{until}/{len(whole)}")

    def end(self):
        self.asker.close()
        self.served.stop()


def run_round(ways, draw, folder, counts):
    names = [f"f{i}.mp4" for i in range(3)]
    films = {}
    for name in names:
        kinds = draw.choice(["v", "a", "va", "va", "va", "av", "vaa", "vava"])
        codec, movie_scale = draw.choice(["avc1", "avc1", "hvc1", "hev1"]), draw.choice([1000, 1000, 600, 90000])
        tracks = [Track(draw, kind, draw.choice([0, 1, 5, 10, 15, 15, 20]), codec, movie_scale) for kind in kinds]
        films[name] = tracks
        with open(f"{folder}/{name}", "wb") as file:
            file.write(film(draw, tracks, movie_scale))
    names.append("f9.mp4")
    if draw.random() < 0.7:
        names.pop()
    settings, mapped = draw_settings(draw), draw_mapping(draw, names)
    for name, value in (("s.json", settings), ("m.json", mapped)):
        with open(f"{folder}/{name}", "w") as file:
            json.dump(value, file, ensure_ascii=draw.random() < 0.5)
    way = ways(folder)
    try:
        return ask_all(way, draw, folder, counts, films, mapped, settings, names)
    finally:
        way.end()


def ask_all(way, draw, folder, counts, films, mapped, settings, names):
    for _ in range(60):
        # most of the requests that come to nothing are drawn anew
        for _ in range(draw.choice([1, 8])):
            path, local, ask = draw_ask(draw, draw.random() < 0.7, names)
            try:
                body, is_whole = answer(films, local or mapped, settings, ask)
                want = (0, body, b"") if is_whole else (2, body, b"refused 28 ")
                break
            except Refused as refusal:
                want = (2, b"", b"refused %d " % refusal.args[0])
        status, got, told = way.ask(path)
        line = told if want[0] == 0 else told[: len(want[2])]
        word = f"refused {refusal_of(want[2])}" if want[0] else path.split("/")[-1].split("-")[0] + path[path.rindex(".") :]
        counts[word] = counts.get(word, 0) + 1
        if (status, got, line) != want:
            print(f"differs: get . s.json {path}")
            print(f"want {want[0]} {len(want[1])} bytes {want[2]}, have {status} {len(got)} bytes {told}")
            with open(f"{folder}/want", "wb") as file:
                file.write(want[1])
            return False
        if status == 0 and ask["list"] == "clip" and not way.part(path, body, draw):
            print(f"differs: a range of {path}")
            return False
    return True


def refusal_of(line):
    return line.split()[1].decode()


def main():
    here = os.path.dirname(os.path.abspath(__file__))
    words = [it for it in sys.argv[1:] if it != "--served"]
    kind = ByServe if "--served" in sys.argv else ByGet
    program = os.path.abspath(words[0] if words else f"{here}/../crates/vodpack/out/vodpack")
    if not os.access(program, os.X_OK):
        print(f"there is no program {program}: build it with rt run in crates/vodpack, or name it")
        return 2
    seed = int(words[1]) if len(words) > 1 else 1
    rounds = int(words[2]) if len(words) > 2 else 40
    counts = {}
    for i in range(rounds):
        folder = tempfile.mkdtemp()
        try:
            passed = run_round(lambda at: kind(program, at), random.Random(f"{seed} {i}"), folder, counts)
        except BaseException:
            shutil.rmtree(folder, ignore_errors=True)
            raise
        if not passed:
            print(f"seed {seed} round {i}: the files and what is due are in {folder}")
            return 1
        shutil.rmtree(folder, ignore_errors=True)
    told = ", ".join(f"{count} {word}" for word, count in sorted(counts.items()))
    print(f"seed {seed}, {rounds} rounds: {told}")
    return 0


if __name__ == "__main__":
    sys.exit(main())
