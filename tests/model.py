"""The answers of vodpack by lists of samples: what tests/random_requests.py compares the program to.

A film is a list of tracks, each with `kind` (v or a), `codec`, `scale` (its timescale), `samples` as (ticks, offset, delta, sync, bytes),
`entry` (its sample entry) and `edit_fault`, and with `units(ticks)` and `cut(honoured)`. An answer is the bytes of a body and whether it is
whole; a refusal is raised by its number. Nothing here knows of tables, runs or reads.
"""
import struct

from boxes import box, full, u32

UNITS = 90000
ENDLESS = 1 << 62

# The parameter sets in the records of the films.
SETS = {"avc1": [b"\x67\x42\xc0\x1e", b"\x68\xce\x3c\x80"], "hvc1": [b"\x40\x01\x0c", b"\x42\x01\x01", b"\x44\x01\xc1"]}
SETS["hev1"] = SETS["hvc1"]


class Refused(Exception):
    """A refusal with this number."""


# Pieces and parts


def timeline(mapping, sequence, window, tracks):
    sequences = mapping["sequences"]
    if not 1 <= sequence <= len(sequences):
        raise Refused(15)
    lengths = mapping.get("durations")
    low, high = window[0] or 0, window[1]
    pieces, clips, start = [], [], 0
    for place, clip in enumerate(sequences[sequence - 1]["clips"]):
        exposed = clip.get("tracks") or tracks or "v1-a1"
        found = []
        if clip.get("type") == "concat":
            length = lengths[place] if lengths else sum(clip["durations"]) + clip.get("offset", 0)
            before = 0
            for path, lasts in zip(clip["paths"], clip["durations"]):
                base = 90 * (start + clip.get("offset", 0) + before)
                found.append([clip.get("basePath", "") + path, base, max(0, 90 * start - base), min(90 * lasts, 90 * (start + length) - base)])
                before += lasts
        else:
            length = lengths[place] if lengths else None
            skipped = clip.get("clipFrom", 0)
            lo = 90 * skipped
            found.append([clip["path"], 90 * (start - skipped), lo, None if length is None else lo + 90 * length])
        kept = []
        for name, base, lo, hi in found:
            lo = max(lo, 90 * low - base)
            if high is not None:
                hi = 90 * high - base if hi is None else min(hi, 90 * high - base)
            if hi is None or lo < hi:
                kept.append((name.removeprefix("/"), exposed, base - 90 * low, lo, hi))
        clips.append((start, length, kept))
        start += length or 0
    if not any(kept for _, _, kept in clips):
        raise Refused(16)
    if mapping.get("discontinuity", True):
        whole = clips
    else:
        lasts = [it[1] for it in clips]
        whole = [(0, None if None in lasts else sum(lasts), [piece for it in clips for piece in it[2]])]
    parts = []
    for begins, length, kept in whole:
        left = None
        if length is not None:
            left = max(0, min(begins + length, ENDLESS if high is None else high) - max(begins, low))
        if left != 0:
            parts.append((90 * (max(begins, low) - low), left, kept))
    return parts


def checked(films, piece, asked, honoured):
    """The asked tracks of a piece, or its first fault."""
    name, exposed, _, _, _ = piece
    if name not in films:
        raise Refused(20)
    named = {"v": [], "a": []}
    for it in exposed.split("-"):
        own = [track for track in films[name] if track.kind == it[0]]
        if int(it[1:]) <= len(own):
            named[it[0]].append(own[int(it[1:]) - 1])
    found = {}
    for kind in ("v", "a"):
        if kind in asked:
            if asked[kind] > len(named[kind]):
                raise Refused(25)
            found[kind] = named[kind][asked[kind] - 1]
            if honoured and found[kind].edit_fault:
                raise Refused(found[kind].edit_fault)
    return found


class Row:
    """A selected sample in the time of the output: `decode` is its decode time in a transport stream."""

    def __init__(self, base, track, cut, sample):
        ticks, offset, delta, self.sync, self.data = sample
        delay, skip, lead_in = cut
        moved = delay - (skip - lead_in)
        self.time = base + track.units(ticks) + moved
        self.shown = base + track.units(ticks + offset) + delay - skip
        self.lasts = track.units(ticks + delta) - track.units(ticks)
        self.decode = self.time - lead_in
        self.track = track


def rows_of(piece, track, honoured):
    cut = track.cut(honoured)
    kept = cut[1] - cut[2]
    return [Row(piece[2], track, cut, it) for it in track.samples if track.units(it[0]) >= kept]


def selected(piece, tracks, lead, honoured):
    """The selected rows of a piece by kind."""
    _, _, base, lo, hi = piece
    hi = ENDLESS if hi is None else base + hi
    rows = {kind: [] for kind in tracks}
    inside = [row for row in rows_of(piece, tracks[lead], honoured) if base + lo <= row.time < hi]
    while inside and not inside[0].sync:
        inside = inside[1:]
    if not inside:
        return rows
    for kind, track in tracks.items():
        rows[kind] = inside if kind == lead else [row for row in rows_of(piece, track, honoured) if inside[0].time <= row.time < hi]
    return rows


# The grid


def boundary(grid, k):
    starts, step = grid["bootstrap"], grid["step"]
    return sum(starts[:k]) + step * max(0, k - len(starts))


def cells(grid, length):
    if length == 0:
        return 0
    n = 0
    while boundary(grid, n) < length:
        n += 1
    if grid["policy"] == "last_short":
        return n
    m = n if boundary(grid, n) == length else n - 1
    if grid["policy"] == "last_rounded" and 2 * (length - boundary(grid, m)) >= boundary(grid, m + 1) - boundary(grid, m):
        m += 1
    return max(1, m)


# Fragmented MP4


def fragment(number, rows):
    order = [kind for kind in ("v", "a") if rows.get(kind)]
    size = 24 + sum(64 + 16 * len(rows[kind]) for kind in order)
    place, trafs, media = size + 8, [], b""
    for kind in order:
        own = rows[kind]
        entries = b""
        for i, row in enumerate(own):
            lasts = own[i + 1].time - row.time if i + 1 < len(own) else row.lasts
            flags = 0x02000000 if row.sync else 0x01010000
            entries += struct.pack(">IIIi", min(lasts, 0xFFFFFFFF), len(row.data), flags, row.shown - row.time)
        trafs.append(
            box(
                b"traf",
                full(b"tfhd", u32(1 if kind == "v" else 2), flags=0x020000),
                full(b"tfdt", struct.pack(">Q", own[0].time), version=1),
                full(b"trun", u32(len(own), place), entries, version=1, flags=0x000F01),
            )
        )
        data = b"".join(it.data for it in own)
        media += data
        place += len(data)
    front = box(b"styp", b"msdh", u32(0), b"msdh", b"iso6")
    return front + box(b"moof", full(b"mfhd", u32(number)), *trafs) + box(b"mdat", media)


def init(tracks):
    matrix = u32(0x10000, 0, 0, 0, 0x10000, 0, 0, 0, 0x40000000)
    boxes = [full(b"mvhd", u32(0, 0, UNITS, 0, 0x10000), b"\1\0", bytes(10), matrix, bytes(24), u32(3))]
    ends = []
    for kind in ("v", "a"):
        if kind not in tracks:
            continue
        number, is_video = (1, True) if kind == "v" else (2, False)
        size = u32(640 << 16, 360 << 16) if is_video else u32(0, 0)
        loud = b"\0\0" if is_video else b"\1\0"
        header = full(b"tkhd", u32(0, 0, number, 0, 0), bytes(8), bytes(4), loud, bytes(2), matrix, size, flags=7)
        own = tracks[kind].entry
        own = own[:14] + b"\0\1" + own[16:]
        tables = box(
            b"stbl",
            full(b"stsd", u32(1), own),
            full(b"stts", u32(0)),
            full(b"stsc", u32(0)),
            full(b"stsz", u32(0, 0)),
            full(b"stco", u32(0)),
        )
        place = box(b"dinf", full(b"dref", u32(1), full(b"url ", flags=1)))
        about = full(b"vmhd", bytes(8), flags=1) if is_video else full(b"smhd", u32(0))
        media = box(
            b"mdia",
            full(b"mdhd", u32(0, 0, UNITS, 0), b"\x55\xc4\0\0"),
            full(b"hdlr", u32(0), b"vide" if is_video else b"soun", bytes(13)),
            box(b"minf", about, place, tables),
        )
        boxes.append(box(b"trak", header, media))
        ends.append(full(b"trex", u32(number, 1, 0, 0, 0)))
    return box(b"ftyp", b"iso6", u32(0), b"iso6", b"dash") + box(b"moov", *boxes, box(b"mvex", *ends))


# Clips


MATRIX = u32(0x10000, 0, 0, 0, 0x10000, 0, 0, 0, 0x40000000)


def u64(*numbers):
    return struct.pack(f">{len(numbers)}q", *numbers)


def durations(own):
    return [min(own[i + 1].time - row.time if i + 1 < len(own) else row.lasts, 0xFFFFFFFF) for i, row in enumerate(own)]


def clip_track(kind, own, places, late):
    """A `trak` of rows that stand at these places; the track begins so late."""
    is_video, track = kind == "v", own[0].track
    lasts = own[-1].time + durations(own)[-1] - own[0].time
    size = u32(640 << 16, 360 << 16) if is_video else u32(0, 0)
    loud = b"\0\0" if is_video else b"\1\0"
    about = u64(0, 0) + u32(1 if is_video else 2, 0) + u64(lasts + late)
    header = full(b"tkhd", about, bytes(8), bytes(4), loud, bytes(2), MATRIX, size, version=1, flags=7)
    edits = []
    if late:
        edits = [box(b"edts", full(b"elst", u32(2), u64(late, -1), u32(0x10000), u64(lasts, 0), u32(0x10000), version=1))]
    entry = track.entry[:14] + b"\0\1" + track.entry[16:]
    syncs = [i + 1 for i, row in enumerate(own) if row.sync]
    tables = [
        full(b"stsd", u32(1), entry),
        full(b"stts", u32(len(own)), *(u32(1, it) for it in durations(own))),
        full(b"ctts", u32(len(own)), *(struct.pack(">Ii", 1, row.shown - row.time) for row in own), version=1),
        *([full(b"stss", u32(len(syncs), *syncs))] if is_video else []),
        full(b"stsc", u32(1, 1, 1, 1)),
        full(b"stsz", u32(0, len(own), *(len(row.data) for row in own))),
        full(b"co64", u32(len(own)), u64(*places)),
    ]
    media = box(
        b"mdia",
        full(b"mdhd", u64(0, 0), u32(UNITS), u64(lasts), b"\x55\xc4\0\0", version=1),
        full(b"hdlr", u32(0), b"vide" if is_video else b"soun", bytes(13)),
        box(
            b"minf",
            full(b"vmhd", bytes(8), flags=1) if is_video else full(b"smhd", u32(0)),
            box(b"dinf", full(b"dref", u32(1), full(b"url ", flags=1))),
            box(b"stbl", *tables),
        ),
    )
    return box(b"trak", header, *edits, media), lasts + late


def clip(rows, lead):
    """The whole clip of selected rows: with places that are counted from its media, and then with the true ones."""
    kinds = [kind for kind in ("v", "a") if rows.get(kind)]
    begins = rows[lead][0].time
    order = sorted(((row.time, "va".index(kind), i, kind) for kind in kinds for i, row in enumerate(rows[kind])))
    start = 0
    for _ in range(2):
        places, at = {kind: [] for kind in kinds}, start
        for _, _, i, kind in order:
            places[kind].append(at)
            at += len(rows[kind][i].data)
        tracks = [clip_track(kind, rows[kind], places[kind], rows[kind][0].time - begins) for kind in kinds]
        lasts = max(it for _, it in tracks)
        header = full(b"mvhd", u64(0, 0), u32(UNITS), u64(lasts), u32(0x10000), b"\1\0", bytes(10), MATRIX, bytes(24), u32(3), version=1)
        front = box(b"ftyp", b"isom", u32(0), b"isom", b"mp42") + box(b"moov", header, *(it for it, _ in tracks))
        start = len(front) + 16
    media = b"".join(rows[kind][i].data for _, _, i, kind in order)
    return front + u32(1) + b"mdat" + u64(16 + len(media)) + media


# Transport streams


def crc(section):
    left = 0xFFFFFFFF
    for byte in section:
        left ^= byte << 24
        for _ in range(8):
            left = (left << 1 ^ 0x04C11DB7 if left & 0x80000000 else left << 1) & 0xFFFFFFFF
    return u32(left)


class Stream:
    """Packets of 188 bytes with a counter for each PID."""

    def __init__(self):
        self.bytes, self.counters = b"", {}

    def packet(self, pid, starts, field, payload):
        counter = self.counters.get(pid, 0)
        self.counters[pid] = (counter + 1) % 16
        control = (0x10 if field is None else 0x30) | counter
        head = bytes([0x47, (0x40 if starts else 0) | pid >> 8, pid & 255, control])
        self.bytes += head + (b"" if field is None else bytes([len(field)]) + field) + payload

    def section(self, pid, section):
        section += crc(section)
        self.packet(pid, True, None, b"\0" + section + b"\xff" * (183 - len(section)))

    def unit(self, pid, field, payload):
        """A PES packet, cut into packets; `field` is the content of the adaptation field of the first."""
        starts = True
        while starts or payload:
            own = field if starts else None
            room = 184 - (0 if own is None else 1 + len(own))
            lacking = room - len(payload)
            if lacking > 0:
                if own is not None:
                    own += b"\xff" * lacking
                elif lacking == 1:
                    own = b""
                else:
                    own = b"\0" + b"\xff" * (lacking - 2)
                room = len(payload)
            self.packet(pid, starts, own, payload[:room])
            payload, starts = payload[room:], False


def time_field(mark, time):
    time = (time + UNITS) % (1 << 33)
    return struct.pack(">BHH", mark << 4 | time >> 29 & 14 | 1, (time >> 14 & 0xFFFE) | 1, (time << 1 & 0xFFFE) | 1)


def units_of(data):
    """The NAL units of a sample, or none where a length doesn't fit."""
    found = []
    while data:
        size = int.from_bytes(data[:4], "big")
        if len(data) < 4 or size > len(data) - 4:
            return None
        found.append(data[4 : 4 + size])
        data = data[4 + size :]
    return found


def access_unit(row):
    units = units_of(row.data)
    if units is None:
        return None
    is_avc = row.track.codec == "avc1"
    kept = [it for it in units if it and not (it[0] % 32 == 9 if is_avc else it[0] // 2 % 64 == 35)]
    before = SETS[row.track.codec] if row.sync else []
    return b"".join(b"\0\0\0\1" + it for it in [b"\x09\xf0" if is_avc else b"\x46\x01\x50", *before, *kept])


def stream(rows, asked, lead, codec):
    """The body of a transport stream, and whether it is whole."""
    out = Stream()
    out.section(0, bytes.fromhex("00b00d0001c100000001f000"))
    kinds = [kind for kind in ("v", "a") if kind in asked]
    types = {"v": 0x1B if codec == "avc1" else 0x24, "a": 0x0F}
    pids = {"v": 0x100, "a": 0x101}
    entries = b"".join(bytes([types[kind], 0xE1, pids[kind] & 255, 0xF0, 0]) for kind in kinds)
    section = bytes([2, 0xB0, 13 + len(entries)]) + bytes.fromhex("0001c10000") + bytes([0xE1, pids[lead] & 255, 0xF0, 0]) + entries
    out.section(0x1000, section)
    for kind, row in merged(rows):
        if kind == "v":
            payload = access_unit(row)
            if payload is None:
                return out.bytes, False
        else:
            size = len(row.data) + 7
            payload = bytes([0xFF, 0xF1, 0x4C, 0x80 | size >> 11, size >> 3 & 255, (size & 7) << 5 | 0x1F, 0xFC]) + row.data
        if row.shown == row.decode:
            times = b"\x80\x80\x05" + time_field(2, row.shown)
        else:
            times = b"\x80\xc0\x0a" + time_field(3, row.shown) + time_field(1, row.decode)
        size = 0 if kind == "v" else len(times) + len(payload)
        head = b"\0\0\1" + bytes([0xE0 if kind == "v" else 0xC0]) + struct.pack(">H", size)
        field = None
        if kind == lead:
            base = row.decode % (1 << 33)
            field = bytes([0x50 if row.sync else 0x10]) + struct.pack(">IH", base >> 1, (base & 1) << 15 | 0x7E00)
        out.unit(pids[kind], field, head + times + payload)
    return out.bytes, True


def merged(rows):
    """The rows of both kinds in the order in which a stream has them."""
    left = {kind: list(rows.get(kind, [])) for kind in ("v", "a")}
    while left["v"] or left["a"]:
        is_video = left["v"] and (not left["a"] or left["v"][0].decode <= left["a"][0].decode)
        kind = "v" if is_video else "a"
        yield kind, left[kind].pop(0)


# Playlists


def seconds(units):
    milliseconds = (2 * units + 90) // 180
    return f"{milliseconds // 1000}.{milliseconds % 1000:03}"


def rounded(text):
    whole, part = text.split(".")
    return int(whole) + (int(part) >= 500)


def playlist(listed, ask, fmp4):
    """`listed` has number, length and part of each listed segment."""
    longest = max([1] + [rounded(seconds(length)) for _, length, _ in listed])
    named = ask["named"]
    lines = ["#EXTM3U", f"#EXT-X-VERSION:{6 if fmp4 else 3}", f"#EXT-X-TARGETDURATION:{longest}"]
    lines += ["#EXT-X-MEDIA-SEQUENCE:1", "#EXT-X-PLAYLIST-TYPE:VOD"]
    before = None
    for number, length, part in listed:
        if part != before:
            if before is not None:
                lines.append("#EXT-X-DISCONTINUITY")
            if fmp4:
                lines.append(f'#EXT-X-MAP:URI="init-c{part}-f{ask["sequence"]}-{named}.mp4"')
            before = part
        lines.append(f"#EXTINF:{seconds(length)},")
        lines.append(f"seg-{number}-f{ask['sequence']}-{named}.{'m4s' if fmp4 else 'ts'}")
    return ("\n".join(lines + ["#EXT-X-ENDLIST"]) + "\n").encode()


# Answers


class Cells:
    """The cells of a part over rows of its pieces."""

    def __init__(self, grid, align, part, count, leads):
        self.grid, self.align, self.count, self.leads = grid, align, count, leads
        self.begins = part[0]

    def time(self, k):
        return self.begins + 90 * boundary(self.grid, k)

    def may(self, row, time):
        return row.time >= time and (row.sync or not self.align)

    def place(self, k):
        """The index of the first lead row of cell k."""
        if k == self.count:
            return len(self.leads)
        return next((i for i, row in enumerate(self.leads) if self.may(row, self.time(k))), len(self.leads))

    def end(self):
        return self.leads[-1].time + self.leads[-1].lasts if self.leads else self.begins

    def time_at(self, i):
        return self.leads[i].time if i < len(self.leads) else self.end()


def counts_of(films, grid, parts, asked, lead, honoured):
    """The numbers of cells of the parts; the one piece of an undeclared length is looked at for it."""
    if all(length is not None for _, length, _ in parts):
        return [cells(grid, length) for _, length, _ in parts]
    begins, _, kept = parts[0]
    own = selected(kept[0], checked(films, kept[0], asked, honoured), lead, honoured)[lead]
    end = own[-1].time + own[-1].lasts if own else begins
    return [cells(grid, max(0, -(-(end - begins) // 90)))]


def answer(films, mapping, settings, ask):
    """The body of a request and whether it is whole, or its refusal."""
    grid = {
        "step": mapping.get("segmentDuration", settings.get("segment_ms", 10000)),
        "bootstrap": settings.get("bootstrap", []),
        "policy": settings.get("policy", "last_short"),
    }
    align, honoured = settings.get("align", False), not settings.get("ignore_edits", False)
    if ask["list"] == "master":
        return master(films, mapping, settings, ask, honoured), True
    if ask["list"] == "mpd":
        return description(films, mapping, grid, align, ask, honoured), True
    asked = ask["asked"]
    lead = "v" if "v" in asked else "a"
    parts = timeline(mapping, ask["sequence"], ask["window"], ask["tracks"])
    if "part" in ask:
        if not 1 <= ask["part"] <= len(parts):
            raise Refused(45)
        kept = parts[ask["part"] - 1][2]
        if not kept:
            raise Refused(46)
        return init(checked(films, kept[0], asked, honoured)), True
    if ask["list"] == "clip":
        pieces = [piece for _, _, kept in parts for piece in kept]
        if len(pieces) > 1:
            raise Refused(18)
        rows = selected(pieces[0], checked(films, pieces[0], asked, honoured), lead, honoured)
        if not rows[lead]:
            raise Refused(17)
        return clip(rows, lead), True
    declared = all(length is not None for _, length, _ in parts)
    if "number" not in ask:
        return index(films, grid, align, honoured, settings, parts, declared, ask, lead), True
    number = ask["number"]
    counts = counts_of(films, grid, parts, asked, lead, honoured)
    if sum(counts) > 100000:
        raise Refused(42)
    if not 1 <= number <= sum(counts):
        raise Refused(40)
    part, k = 0, number - 1
    while k >= counts[part]:
        k -= counts[part]
        part += 1
    begins, length, kept = parts[part]
    cut = Cells(grid, align, parts[part], counts[part], [])
    is_last = k + 1 == counts[part]
    rows = {kind: [] for kind in asked}
    needed, codecs = False, []
    for piece in kept:
        needed = needed or piece[4] is None or piece[2] + piece[4] > cut.time(k) or length is None
        if not needed:
            continue
        tracks = checked(films, piece, asked, honoured)
        codecs += [tracks["v"].codec] if "v" in tracks else []
        own = selected(piece, tracks, lead, honoured)
        for kind in asked:
            rows[kind] += own[kind]
        if length is not None and not is_last and any(cut.may(row, cut.time(k + 1)) for row in own[lead]):
            break
    cut.leads = leads = rows[lead]
    first, last = cut.place(k), cut.place(k + 1)
    if first == last:
        raise Refused(41)
    until = leads[last].time if last < len(leads) else ENDLESS
    result = {lead: leads[first:last]}
    for kind in asked:
        if kind != lead:
            result[kind] = [row for row in rows[kind] if leads[first].time <= row.time < until]
    if not ask["stream"]:
        return fragment(number, result), True
    if len({codec == "avc1" for codec in codecs}) > 1:
        raise Refused(32)
    if "index" in ask:
        keys = [row for row in result[lead] if row.sync]
        if not 1 <= ask["index"] <= len(keys):
            raise Refused(47)
        result = {lead: [keys[ask["index"] - 1]]}
    if any(row.shown < row.decode for _, row in merged(result)):
        raise Refused(30)
    return stream(result, asked, lead, codecs[0] if codecs else None)


def index(films, grid, align, honoured, settings, parts, declared, ask, lead):
    asked = ask["asked"]
    if declared and sum(cells(grid, length) for _, length, _ in parts) > 100000:
        raise Refused(42)
    found = [[selected(piece, checked(films, piece, asked, honoured), lead, honoured)[lead] for piece in kept] for _, _, kept in parts]
    counts = counts_of(films, grid, parts, asked, lead, honoured)
    if sum(counts) > 100000:
        raise Refused(42)
    listed, keys, number = [], [], 1
    for place, part in enumerate(parts):
        cut = Cells(grid, align, part, counts[place], sum(found[place], []))
        own = []
        for k in range(counts[place]):
            first, last = cut.place(k), cut.place(k + 1)
            if first < last:
                listed.append((number + k, cut.time_at(last) - cut.time_at(first), place + 1))
            times = [row.time for row in cut.leads[first:last] if row.sync]
            own += [(time, number + k, i + 1) for i, time in enumerate(times)]
        ends = [time for time, _, _ in own[1:]] + [cut.end()]
        keys += [(segment, i, end - time, place + 1) for (time, segment, i), end in zip(own, ends)]
        number += counts[place]
    if ask["list"] == "iframes":
        if len(keys) > 100000:
            raise Refused(48)
        return iframe_playlist(keys, ask)
    return playlist(listed, ask, settings.get("hls_fmp4", False))


# Lists over several sequences


CODECS = {"avc1": "avc1.42c01e", "hvc1": "hvc1.1.6.L93.B0", "hev1": "hev1.1.6.L93.B0", "mp4a": "mp4a.40.2"}


def exposed_first(films, piece):
    """Which of v1 and a1 a piece exposes."""
    name, exposed = piece[:2]
    if name not in films:
        raise Refused(20)
    kinds = []
    for kind in "va":
        own = [track for track in films[name] if track.kind == kind]
        if any(it[0] == kind and int(it[1:]) <= len(own) for it in exposed.split("-")):
            kinds.append(kind)
    if not kinds:
        raise Refused(25)
    return {kind: 1 for kind in kinds}


def bandwidth(sequence, track):
    rate = sequence.get("bitrate", {}).get(track.kind)
    if rate is not None:
        return rate
    ticks, size = sum(it[2] for it in track.samples), sum(len(it[4]) for it in track.samples)
    return 1 if ticks == 0 else max(1, -(-8 * size * track.scale // ticks))


def master(films, mapping, settings, ask, honoured):
    shown = []
    for number, sequence in enumerate(mapping["sequences"], 1):
        parts = timeline(mapping, number, ask["window"], ask["tracks"])
        piece = [piece for _, _, kept in parts for piece in kept][0]
        tracks = checked(films, piece, exposed_first(films, piece), honoured)
        shown.append((number, sequence, tracks))
    group = [it for it in shown if "v" not in it[2]]
    others = [it for it in shown if "v" in it[2]]
    if not group or not others:
        group, others = [], shown
    lines = ["#EXTM3U"]
    bases = [sequence.get("label") or sequence.get("language") or "audio" for _, sequence, _ in group]
    differ = len(set(bases)) == len(bases)
    for i, ((number, sequence, _), base) in enumerate(zip(group, bases)):
        language = f',LANGUAGE="{sequence["language"]}"' if "language" in sequence else ""
        name = base if differ else f"f{number} {base}"
        first = "YES" if i == 0 else "NO"
        lines.append(f'#EXT-X-MEDIA:TYPE=AUDIO,GROUP-ID="aud",NAME="{name}"{language},DEFAULT={first},AUTOSELECT=YES,URI="index-f{number}-a1.m3u8"')
    loudest = max([bandwidth(sequence, tracks["a"]) for _, sequence, tracks in group] or [0])
    for number, sequence, tracks in others:
        names = [CODECS[tracks[kind].codec] for kind in "va" if kind in tracks]
        names += [it for it in dict.fromkeys(CODECS[tracks["a"].codec] for _, _, tracks in group) if it not in names]
        line = f"#EXT-X-STREAM-INF:BANDWIDTH={sum(bandwidth(sequence, it) for it in tracks.values()) + loudest}"
        line += ",RESOLUTION=640x360" if "v" in tracks else ""
        line += f',CODECS="{",".join(names)}"' + (',AUDIO="aud"' if group else "")
        lines += [line, f"index-f{number}-{'-'.join(f'{kind}1' for kind in 'va' if kind in tracks)}.m3u8"]
    if settings.get("iframes"):
        for number, sequence, tracks in shown:
            if "v" in tracks:
                rate, name = bandwidth(sequence, tracks["v"]), CODECS[tracks["v"].codec]
                uri = f"iframes-f{number}-v1.m3u8"
                lines.append(f'#EXT-X-I-FRAME-STREAM-INF:BANDWIDTH={rate},RESOLUTION=640x360,CODECS="{name}",URI="{uri}"')
    return ("\n".join(lines) + "\n").encode()


def iframe_playlist(keys, ask):
    longest = max([1] + [rounded(seconds(length)) for _, _, length, _ in keys])
    lines = ["#EXTM3U", "#EXT-X-VERSION:4", f"#EXT-X-TARGETDURATION:{longest}", "#EXT-X-MEDIA-SEQUENCE:1", "#EXT-X-PLAYLIST-TYPE:VOD"]
    lines.append("#EXT-X-I-FRAMES-ONLY")
    before = None
    for number, index, length, part in keys:
        if before not in (None, part):
            lines.append("#EXT-X-DISCONTINUITY")
        before = part
        lines += [f"#EXTINF:{seconds(length)},", f"iframe-{number}-{index}-f{ask['sequence']}-{ask['named']}.ts"]
    return ("\n".join(lines + ["#EXT-X-ENDLIST"]) + "\n").encode()


def description(films, mapping, grid, align, ask, honoured):
    timelines, firsts = [], []
    for number, sequence in enumerate(mapping["sequences"], 1):
        parts = timeline(mapping, number, ask["window"], ask["tracks"])
        first = []
        for _, _, kept in parts:
            asked = exposed_first(films, kept[0]) if kept else None
            tracks = [checked(films, piece, asked, honoured) for piece in kept]
            first.append(tracks[0] if tracks else None)
        timelines.append(parts)
        firsts.append(first)
    reps, total = {}, 0
    for s, parts in enumerate(timelines):
        before = 0
        for place, (begins, length, kept) in enumerate(parts):
            kinds = list(firsts[s][place]) if kept else []
            own = 0
            for kind in kinds:
                leads = sum((selected(piece, checked(films, piece, {kind: 1}, honoured), kind, honoured)[kind] for piece in kept), [])
                cut = Cells(grid, align, parts[place], 0, leads)
                lasts = length if length is not None else max(0, -(-(cut.end() - begins) // 90))
                cut.count = own = cells(grid, lasts)
                total += own
                if total <= 100000:
                    rows = []
                    for k in range(own):
                        one, two = cut.place(k), cut.place(k + 1)
                        if one < two:
                            rows.append((before + k + 1, cut.time_at(one), cut.time_at(two) - cut.time_at(one)))
                    reps[(s, place, kind)] = (lasts, rows)
            if not kinds:
                own = cells(grid, length if length is not None else 0)
                total += own
            before += own
    if total > 100000:
        raise Refused(42)
    milliseconds = lambda it: f"{it // 1000}.{it % 1000:03}"
    lines = []
    for place in range(len(timelines[0])):
        begins = timelines[0][place][0]
        lasts = [parts[place][1] for parts in timelines if parts[place][1] is not None]
        lasts += [it[0] for (s, at, _), it in reps.items() if at == place and timelines[s][place][1] is None]
        lasts = max(lasts or [0])
        lines.append(f'<Period id="{place + 1}" start="PT{seconds(begins)}S" duration="PT{milliseconds(lasts)}S">')
        video = [(s, "v") for s in range(len(timelines)) if reps.get((s, place, "v"), (0, []))[1]]
        audio = [(s, "a") for s in range(len(timelines)) if reps.get((s, place, "a"), (0, []))[1]]
        languages = list(dict.fromkeys(mapping["sequences"][s].get("language") for s, _ in audio))
        sets = [("video", None, video)] if video else []
        sets += [("audio", it, [own for own in audio if mapping["sequences"][own[0]].get("language") == it]) for it in languages]
        for word, language, own in sets:
            lines.append(f'<AdaptationSet mimeType="{word}/mp4"' + (f' lang="{language}">' if language else ">"))
            for s, kind in own:
                lines += representation(mapping["sequences"][s], s + 1, place + 1, begins, firsts[s][place][kind], reps[(s, place, kind)][1])
            lines.append("</AdaptationSet>")
        lines.append("</Period>")
        whole = milliseconds_of_units(begins) + lasts
    front = [
        '<?xml version="1.0" encoding="UTF-8"?>',
        '<MPD xmlns="urn:mpeg:dash:schema:mpd:2011" type="static" '
        f'mediaPresentationDuration="PT{milliseconds(whole)}S" minBufferTime="PT{milliseconds(grid["step"])}S" '
        'profiles="urn:mpeg:dash:profile:full:2011">',
    ]
    return ("\n".join(front + lines + ["</MPD>"]) + "\n").encode()


def milliseconds_of_units(units):
    return (2 * units + 90) // 180


def representation(sequence, number, part, begins, track, rows):
    name = f"f{number}-{track.kind}1"
    about = 'width="640" height="360"' if track.kind == "v" else 'audioSamplingRate="48000"'
    lines = [f'<Representation id="{name}" bandwidth="{bandwidth(sequence, track)}" codecs="{CODECS[track.codec]}" {about}>']
    lines += [f'<SegmentList timescale="90000" presentationTimeOffset="{begins}">', f'<Initialization sourceURL="init-c{part}-{name}.mp4"/>']
    lines += ["<SegmentTimeline>", *(f'<S t="{start}" d="{length}"/>' for _, start, length in rows), "</SegmentTimeline>"]
    lines += [f'<SegmentURL media="fragment-{segment}-{name}.m4s"/>' for segment, _, _ in rows]
    return lines + ["</SegmentList>", "</Representation>"]
