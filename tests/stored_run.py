#!/usr/bin/env python3
"""Writes the files of the program's own run: crates/vodpack/data/a.mp4, and crates/vodpack/stdout, which it must print.

The film is spelled box by box as ISO/IEC 14496-12 lays boxes out: `ftyp`, `moov` with one audio track of AAC-LC at 48000 Hz
with two samples of 10 and 20 bytes and 1024 ticks in one chunk, and `mdat`. Of `moov` only the boxes stand there that a
request looks at. The output is the fragment of both samples, box by box; a sample lasts 1024 * 90000 / 48000 = 1920 units.
"""
import os
import struct

from boxes import box, full, u32

SAMPLES = [bytes(range(1, 11)), b"efghijklmnopqrstuvwx"]


def movie(place):
    """`moov`, whose chunk begins at a place of the file."""
    config = bytes([5, 2, 0x11, 0x90])
    decoder = bytes([4, 17, 0x40, 0x15]) + bytes(11) + config
    esds = full(b"esds", bytes([3, 25, 0, 1, 0]) + decoder + bytes([6, 1, 2]))
    head = bytes(6) + b"\0\1" + bytes(8) + struct.pack(">HH", 2, 16) + bytes(4) + u32(48000 << 16)
    tables = box(
        b"stbl",
        full(b"stsd", u32(1), box(b"mp4a", head, esds)),
        full(b"stts", u32(1, 2, 1024)),
        full(b"stsc", u32(1, 1, 2, 1)),
        full(b"stsz", u32(0, 2, 10, 20)),
        full(b"stco", u32(1, place)),
    )
    header = full(b"mdhd", u32(0, 0, 48000, 2048), b"\x55\xc4\0\0")
    handler = full(b"hdlr", u32(0), b"soun", bytes(13))
    return box(b"moov", box(b"trak", box(b"mdia", header, handler, box(b"minf", tables))))


def film():
    kind = box(b"ftyp", b"isom", u32(0), b"isom")
    place = len(kind) + len(movie(0)) + 8
    return kind + movie(place) + box(b"mdat", *SAMPLES)


def fragment():
    rows = u32(1920, 10, 0x02000000, 0) + u32(1920, 20, 0x02000000, 0)
    run = box(
        b"traf",
        full(b"tfhd", u32(2), flags=0x020000),
        full(b"tfdt", u32(0, 0), version=1),
        full(b"trun", u32(2, 128), rows, version=1, flags=0x000F01),
    )
    front = box(b"styp", b"msdh", u32(0), b"msdh", b"iso6")
    return front + box(b"moof", full(b"mfhd", u32(1)), run) + box(b"mdat", *SAMPLES)


def main():
    program = f"{os.path.dirname(os.path.abspath(__file__))}/../crates/vodpack"
    os.makedirs(f"{program}/data", exist_ok=True)
    for name, content in (("data/a.mp4", film()), ("stdout", fragment())):
        with open(f"{program}/{name}", "wb") as file:
            file.write(content)


if __name__ == "__main__":
    main()
