"""Boxes as ISO/IEC 14496-12 lays them out, for the scripts of tests/ and bench/: numbers of 32 bits, a box, a full box."""
import struct


def u32(*numbers):
    return struct.pack(f">{len(numbers)}I", *numbers)


def box(kind, *parts):
    body = b"".join(parts)
    return u32(8 + len(body)) + kind + body


def full(kind, *parts, version=0, flags=0):
    return box(kind, u32(version << 24 | flags), *parts)
