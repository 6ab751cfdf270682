"""Heaps inside a segment, by the rules of docs/machine.md and over a list of units: four bytes each, free or not. What tries the machine's
heaps compares them with this; it shares nothing with the machine.
"""
import struct

MARK, UNIT, FIRST = 0x4253, 4, 8


def word(data, at):
    return struct.unpack_from("<H", data, at)[0]


def units_of(data):
    """For each unit of the heap that the bytes have whether it is free; None where they have no heap."""
    if len(data) < 12 or word(data, 0) != MARK or word(data, 6):
        return None
    size, at, units, low = word(data, 2), word(data, 4), [], FIRST
    if size % UNIT or not 12 <= size <= len(data):
        return None
    units = [False] * (size // UNIT)
    while at:
        if at % UNIT or at < low or at + UNIT > size:
            return None
        length = word(data, at + 2)
        if length % UNIT or length < UNIT or at + length > size:
            return None
        units[at // UNIT : (at + length) // UNIT] = [True] * (length // UNIT)
        at, low = word(data, at), at + length + UNIT
    return units


def blocks_of(units):
    """The free blocks of a list of units, each with its offset and its length."""
    blocks, start = [], None
    for place, free in enumerate([*units, False]):
        if free and start is None:
            start = place
        elif not free and start is not None:
            blocks.append((UNIT * start, UNIT * (place - start)))
            start = None
    return blocks


def put(data, units):
    """Writes the control words of a heap with these units."""
    blocks = blocks_of(units)
    offsets = [at for at, _ in blocks] + [0]
    struct.pack_into("<4H", data, 0, MARK, UNIT * len(units), offsets[0], 0)
    for (at, length), following in zip(blocks, offsets[1:]):
        struct.pack_into("<2H", data, at, following, length)


def rounded(size):
    return -(-size // UNIT)


def sub_set(data, flags, size):
    """DosSubSet over a segment's bytes: the error."""
    area = min((size or 65536) // UNIT, 65532 // UNIT)
    if flags > 1:
        return 314
    if area < 3 or UNIT * area > len(data):
        return 313
    if flags == 1:
        put(data, [False] * 2 + [True] * (area - 2))
        return 0
    units = units_of(data)
    if units is None:
        return 87
    if area < len(units):
        return 310
    put(data, units + [True] * (area - len(units)))
    return 0


def sub_alloc(data, size):
    """DosSubAlloc: the error, and the offset."""
    units = units_of(data)
    if units is None:
        return 87, 0
    if not size or size > UNIT * len(units) - FIRST:
        return 313, 0
    for at, length in blocks_of(units):
        if length >= UNIT * rounded(size):
            units[at // UNIT : at // UNIT + rounded(size)] = [False] * rounded(size)
            put(data, units)
            return 0, at
    return 311, 0


def called(data, name, words, values):
    """What one of the three calls writes into the bytes of its segment, by the words of its line; whether the line's values are right."""
    if name == "DosSubAlloc":
        return sub_alloc(data, words[-1]) == (0, *values)
    return (sub_set if name == "DosSubSet" else sub_free)(data, *words) == 0 and not values


def sub_free(data, offset, size):
    """DosSubFree: the error."""
    units = units_of(data)
    if units is None:
        return 87
    end = offset // UNIT + rounded(size)
    if not size or offset % UNIT or offset < FIRST or end > len(units):
        return 313
    if any(units[offset // UNIT : end]):
        return 312
    units[offset // UNIT : end] = [True] * rounded(size)
    put(data, units)
    return 0
