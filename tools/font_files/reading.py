"""What a tool has to know of a font: where its tables lie, its characters and its features. Broken parts are passed over."""

import struct


def numbers(data, at, count, size=2):
    """Numbers of two or four bytes, as many as there are."""
    count = min(count, max(0, len(data) - at) // size) if at >= 0 else 0
    return struct.unpack_from(f">{count}{'H' if size == 2 else 'I'}", data, at) if count else ()


def directory(data):
    """Where the directory of a font lies, or that of the first one of a collection."""
    return sum(numbers(data, 12, 1, 4)) if data[:4] == b"ttcf" else 0


def tables(data):
    """The place and the length of each table, by tag."""
    start = directory(data)
    rows = [numbers(data, at, 4, 4) for at in range(start + 12, start + 12 + 16 * sum(numbers(data, start + 4, 1)), 16)]
    return {data[start + 12 + 16 * at:][:4].decode("latin-1"): row[2:] for at, row in enumerate(rows) if len(row) == 4}


def characters(data):
    """The characters that subtables of the formats 4, 6, 12 and 13 name, as a text."""
    start, _ = tables(data).get("cmap", (0, 0))
    found = set()
    for at in range(sum(numbers(data, start + 2, 1)) if start else 0):
        place = start + sum(numbers(data, start + 8 + 8 * at, 1, 4))
        form, *_ = numbers(data, place, 1) or [0]
        if form == 4:
            count = sum(numbers(data, place + 6, 1)) // 2
            ends, starts = numbers(data, place + 14, count), numbers(data, place + 16 + 2 * count, count)
            found.update(code for first, last in zip(starts, ends) for code in range(first, last + 1))
        elif form == 6:
            first, count = (*numbers(data, place + 6, 2), 0, 0)[:2]
            found.update(range(first, first + count))
        elif form in (12, 13):
            rows = numbers(data, place + 16, 3 * min(20_000, sum(numbers(data, place + 12, 1, 4))), 4)
            found.update(code for first, last in zip(rows[::3], rows[1::3]) for code in range(first, min(last, first + 20_000) + 1))
    return "".join(chr(code) for code in sorted(found) if 0x20 <= code < 0x110000 and not 0xD800 <= code < 0xE000 and code != 0xFFFF)


def features(data):
    """The tags of the features of `GSUB` and `GPOS`."""
    found = set()
    for tag in ("GSUB", "GPOS"):
        start, _ = tables(data).get(tag, (0, 0))
        rows = start + sum(numbers(data, start + 6, 1)) if start else len(data)
        for at in range(sum(numbers(data, rows, 1))):
            found.add(data[rows + 2 + 6 * at:][:4].decode("latin-1"))
    return sorted(tag for tag in found if tag.isalnum() and tag.isascii())
