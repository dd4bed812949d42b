"""Tables of OpenType fonts, written as the specification lays them out, and the file around them.

`table` takes numbers of 16 bits, bytes, and `Offset`s. Each table that an offset leads to is laid down after the one that names
it.
"""

import struct
from dataclasses import dataclass


@dataclass(frozen=True)
class Offset:
    """The offset of a table, of two bytes or of four; 0 where there is none."""

    to: bytes | None
    size: int = 2


def table(*items):
    size = sum(item.size if isinstance(item, Offset) else 2 if isinstance(item, int) else len(item) for item in items)
    head, rest = b"", b""
    for item in items:
        if isinstance(item, Offset):
            head += (0 if item.to is None else size + len(rest)).to_bytes(item.size, "big")
            rest += item.to or b""
        else:
            head += numbers(item) if isinstance(item, int) else item
    return head + rest


def numbers(*values):
    return b"".join((value & 0xFFFF).to_bytes(2, "big") for value in values)


def long_numbers(*values):
    return b"".join((value & 0xFFFFFFFF).to_bytes(4, "big") for value in values)


def offsets(*tables):
    return [Offset(it) for it in tables]


def checksum(data):
    padded = data + b"\0" * (-len(data) % 4)
    return sum(struct.unpack(f">{len(padded) // 4}I", padded)) & 0xFFFFFFFF


def font(tables, version=b"\0\1\0\0"):
    """A font file of some tables, by tag. The sum of all of it is put into `head`."""
    count = len(tables)
    power = count.bit_length() - 1
    directory = version + numbers(count, 16 << power, power, 16 * count - (16 << power))
    at, rows, body = 12 + 16 * count, b"", b""
    for tag, data in sorted(tables.items()):
        rows += tag.encode() + long_numbers(checksum(data), at + len(body), len(data))
        body += data + b"\0" * (-len(data) % 4)
    made = bytearray(directory + rows + body)
    if "head" in tables:
        head = made.index(tables["head"])
        made[head + 8:head + 12] = long_numbers(0xB1B0AFBA - checksum(bytes(made)))
    return bytes(made)


def segments(by_code):
    """Runs of code points whose glyphs follow each other too: first, last, glyph of the first."""
    found = []
    for code, glyph in sorted(by_code.items()):
        if found and found[-1][1] + 1 == code and found[-1][2] + code - found[-1][0] == glyph:
            found[-1][1] = code
        else:
            found.append([code, code, glyph])
    return found


def segment_mapping(by_code):
    """Format 4. The glyphs of every second segment stand in the list of glyphs, as the specification allows."""
    rows = [*segments({code: glyph for code, glyph in by_code.items() if code < 0xFFFF}), [0xFFFF, 0xFFFF, 0]]
    count, listed, ranges, deltas = len(rows), [], [], []
    for at, (first, last, glyph) in enumerate(rows):
        inside = at % 2 == 1 and first < 0xFFFF
        ranges.append(2 * (count - at + len(listed)) if inside else 0)
        deltas.append(0 if inside else glyph - first)
        listed += range(glyph, glyph + last - first + 1) if inside else []
    power = count.bit_length() - 1
    search = numbers(2 * count, 2 << power, power, 2 * count - (2 << power))
    ends, starts = [row[1] for row in rows], [row[0] for row in rows]
    body = search + numbers(*ends, 0, *starts, *deltas, *ranges, *listed)
    return numbers(4, 6 + len(body), 0) + body


def trimmed_mapping(by_code):
    """Format 6."""
    first, last = min(by_code), max(by_code)
    glyphs = [by_code.get(code, 0) for code in range(first, last + 1)]
    return numbers(6, 10 + 2 * len(glyphs), 0, first, len(glyphs), *glyphs)


def group_mapping(by_code):
    """Format 12."""
    groups = segments(by_code)
    return numbers(12, 0) + long_numbers(16 + 12 * len(groups), 0, len(groups), *(number for row in groups for number in row))


def variation_mapping(selectors):
    """Format 14: of each selector, the characters that stay as they are, and the glyphs of others."""
    head, body, start = b"", b"", 10 + 11 * len(selectors)
    for selector, (kept, other) in sorted(selectors.items()):
        places = []
        for rows in ([code.to_bytes(3, "big") + b"\0" for code in sorted(kept)],
                     [code.to_bytes(3, "big") + numbers(glyph) for code, glyph in sorted(other.items())]):
            places.append(start + len(body) if rows else 0)
            body += long_numbers(len(rows)) + b"".join(rows) if rows else b""
        head += selector.to_bytes(3, "big") + long_numbers(*places)
    return numbers(14) + long_numbers(start + len(body), len(selectors)) + head + body


def cmap(subtables):
    """Subtables by platform and encoding."""
    return table(0, len(subtables), *(item for (platform, encoding), data in sorted(subtables.items())
                                      for item in (platform, encoding, Offset(data, 4))))


# ---- outlines and measures


def square(x, y, width, height):
    """A glyph of one contour: a rectangle from its lower left corner."""
    box = (x, y, x + width, y + height)
    return numbers(1, *box, 3, 0) + b"\1\1\1\1" + numbers(x, 0, width, 0) + numbers(y, height, 0, -height)


def composite(box, parts):
    """A glyph that is made of others, each moved."""
    rows = [numbers(0x0003 | (0x0020 if at + 1 < len(parts) else 0), *part) for at, part in enumerate(parts)]
    return numbers(-1, *box) + b"".join(rows)


def glyf_and_loca(outlines):
    places, body = [0], b""
    for outline in outlines:
        body += outline + b"\0" * (-len(outline) % 4)
        places.append(len(body))
    return body, numbers(*(place // 2 for place in places))


def head(units, box):
    return (long_numbers(0x00010000, 0x00010000, 0, 0x5F0F3CF5) + numbers(0x0003, units) + bytes(16)
            + numbers(*box, 0, 8, 2, 0, 0))


def measures(ascent, descent, extent, count, vertical=False):
    """`hhea` or `vhea`, which differ in their version alone; `count` glyphs have advances of their own."""
    version = 0x00011000 if vertical else 0x00010000
    return long_numbers(version) + numbers(ascent, descent, 0, extent, 0, 0, extent, 1, 0, 0, 0, 0, 0, 0, 0, count)


def advances(rows, count):
    """`hmtx` or `vmtx`: advance and side bearing, and after the first `count` glyphs the side bearing alone."""
    return numbers(*(number for row in rows[:count] for number in row), *(bearing for _, bearing in rows[count:]))


def maxp(count, outlines=True):
    return long_numbers(0x00010000) + numbers(count, 8, 2, 8, 2, 1, 0, 0, 0, 0, 0, 0, 2, 1) if outlines \
        else long_numbers(0x00005000) + numbers(count)


def post(names=None, numbered=()):
    """Format 2, where names are given: those that the format numbers, and others after them. Format 3 has none."""
    fixed = long_numbers(0) + numbers(-100, 50) + bytes(20)
    if names is None:
        return long_numbers(0x00030000) + fixed
    own = [name for name in names if name not in numbered]
    places = [numbered[name] if name in numbered else 258 + own.index(name) for name in names]
    listed = b"".join(bytes([len(name)]) + name.encode() for name in own)
    return long_numbers(0x00020000) + fixed + numbers(len(names), *places) + listed


def name_table(family):
    texts = {1: family, 2: "Regular", 3: family, 4: family, 5: "Version 1.0", 6: family.replace(" ", "")}
    rows, body = [], b""
    for number, text in texts.items():
        coded = text.encode("utf-16-be")
        rows += [3, 1, 0x409, number, len(coded), len(body)]
        body += coded
    return numbers(0, len(texts), 6 + 2 * len(rows), *rows) + body


def os2(first, last, ascent, descent):
    head = numbers(4, 500, 400, 5, 0, 650, 600, 0, 75, 650, 600, 0, 350, 50, 300, 0) + bytes(10) + long_numbers(3, 0, 0, 0)
    return head + b"VUKH" + numbers(0x40, first, last, ascent, descent, 0, ascent, -descent) + long_numbers(1, 0) \
        + numbers(500, 700, 0, 32, 4)
