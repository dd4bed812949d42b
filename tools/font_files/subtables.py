"""Small fonts with as many subtables as HarfBuzz reads of `GSUB` and of `GPOS`, and with more: lookups share their tables."""

from . import layout as lay
from . import opentype as ot
from .glyphs import tables
from .others import collected
from .slow import layout

NAMES = [".notdef", "space", "a", "b", "c"]
A, B, C = (NAMES.index(name) for name in "abc")

# HarfBuzz reads 64 times as many bytes as a table has, so that these last for what lookups share.
ROOM = bytes(2000)


def lookup(count, subtable):
    """A single substitution or position, so many times."""
    return ot.numbers(1, 0, count, *[6 + 2 * count] * count) + subtable


def lookups(counts, first, other):
    """Lookups with so many subtables each, or a null offset; the first one is another than the rest."""
    rows = [None if count is None else lookup(count, other if at else first) for at, count in enumerate(counts)]
    body, places = b"", {None: 0}
    for row in rows:
        if row not in places:
            places[row] = 2 + 2 * len(rows) + len(body)
            body += row
    return ot.numbers(len(rows), *(places[row] for row in rows)) + body + ROOM


def substitutions(counts):
    """The first lookup makes b of a, the rest leave c as it is."""
    return layout(lookups(counts, lay.by_difference([A], B - A), lay.by_difference([C], 0)))


def positions(counts):
    """The first lookup makes a 50 wider, the rest leave c as it is."""
    wider, same = (ot.table(1, ot.Offset(lay.coverage([glyph])), 4, more) for glyph, more in ((A, 50), (C, 0)))
    return layout(lookups(counts, wider, same), ["kern"])


def font(gsub, gpos):
    """A font whose table `kern` is there for one without a feature `kern`: a and b are 60 closer."""
    return ot.font({
        **tables(NAMES, "Vukhaso Subtables"), "post": ot.post(), "GSUB": substitutions(gsub), "GPOS": positions(gpos),
        "cmap": ot.cmap({(3, 1): ot.segment_mapping({0x20: 1, 0x61: A, 0x62: B, 0x63: C})}),
        "kern": lay.kern((0, 1, lay.kern_pairs({(A, B): -60, (B, B): -20}))),
    })


def many():
    """16,383 subtables, which are read; 16,384 of 32 lookups, beside a null offset too, and of 33; 20,000."""
    return collected([
        font([129] * 127, [511] * 32 + [31]),
        font([1] + [546] * 30 + [3], [512] * 32 + [None]),
        font([512] * 32 + [0], [512] * 32 + [0]),
        font([500] * 40, [511] * 32 + [32]),
    ])


def one():
    """16,384 subtables of one lookup."""
    return font([16384], [512] * 32)


def sharing(count):
    """A lookup that makes an a a b, and so many contexts of 60 letters that share one coverage."""
    context = ot.numbers(6, 0, 1, 8, 3, 0, 60, *[130] * 60, 0, 0) + lay.coverage([A, B, C])
    single = lookup(1, lay.by_difference([A], B - A))
    start = 2 + 2 * (count + 1)
    rows = ot.numbers(count + 1, start, *[start + len(single)] * count) + single + context
    return ot.font({
        **tables(NAMES, "Vukhaso Sharing"), "post": ot.post(), "GSUB": layout(rows),
        "cmap": ot.cmap({(3, 1): ot.segment_mapping({0x20: 1, 0x61: A, 0x62: B, 0x63: C})}),
    })


def shared():
    """Lookups that share as much as HarfBuzz reads, and more."""
    return collected([sharing(4), sharing(200)])


FONTS = {"subtables.ttc": many, "subtables.ttf": one, "sharing.ttc": shared}
