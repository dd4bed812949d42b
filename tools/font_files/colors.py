"""`colors.ttf`, with a paint of each kind in `COLR`, `colors.otf`, with layers that are charstrings, and `bitmaps.ttf`, with bitmaps and no
outlines. U+E000 and on have the paints."""

from . import cff
from . import opentype as ot
from .variable import fixed, fvar, gvar, glyph_variations, part, store

LETTERS = ".notdef space a b c acute".split()
A, B, C, SPACE = 2, 3, 4, 1
SOLID = bytes([2]) + ot.numbers(0, part(1))


class Raw(bytes):
    """Bytes that stand in a paint themselves."""


def number(value, size=4):
    return Raw(value.to_bytes(size, "big"))


def made(form, *items):
    """A paint: other bytes in it are a paint that an offset of three bytes leads to."""
    return ot.table(bytes([form]), *(bytes(item) if isinstance(item, Raw) else ot.Offset(item, 3) if isinstance(item, bytes) else item
                                     for item in items))


def glyph(of, source=SOLID):
    return made(10, source, of)


def moved(x, y, source):
    return made(14, source, x, y)


def layers(first, count):
    return made(1, number(count, 1), number(first))


def composite(mode, source, backdrop):
    return made(32, source, number(mode, 1), backdrop)


def matrix(*values):
    return b"".join(map(fixed, values))


def nested(depth, source):
    for _ in range(depth):
        source = moved(1, 0, source)
    return source


# Layers of layers: more than are followed.
MANY, FEW = 255, 16

LAYERS = [layers(MANY, FEW)] * (MANY - 1) + [moved(900, 0, glyph(A))] + [glyph(A)] * FEW + [
    glyph(A), moved(200, 100, glyph(B)), layers(MANY + FEW, 4), moved(-50, 0, glyph(C)),
]
OWN = MANY + FEW

PAINTS = [
    glyph(A),  # E000
    moved(100, -50, glyph(A)),
    made(12, glyph(B), matrix(0.5, 0.25, -0.5, 1.5, 10, -20.5)),
    made(16, glyph(A), part(1.5), part(-0.5)),
    made(18, glyph(A), part(1.5), part(0.5), 100, 200),
    made(20, glyph(B), part(0.75)),
    made(22, glyph(B), part(0.75), 300, -100),
    made(24, glyph(A), part(0.3)),
    made(26, glyph(A), part(-0.7), 200, 250),
    made(28, glyph(A), part(0.1), part(0.05)),
    made(30, glyph(A), part(-0.2), part(0.15), 150, 50),  # E00A
    *(composite(mode, moved(100, 50, glyph(B)), glyph(A)) for mode in (0, 1, 2, 3, 5, 6, 7, 8, 11, 23, 99)),  # E00B to E015
    composite(3, SOLID, glyph(A)),  # E016: everywhere
    composite(5, SOLID, glyph(A)),
    composite(6, glyph(B), SOLID),
    SOLID,
    layers(OWN, 2),  # E01A
    layers(OWN, 4),
    layers(0, MANY),
    layers(OWN, 200),
    made(11, 1),  # E01E: a glyph with no paint
    composite(3, moved(40, -30, made(11, len(LETTERS) + 0x1F)), glyph(A)),  # E01F: itself, moved
    made(11, 0x1001),  # E020: to be replaced by glyphs with paints
    made(11, 0x1002),
    made(11, 0x1003),
    nested(60, glyph(A)),  # E023
    nested(62, glyph(A)),
    nested(70, glyph(A)),
    glyph(SPACE),
    glyph(A, moved(50, 50, glyph(B))),
    made(40, glyph(A), 1, 2),
    moved(0x7000, 0, made(20, glyph(A), part(1.99))),
    glyph(A, made(4, bytes([0]) + ot.numbers(1, 0, 0, part(1)), 0, 0, 10, 10, 20, 20)),  # E02A
    glyph(B, made(6, bytes([0]) + ot.numbers(1, 0, 0, part(1)), 0, 0, 10, 10, 20, 20)),
    glyph(C, made(8, bytes([0]) + ot.numbers(1, 0, 0, part(1)), 0, 0, 0, part(1))),
    made(13, glyph(A), matrix(1, 0, 0.5, 1, 0, 0) + ot.long_numbers(0)),  # E02D: those that vary
    made(15, glyph(A), 10, 20, number(0)),
    made(17, glyph(A), part(1), part(1.25), number(1)),
    made(19, glyph(A), part(1), part(1.25), 50, 60, number(2)),
    made(21, glyph(A), part(1), number(3)),
    made(23, glyph(A), part(0.5), 50, 60, number(0)),
    made(25, glyph(A), part(0.1), number(1)),
    made(27, glyph(A), part(0.1), 70, 80, number(2)),
    made(29, glyph(A), part(0.1), part(0), number(3)),
    made(31, glyph(A), part(0.1), part(0.2), 90, 10, number(0xFFFFFFFF)),
    glyph(A, made(3, 0, part(1), number(0))),
    glyph(A, made(5, bytes([0]) + ot.numbers(1, 0, 0, part(1)) + ot.long_numbers(0), 0, 0, 10, 10, 20, 20, number(0))),
    glyph(B, made(7, bytes([0]) + ot.numbers(1, 0, 0, part(1)) + ot.long_numbers(0), 0, 0, 10, 10, 20, 20, number(0))),
    glyph(C, made(9, bytes([0]) + ot.numbers(1, 0, 0, part(1)) + ot.long_numbers(0), 0, 0, 0, part(1), number(0))),
    glyph(A), glyph(A), glyph(A), glyph(A),  # E03B to E03E: with clip boxes
]
FIRST = len(LETTERS)
# Layers of version 0 follow, for U+E100 to U+E103: how many, and from which on.
OLD = [(0, 2), (1, 3), (3, 9), (7, 1)]
OLD_LAYERS = [A, B, SPACE, C]
COUNT = FIRST + len(PAINTS) + len(OLD)


def base_paints():
    """The paints, of which three are of other glyphs."""
    at = {0x1001: FIRST + 0x21, 0x1002: FIRST + 0x20, 0x1003: FIRST + 0x3B}
    found = [made(11, at[int.from_bytes(it[1:3], "big")]) if it[0] == 11 and int.from_bytes(it[1:3], "big") in at else it for it in PAINTS]
    rows = [item for number, it in enumerate(found) for item in (FIRST + number, ot.Offset(it, 4))]
    return ot.table(ot.long_numbers(len(found)), *rows)


def clips():
    """A box for each of the last four glyphs with a paint: one that varies, one of an unknown format, and one that is turned round."""
    first = FIRST + 0x3B
    boxes = [bytes([1]) + ot.numbers(10, -20, 300, 400), bytes([2]) + ot.numbers(10, -20, 300, 400) + ot.long_numbers(0),
             bytes([7]) + ot.numbers(1, 2, 3, 4), bytes([1]) + ot.numbers(300, 400, 10, -20)]
    rows = [item for at, box in enumerate(boxes) for item in (first + at, first + at, ot.Offset(box, 3))]
    return ot.table(bytes([1]), ot.long_numbers(len(boxes)), *rows)


def old_parts(first):
    rows = b"".join(ot.numbers(first + at, *of) for at, of in enumerate(OLD))
    return rows, b"".join(ot.numbers(of, 0) for of in OLD_LAYERS)


def colors():
    records, old = old_parts(FIRST + len(PAINTS))
    some = store(1, [[(0, 1, 1)]], ([0], [(3000,), (-5000,), (120,), (8000,), (-70,), (40,)]))
    colr = ot.table(1, len(OLD), ot.Offset(records, 4), ot.Offset(old, 4), len(OLD_LAYERS), ot.Offset(base_paints(), 4),
                    ot.Offset(ot.table(ot.long_numbers(len(LAYERS)), *(ot.Offset(it, 4) for it in LAYERS)), 4), ot.Offset(clips(), 4),
                    ot.Offset(None, 4), ot.Offset(some, 4))
    squares = [b"" if name == "space" else ot.square(20 + 7 * at, 11 * at - 30, 300 + 10 * at, 400 + 9 * at) for at, name in enumerate(LETTERS)]
    glyf, loca = ot.glyf_and_loca([*squares, *[b""] * (COUNT - FIRST)])
    codes = {0x20: SPACE, 0x61: A, 0x62: B, 0x63: C, 0x301: 5, **{0xE000 + at: FIRST + at for at in range(len(PAINTS))},
             **{0xE100 + at: FIRST + len(PAINTS) + at for at in range(len(OLD))}}
    moves = {A: glyph_variations(((1,), None, [40, 60, 80, 20, 0, 90, 0, 0], [0, 30, 70, 0, 0, 0, 30, -20]))}
    return ot.font({
        "head": ot.head(1000, (0, -30, 900, 900)), "hhea": ot.measures(800, -200, 900, COUNT), "maxp": ot.maxp(COUNT),
        "hmtx": ot.advances([(500 + at, 20 + 7 * at if at < FIRST else 0) for at in range(COUNT)], COUNT), "glyf": glyf, "loca": loca,
        "post": ot.post(), "OS/2": ot.os2(0x20, 0xFFFF, 800, -200), "name": ot.name_table("Vukhaso Colors"),
        "cmap": ot.cmap({(3, 1): ot.segment_mapping(codes)}), "COLR": colr,
        "fvar": fvar([("wght", (100, 400, 900))], []), "gvar": gvar(1, moves, COUNT),
    })


CHARSTRINGS = {
    ".notdef": "50 0 rmoveto 200 300 -200 hlineto endchar", "space": "endchar",
    "a": "20 -10 rmoveto 300 400 -300 hlineto endchar",
    "b": "100 0 rmoveto 100 50 50 100 0 150 rrcurveto -60 200 40 -150 hvcurveto endchar",
    "c": "endchar", "d": "endchar",
}


def charstrings():
    names = list(CHARSTRINGS)
    rows = b"".join(ot.numbers(*of) for of in ((4, 0, 2), (5, 2, 1)))
    colr = ot.table(0, 2, ot.Offset(rows, 4), ot.Offset(ot.numbers(2, 0, 3, 0, 1, 0), 4), 3)
    advances = ot.advances([(500, 0)] * len(names), 1)
    return ot.font({
        "head": ot.head(1000, (0, 0, 900, 900)), "hhea": ot.measures(800, -200, 900, 1), "hmtx": advances,
        "maxp": ot.maxp(len(names), outlines=False), "post": ot.post(), "OS/2": ot.os2(0x20, 0xFFFF, 800, -200),
        "name": ot.name_table("Vukhaso Colors"), "COLR": colr,
        "cmap": ot.cmap({(0, 3): ot.trimmed_mapping({ord(name): at for at, name in enumerate(names) if len(name) == 1})}),
        "CFF ": cff.cff("Vukhaso Colors", names, CHARSTRINGS, [], [], (0, -20, 600, 800)),
    }, b"OTTO")


def picture(x, y, width, height):
    """A PNG of `sbix`, moved, of which no more than the first chunk is there."""
    return ot.numbers(x, y) + b"png \x89PNG\r\n\x1a\n" + ot.long_numbers(13) + b"IHDR" + ot.long_numbers(width, height) + bytes([8, 6]) + bytes(7)


def strike(pixels, only):
    """A strike of `sbix` at 72 dots an inch, with the second of four glyphs. A glyph ends where the next begins."""
    first = 4 + 4 * 5
    last = first + len(only)
    return ot.numbers(pixels, 72) + ot.long_numbers(first, first, last, last, last) + only


def bitmaps():
    """A glyph that is clipped to a box, a with a PNG in each of two strikes, of 16 and of 40 pixels, b with a bitmap, and c, of which nothing
    is said."""
    box = bytes([1]) + ot.numbers(10, -20, 300, 400)
    clips = ot.table(bytes([1]), ot.long_numbers(1), 0, 0, ot.Offset(box, 3))
    one = ot.numbers(1, 17) + ot.long_numbers(4, 0, 9)
    sizes = ot.long_numbers(56, 24, 1, 0) + bytes(24) + ot.numbers(0, 3) + bytes([20, 24, 32, 1])
    return ot.font({
        "head": ot.head(1000, (0, 0, 1, 1)), "maxp": ot.maxp(4, outlines=False),
        "cmap": ot.cmap({(0, 3): ot.trimmed_mapping({0x61: 1, 0x62: 2, 0x63: 3})}),
        "COLR": ot.table(1, 0, ot.long_numbers(0, 0), 0, ot.long_numbers(0, 0), ot.Offset(clips, 4), ot.long_numbers(0, 0)),
        "CBDT": ot.numbers(3, 0) + bytes([20, 22, 1, 18, 30]) + ot.long_numbers(0),
        "CBLC": ot.numbers(3, 0) + ot.long_numbers(1) + sizes + ot.numbers(2, 2) + ot.long_numbers(8) + one,
        "sbix": ot.table(1, 1, ot.long_numbers(2), *(ot.Offset(it, 4) for it in (
            strike(16, picture(3, -4, 20, 24)), strike(40, picture(-7, 9, 37, 41))))),
    })


FONTS = {"colors.ttf": colors, "colors.otf": charstrings, "bitmaps.ttf": bitmaps}
