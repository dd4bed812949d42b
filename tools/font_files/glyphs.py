"""The glyphs of the small fonts: their names, their squares and their measures. No two squares of letters are alike."""

from . import opentype as ot

DIGITS = "zero one two three four five six seven eight nine".split()
UPPER, LOWER = [chr(65 + at) for at in range(26)], [chr(97 + at) for at in range(26)]
MARKS = ["acute", "grave", "below"]
NAMES = [".notdef", "space", *UPPER, *LOWER, *DIGITS, "slash", "fraction", "dotless", "eacute", "a.alt", "f_i", "f_f", "f_f_i", "circle",
         "smile", *MARKS, *(f"{digit}.{kind}" for kind in ("numr", "dnom") for digit in DIGITS)]
GLYPH = {name: at for at, name in enumerate(NAMES)}
CODES = {
    0x20: "space", 0x2F: "slash", 0x2044: "fraction", 0x131: "dotless", 0xE9: "eacute", 0x25CC: "circle", 0x1F600: "smile",
    0x301: "acute", 0x300: "grave", 0x323: "below", **{0x30 + at: digit for at, digit in enumerate(DIGITS)},
    **{ord(letter): letter for letter in UPPER + LOWER},
}

# The numbers that the table `post` has for names.
NUMBERED = {
    ".notdef": 0, "space": 3, "slash": 18, "grave": 67, "eacute": 112, "acute": 141,
    **{digit: 19 + at for at, digit in enumerate(DIGITS)},
    **{letter: 36 + at for at, letter in enumerate(UPPER)}, **{letter: 68 + at for at, letter in enumerate(LOWER)},
}

ADVANCES = {
    "space": 250, "f_i": 900, "f_f": 900, "f_f_i": 1300, "a.alt": 415, "eacute": 450,
    **{letter: 600 + 10 * at for at, letter in enumerate(UPPER, 1)}, **{letter: 400 + 10 * at for at, letter in enumerate(LOWER, 1)},
    **dict.fromkeys([*MARKS, *(name for name in NAMES if "." in name[1:] and name != "a.alt")], 200),
}


def g(name):
    return GLYPH[name]


def glyphs(text):
    return [GLYPH[name] for name in text.split()]


def advance(name):
    return ADVANCES.get(name, 300)


def square_of(name):
    """The lower left corner of a glyph's square, its width and its height."""
    at = GLYPH[name]
    if name in MARKS:
        return 50, -150 if name == "below" else 550, 100, 20 + at % 7
    return 20 + at % 9, -(at % 5), advance(name) - 50, 300 + 4 * at


def outline(name):
    """A square, but for a space and for a letter that is made of two glyphs."""
    if name == "space":
        return b""
    if name == "eacute":
        left, low, width, _ = square_of("e")
        _, y, _, height = square_of("acute")
        return ot.composite((left, low, left + width, y + height), [(g("e"), 0, 0), (g("acute"), 150, 0)])
    return ot.square(*square_of(name))


def tables(names, family):
    """The tables of outlines and horizontal measures of some glyphs."""
    squares = [square_of(name) for name in names if name != "space"]
    box = [min(it[0] for it in squares), min(it[1] for it in squares),
           max(it[0] + it[2] for it in squares), max(it[1] + it[3] for it in squares)]
    own = len(names)
    while own > 1 and advance(names[own - 1]) == advance(names[own - 2]):
        own -= 1
    glyf, loca = ot.glyf_and_loca([outline(name) for name in names])
    return {
        "head": ot.head(1000, box), "hhea": ot.measures(800, -200, box[2], own), "maxp": ot.maxp(len(names)),
        "hmtx": ot.advances([(advance(name), 0 if name == "space" else square_of(name)[0]) for name in names], own),
        "glyf": glyf, "loca": loca, "OS/2": ot.os2(0x20, 0xFFFF, 800, -200), "name": ot.name_table(family),
    }
