"""`kern.ttf`, which has the table `kern` and no other layout, and `upright.otf`, which has charstrings and vertical origins."""

import functools

from . import cff
from . import layout as lay
from . import opentype as ot
from .glyphs import LOWER, UPPER, advance, square_of, tables

ACROSS, HORIZONTAL = 4, 1


def pair(names, text, value):
    first, second = text
    return {(names.index(first), names.index(second)): value}


def kern():
    names = [".notdef", "space", *UPPER, *LOWER]
    first = {names.index("T"): 1, names.index("a"): 2}
    second = {**{names.index(letter): 1 for letter in "aeo"}, names.index("T"): 2}
    vertical = [(1000 + 10 * at, 50) for at in range(len(names))]
    return ot.font({
        **tables(names, "Vukhaso Kern"),
        "post": ot.post(),
        "cmap": ot.cmap({(3, 1): ot.segment_mapping({ord(name): at for at, name in enumerate(names) if len(name) == 1} | {0x20: 1})}),
        "kern": lay.kern(
            (0, HORIZONTAL, lay.kern_pairs(pair(names, "AV", -80) | pair(names, "VA", -80) | pair(names, "WA", -70))),
            (2, HORIZONTAL, lay.kern_classes(first, second, [[0, 0, 0], [0, -20, 0], [0, 0, -40]])),
            (0, HORIZONTAL | ACROSS, lay.kern_pairs(pair(names, "xy", 30)))),
        "vhea": ot.measures(500, -500, 1000, 40, vertical=True),
        "vmtx": ot.advances(vertical, 40),
    })


CHARSTRINGS = {
    ".notdef": "50 0 rmoveto 200 300 -200 hlineto endchar",
    "space": "endchar",
    "acute": "60 550 rmoveto 80 120 -80 hlineto endchar",
    "a": "20 -10 rmoveto 300 400 -300 hlineto endchar",
    "b": "10 40 20 hstem 100 0 rmoveto 100 50 50 100 0 150 rrcurveto -60 200 40 -150 hvcurveto endchar",
    "c": "30 10 rmoveto -107 callsubr endchar",
    "d": "40 20 rmoveto -107 callgsubr endchar",
    "e": "100 20 97 194 endchar",
}
SHARED = ["-107 callsubr 50 60 rlineto return"]
OWN = ["120 230 rlineto 40 vlineto return"]


def upright():
    names = list(CHARSTRINGS)
    place = {name: at for at, name in enumerate(names)}
    letters = {ord(name): at for name, at in place.items() if len(name) == 1}
    squares = {name: square_of(name) for name in names if name in LOWER}
    measures = tables(["space", *squares], "Vukhaso Upright")
    rows = [(advance(name) if name in LOWER else 300, 0) for name in names]
    vert = lay.layout({"DFLT": {"dflt": (None, ["vert"])}}, {"vert": ["vert"]},
                      {"vert": lay.lookup(1, 0, lay.by_list({place["a"]: place["b"]}))})
    return ot.font({
        **{tag: measures[tag] for tag in ("head", "OS/2", "name")},
        "hhea": ot.measures(800, -200, 500, len(rows)), "hmtx": ot.advances(rows, len(rows)),
        "maxp": ot.maxp(len(names), outlines=False), "post": ot.post(),
        "cmap": ot.cmap({(0, 3): ot.trimmed_mapping(letters)}),
        "CFF ": cff.cff("Vukhaso Upright", names, CHARSTRINGS, SHARED, OWN, (0, -20, 600, 800)),
        "GSUB": vert,
        "vhea": ot.measures(500, -500, 1000, 1, vertical=True), "vmtx": ot.advances([(1000, 60)] * len(names), 1),
        "VORG": ot.numbers(1, 0, 850, 1, place["b"], 880),
    }, b"OTTO")


HINTED = {
    ".notdef": "50 0 rmoveto 200 300 -200 hlineto endchar",
    "a": "10 20 30 20 hstemhm 40 20 60 20 hintmask:00001110 100 0 rmoveto 100 200 -100 hlineto endchar",
    "b": "10 20 10 20 10 20 10 20 10 hstemhm 10 20 10 20 10 20 10 20 10 20 vstemhm hintmask:1111000011110000 50 60 rmoveto 210 170 -90 hlineto endchar",
    "c": "300 10 20 hstem 30 40 vstem 7 -8 rmoveto 50 60 70 80 90 100 rrcurveto endchar",
    "d": "20 30 rmoveto 10 20 30 40 50 60 70 80 90 100 rcurveline endchar",
    "e": "20 30 rmoveto 10 20 30 40 10 -20 30 -40 50 60 rlinecurve endchar",
    "f": "20 30 rmoveto 5 10 20 30 40 vvcurveto 6 15 25 35 45 hhcurveto endchar",
    "g": "20 30 vmoveto 1 2 3 4 5 6 7 8 9 10 11 12 50 flex endchar",
    "h": "40 hmoveto 10 20 30 40 50 60 70 hflex 11 21 31 41 51 61 71 81 91 hflex1 1 2 3 4 5 6 7 8 9 10 21 flex1 endchar",
    "i": "10 10 rmoveto 10 20 30 40 50 60 70 80 vhcurveto 15 25 35 45 55 65 75 85 95 hvcurveto 10 20 30 hlineto 5 15 25 vlineto endchar",
    "j": "10 20 10 20 10 20 10 20 hstemhm cntrmask:1100000000 20 20 rmoveto 40 50 60 hlineto endchar",
    "k": "10 20 10 20 10 20 10 20 hstemhm 10 20 10 20 10 20 10 20 hintmask:11111111 30 40 rmoveto 60 70 80 hlineto endchar",
}


def hinted():
    """Charstrings with hints, masks of them, and each kind of line and curve."""
    names = list(HINTED)
    rows = [(500 + 10 * at, 0) for at in range(len(names))]
    measures = tables(["space", *[name for name in names if name in LOWER]], "Vukhaso Hinted")
    return ot.font({
        **{tag: measures[tag] for tag in ("head", "OS/2", "name")},
        "hhea": ot.measures(800, -200, 500, len(rows)), "hmtx": ot.advances(rows, len(rows)), "maxp": ot.maxp(len(names), outlines=False),
        "post": ot.post(), "cmap": ot.cmap({(0, 3): ot.trimmed_mapping({ord(name): at for at, name in enumerate(names) if len(name) == 1})}),
        "CFF ": cff.cff("Vukhaso Hinted", names, HINTED, [], [], (0, -20, 600, 800)),
    }, b"OTTO")


# Tables that HarfBuzz takes for none, and tables without lookups, by which marks are not placed.
POSITIONS = {
    "cut": ot.numbers(1, 0, 0, 0) + b"\0", "one-byte": b"\0", "variations-cut": ot.numbers(1, 1, 0, 0, 0, 0), "zero": ot.numbers(0, 0),
    "empty": ot.numbers(1, 0, 0, 0, 0), "variations": ot.numbers(1, 1, 0, 0, 0, 0, 0), "second": ot.numbers(2, 0), "minor": ot.numbers(0, 1),
}


def positions(gpos):
    """Two letters and a mark, with a table `GPOS` of these bytes."""
    names = [".notdef", "space", "a", "b", "acute"]
    return ot.font({
        **tables(names, "Vukhaso Positions"), "post": ot.post(), "GPOS": gpos,
        "cmap": ot.cmap({(3, 1): ot.segment_mapping({0x20: 1, 0x61: 2, 0x62: 3, 0x301: 4})}),
    })


def collected(fonts):
    """Fonts in one file."""
    start = 12 + 4 * len(fonts)
    places = [start + sum(len(it) for it in fonts[:at]) for at in range(len(fonts))]
    made = b"ttcf" + ot.numbers(1, 0) + ot.long_numbers(len(fonts), *places)
    for data, place in zip(fonts, places):
        moved = bytearray(data)
        for at in range(int.from_bytes(data[4:6], "big")):
            row = 12 + 16 * at + 8
            moved[row:row + 4] = ot.long_numbers(int.from_bytes(data[row:row + 4], "big") + place)
        made += bytes(moved)
    return made


def collection():
    """Two fonts in one file: `kern.ttf` and `hinted.otf`."""
    return collected([kern(), hinted()])


FONTS = {f"gpos-{name}.ttf": functools.partial(positions, gpos) for name, gpos in POSITIONS.items()}
