"""`variable.ttf`: two axes with a map of one, outlines, advances and positions that vary, and features that other places have."""

import struct

from . import layout as lay
from . import opentype as ot

NAMES = [".notdef", "space", *"abcdefgh", "acute", "alt", "composed", "scaled"]
PLACE = {name: at for at, name in enumerate(NAMES)}
CODES = {0x20: 1, **{ord(name): PLACE[name] for name in "abcdefgh"}, 0x301: PLACE["acute"], 0x6A: PLACE["composed"], 0x6B: PLACE["scaled"]}
X_ADVANCE, X_ADVANCE_DEVICE = 4, 64


def fixed(value):
    """A number of 16 bits before the point and 16 behind it."""
    return struct.pack(">i", round(value * 65536))


def part(value):
    """A number with 14 bits behind the point."""
    return round(value * 16384)


def fvar(axes, instances):
    rows = b"".join(tag.encode() + b"".join(map(fixed, of)) + ot.numbers(0, 256) for tag, of in axes)
    rows += b"".join(ot.numbers(2, 0) + b"".join(map(fixed, of)) for of in instances)
    return ot.numbers(1, 0, 16, 2, len(axes), 20, len(instances), 4 + 4 * len(axes)) + rows


def avar(*maps):
    return ot.numbers(1, 0, 0, len(maps)) + b"".join(ot.numbers(len(of), *(part(it) for pair in of for it in pair)) for of in maps)


def regions(axes, peaks):
    """A list of regions, each with a start, a peak and an end for each axis."""
    return ot.numbers(axes, len(peaks)) + b"".join(ot.numbers(*(part(it) for of in region for it in of)) for region in peaks)


def store(axes, peaks, *blocks):
    """An item variation store: blocks of rows, each with the regions it is of; a delta of two bytes for the first, and of one else."""
    made = []
    for chosen, rows in blocks:
        body = b"".join(ot.numbers(row[0]) + b"".join(struct.pack("b", delta) for delta in row[1:]) for row in rows)
        made.append(ot.numbers(len(rows), 1, len(chosen), *chosen) + body)
    return ot.table(1, ot.Offset(regions(axes, peaks), 4), len(made), *(ot.Offset(it, 4) for it in made))


def index_map(rows):
    """Of each glyph its block and row: four bits for the row."""
    return ot.numbers(0x0003, len(rows)) + bytes(outer << 4 | inner for outer, inner in rows)


def index_device(outer, inner):
    return ot.numbers(outer, inner, 0x8000)


def packed_deltas(values):
    """Deltas as words, in runs of at most 64; zeros are told by their number."""
    made, at = b"", 0
    while at < len(values):
        end = at
        while end < len(values) and end - at < 64 and (values[end] == 0) == (values[at] == 0):
            end += 1
        made += bytes([0x80 | end - at - 1]) if values[at] == 0 else bytes([0x40 | end - at - 1]) + struct.pack(f">{end - at}h", *values[at:end])
        at = end
    return made


def packed_points(points):
    """Numbers of points in one run of bytes; all points where there are none."""
    if points is None:
        return b"\0"
    steps = [after - before for before, after in zip([0, *points], points)]
    return bytes([len(points), len(points) - 1, *steps])


def glyph_variations(*tuples):
    """Of each peak, the points that move, and how far across and upwards. A peak with a start and an end has three values an axis."""
    heads, body = b"", b""
    for peak, points, across, upward, *between in tuples:
        data = packed_points(points) + packed_deltas(across) + packed_deltas(upward)
        flags = 0x8000 | 0x2000 | (0x4000 if between else 0)
        heads += ot.numbers(len(data), flags, *map(part, peak), *(part(it) for of in between for it in of))
        body += data
    return ot.numbers(len(tuples), 4 + len(heads)) + heads + body


def gvar(axes, by_glyph, count):
    places, body = [0], b""
    for at in range(count):
        data = by_glyph.get(at, b"")
        body += data + b"\0" * (len(data) % 2)
        places.append(len(body))
    head = 20 + 2 * (count + 1)
    return ot.numbers(1, 0, axes, 0) + ot.long_numbers(head) + ot.numbers(count, 0) + ot.long_numbers(head) \
        + ot.numbers(*(place // 2 for place in places)) + body


def with_variations(table, rows):
    """A table of layout with features that others replace: of each row the ranges of axes, and of a feature its other lookups."""
    made = []
    for ranges, index, lookups in rows:
        conditions = ot.table(len(ranges), *(ot.Offset(ot.numbers(1, axis, part(low), part(high)), 4) for axis, low, high in ranges))
        other = ot.table(1, 0, 1, index, ot.Offset(ot.table(0, len(lookups), *lookups), 4))
        made += [ot.Offset(conditions, 4), ot.Offset(other, 4)]
    body = ot.table(1, 0, ot.long_numbers(len(rows)), *made)
    offsets = [int.from_bytes(table[at:at + 2], "big") for at in (4, 6, 8)]
    return ot.numbers(1, 1, *(it + 4 for it in offsets)) + ot.long_numbers(len(table) + 4) + table[10:] + body


def outline(name):
    if name == "space":
        return b""
    if name == "composed":
        return ot.composite((20, 0, 700, 700), [(PLACE["a"], 0, 0), (PLACE["acute"], 150, -30)])
    if name == "scaled":
        return ot.numbers(-1, 0, 0, 400, 400) + ot.numbers(0x0002 | 0x0008 | 0x0020, PLACE["a"]) + bytes([10, 246]) + ot.numbers(part(0.5)) \
            + ot.numbers(0x0002 | 0x0040, PLACE["b"]) + bytes([246, 20]) + ot.numbers(part(0.5), part(-0.75))
    at = PLACE[name]
    return ot.square(20 + at, at, 300 + 10 * at, 400 + 10 * at) if name != "acute" else ot.square(50, 600, 100, 80)


def mvar(some, values):
    """Values of a font that vary, by tag: each with its block and row."""
    rows = b"".join(tag.encode() + ot.numbers(*of) for tag, of in sorted(values.items()))
    return ot.numbers(1, 0, 0, 8, len(values), 12 + len(rows)) + rows + some


def variable(axis_maps=None, without=(), more=()):
    """The font, with other maps of axes, without some of its tables, or with more of them."""
    count = len(NAMES)
    rows = [(0 if name == "acute" else 500 + 10 * at, 20) for at, name in enumerate(NAMES)]
    glyf, loca = ot.glyf_and_loca([outline(name) for name in NAMES])
    peaks = [[(0, 1, 1), (0, 0, 0)], [(-1, -1, 0), (0, 0, 0)], [(0, 0.5, 1), (0, 1, 1)], [(0, 0, 0), (0, 1, 1)]]
    some = store(2, peaks, ([0, 1], [(at * 20, -at) for at in range(8)]), ([2, 3, 0], [(at * 10 - 50, at, 100 - at) for at in range(6)]))
    hvar = ot.table(1, 0, ot.Offset(some, 4), ot.Offset(index_map([(at % 2, at % 6) for at in range(count)]), 4), ot.long_numbers(0, 0))
    origins = ot.Offset(index_map([(at % 2, at % 6) for at in range(count)]), 4) if "VORG" in dict(more) else ot.long_numbers(0)
    vvar = ot.table(1, 0, ot.Offset(some, 4), *[ot.long_numbers(0)] * 3, origins)
    moved = {
        PLACE["a"]: glyph_variations(((1, 0), None, [40, 60, 80, 20, 0, 90, 0, 0], [0, 30, 70, 0, 0, 0, 30, -20]),
                                     ((0, 1), [0, 2], [10, 35], [0, -50])),
        PLACE["b"]: glyph_variations(((-1, 0), [1, 3, 5], [-30, 10, -60], [20, -10, 0]), ((0.5, 0), [0], [12], [14], (0.25, 0), (0.75, 0))),
        PLACE["c"]: glyph_variations(((1, 1), [2], [50], [60])),
        PLACE["composed"]: glyph_variations(((1, 0), None, [0, 33, 0, 44, 0, 0], [0, 21, 0, 0, 0, 0])),
        PLACE["d"]: glyph_variations(((1, 0), [0, 1], [70, -20], [0, 0])),
    }
    gsub = lay.layout({"DFLT": {"dflt": (None, ["rvrn", "liga"])}}, {"rvrn": ["0"], "liga": ["3"]}, {
        "0": lay.lookup(1, 0, lay.by_list({PLACE["h"]: PLACE["g"]})), "1": lay.lookup(1, 0, lay.by_list({PLACE["a"]: PLACE["alt"]})),
        "2": lay.lookup(1, 0, lay.by_list({PLACE["b"]: PLACE["alt"]})), "3": lay.lookup(4, 0, lay.ligatures({PLACE["e"]: [([PLACE["f"]], PLACE["alt"])]}))})
    device = lay.Offset(index_device(0, 3))
    both = ot.table(1, ot.Offset(lay.coverage([PLACE["a"], PLACE["c"]])), X_ADVANCE | X_ADVANCE_DEVICE, 15, device)
    anchored = lay.marks_on({PLACE["acute"]: (0, lay.anchor(0, 500))},
                            {PLACE["a"]: [lay.anchor(200, 700, devices=(index_device(1, 2), index_device(0, 5)))], PLACE["b"]: [lay.anchor(210, 650)]})
    gpos = lay.layout({"DFLT": {"dflt": (None, ["kern", "mark"])}}, {"kern": ["0"], "mark": ["1"]}, {
        "0": lay.lookup(1, 0, both), "1": lay.lookup(4, 0, anchored), "2": lay.lookup(1, 0, lay.one_value([PLACE["d"]], X_ADVANCE, [99]))})
    marks = lay.classes({at: 3 if name == "acute" else 1 for name, at in PLACE.items() if at > 1})
    gdef = ot.table(1, 3, ot.Offset(marks), 0, 0, 0, 0, ot.Offset(some, 4))
    tables = {
        "head": ot.head(1000, (0, 0, 900, 900)), "hhea": ot.measures(800, -200, 900, count), "maxp": ot.maxp(count),
        "hmtx": ot.advances(rows, count), "glyf": glyf, "loca": loca, "post": ot.post(NAMES), "OS/2": ot.os2(0x20, 0xFFFF, 800, -200),
        "name": ot.name_table("Vukhaso Variable"), "cmap": ot.cmap({(3, 1): ot.segment_mapping(CODES)}),
        "vhea": ot.measures(500, -500, 1000, count, vertical=True), "vmtx": ot.advances([(1000 + at, 40) for at in range(count)], count),
        "fvar": fvar([("wght", (100, 400, 900)), ("wdth", (50, 100, 200))], [(900, 100), (100, 200), (650, 150)]),
        "avar": axis_maps or avar([(-1, -1), (0, 0), (0.5, 0.8), (1, 1)], [(-1, -1), (0, 0), (1, 1)]),
        "HVAR": hvar, "VVAR": vvar, "gvar": gvar(2, moved, count), "GDEF": gdef,
        "GSUB": with_variations(gsub, [([(0, 0.4, 1)], 1, [1]), ([(0, -1, -0.5), (1, 0, 1)], 1, [2])]),
        "GPOS": with_variations(gpos, [([(1, 0.5, 1)], 0, [0, 2])]), "MVAR": mvar(some, {"hasc": (0, 4), "hdsc": (0, 7)}), **dict(more),
    }
    return ot.font({tag: data for tag, data in tables.items() if tag not in without})


def second_map():
    """The same with a map of version 2, in which one axis moves the other, and without vertical measures."""
    some = store(2, [[(0, 1, 1), (0, 0, 0)], [(-1, -1, 0), (0, 0, 0)]], ([0, 1], [(part(0.25), -100), (part(-0.5), 90)]))
    first = avar([(-1, -1), (0, 0), (0.5, 0.8), (1, 1)], [(-1, -1), (0, 0), (1, 1)])
    second = ot.numbers(2) + first[2:]
    maps = index_map([(0, 1), (0, 0)])
    table = second + ot.long_numbers(len(second) + 8, len(second) + 8 + len(maps)) + maps + some
    return variable(table, ("vhea", "vmtx", "VVAR"))


def without_advances():
    """The same, whose advances vary by the outlines alone."""
    return variable(None, ("HVAR", "VVAR"))


def with_origins():
    """The same, with vertical origins that vary."""
    return variable(more={"VORG": ot.numbers(1, 0, 850, 1, PLACE["b"], 880)})


FONTS = {"variable.ttf": variable, "variable-second.ttf": second_map, "variable-outlines.ttf": without_advances, "variable-origins.ttf": with_origins}
