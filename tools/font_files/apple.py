"""`apple.ttf`, whose glyphs are substituted by the table `morx`, and stand closer or farther apart by `trak`; `apple-more.ttf`, which has
each kind of rearrangement and of insertion, and `GPOS` beside; `apple-kern.ttf`, which has Apple's table `kern`.
"""

from . import layout as lay
from . import opentype as ot
from .glyphs import LOWER, UPPER, tables
from .rules import assigned
from .rules import font as ruled

REARRANGEMENT, CONTEXTUAL, LIGATURE, NONCONTEXTUAL, INSERTION = 0, 1, 2, 4, 5
BACKWARDS, ALL_DIRECTIONS, LOGICAL = 0x4000_0000, 0x2000_0000, 0x1000_0000
NO = 0xFFFF


def by_glyph(values):
    """A lookup table of format 6."""
    rows = [number for glyph, value in sorted(values.items()) for number in (glyph, value)]
    return ot.numbers(6, 4, len(values), 0, 0, 0, *rows)


def machine(classes, states, entries, *parts):
    """A state table: the rows of states have a column for each class, and what it leads to follows its header."""
    header = 16 + 4 * len(parts)
    bodies = [by_glyph(classes), b"".join(ot.numbers(*state) for state in states), b"".join(ot.numbers(*entry) for entry in entries), *parts]
    places = [header + sum(map(len, bodies[:at])) for at in range(len(bodies))]
    return ot.long_numbers(len(states[0]), *places) + b"".join(bodies)


def chain(default, features, subtables):
    """A chain: types, settings and flags of features, and subtables of kinds with their flags."""
    bodies = b"".join(ot.long_numbers(12 + len(body), kind | bits, flags) + body for kind, bits, flags, body in subtables)
    rows = b"".join(ot.numbers(kind, setting) + ot.long_numbers(on, left) for kind, setting, on, left in features)
    return ot.long_numbers(default, 16 + len(rows) + len(bodies), len(features), len(subtables)) + rows + bodies


def morx(*chains):
    return ot.numbers(2, 0) + ot.long_numbers(len(chains)) + b"".join(chains)


def feat(features):
    """Types of features, whether one setting alone is on, and the settings."""
    rows, settings = b"", b""
    start = 12 + 12 * len(features)
    for kind, is_exclusive, numbers in features:
        rows += ot.numbers(kind, len(numbers)) + ot.long_numbers(start + len(settings)) + ot.numbers(0x8000 * is_exclusive, 256)
        settings += b"".join(ot.numbers(number, 256) for number in numbers)
    return ot.numbers(1, 0, len(features), 0, 0, 0) + rows + settings


def trak(values):
    """Font units that are added at sizes in points, in horizontal lines."""
    sizes = b"".join(ot.numbers(size, 0) for size in values)
    head = ot.numbers(1, 0, 0, 12, 0, 0) + ot.numbers(1, len(values)) + ot.long_numbers(28) + ot.numbers(0, 0, 256, 28 + len(sizes))
    return head + sizes + b"".join(ot.numbers(value & NO) for value in values.values())


def actions(*glyphs):
    """The actions of a ligature: each component has the number of its place in the list of components, the last one first."""
    offsets = [(at - glyph) & 0x3FFF_FFFF for at, glyph in enumerate(glyphs)]
    return ot.long_numbers(*offsets[:-1], offsets[-1] | 0x8000_0000)


def apple():
    names = [".notdef", "space", *UPPER, *LOWER]
    place = {name: at for at, name in enumerate(names)}
    swapped = machine({place["m"]: 4, place["n"]: 5},
                      [[0, 0, 0, 0, 1, 0], [0, 0, 0, 0, 1, 0], [0, 2, 2, 0, 1, 3]],
                      [(0, 0), (2, 0x8000), (2, 0), (0, 0x2003)])
    before = machine({place["z"]: 4, place["y"]: 5},
                     [[0, 0, 0, 0, 1, 0], [0, 0, 0, 0, 1, 0], [0, 0, 0, 0, 1, 2]],
                     [(0, 0, NO, NO), (2, 0x8000, NO, NO), (0, 0, 0, NO)],
                     ot.long_numbers(4) + by_glyph({place["z"]: place["x"]}))
    joined = machine({place["f"]: 4, place["i"]: 5},
                     [[0, 0, 0, 0, 1, 0], [0, 0, 0, 0, 1, 0], [0, 0, 0, 0, 1, 2]],
                     [(0, 0, 0), (2, 0x8000, 0), (0, 0xA000, 0)],
                     actions(place["i"], place["f"]), ot.numbers(0, 0), ot.numbers(place["L"], 0))
    doubled = machine({place["k"]: 4},
                      [[0, 0, 0, 0, 1], [0, 0, 0, 0, 1]],
                      [(0, 0, NO, NO), (0, 0x0020, 0, NO)],
                      ot.numbers(place["j"], 0))
    behind = machine({place["d"]: 4, place["e"]: 5},
                     [[0, 0, 0, 0, 1, 0], [0, 0, 0, 0, 1, 0], [0, 0, 0, 0, 1, 2]],
                     [(0, 0, NO, NO), (2, 0, NO, NO), (0, 0, NO, 0)],
                     ot.long_numbers(4) + by_glyph({place["e"]: place["c"]}))
    capitals = by_glyph({place[letter]: place[letter.upper()] for letter in LOWER})
    ligatures, small, others = 1, 2, 4
    everything = chain(
        ligatures | others,
        [(1, 2, ligatures, 0xFFFF_FFFF), (1, 3, 0, 0xFFFF_FFFF ^ ligatures), (37, 1, small, 0xFFFF_FFFF), (37, 0, 0, 0xFFFF_FFFF ^ small)],
        [(REARRANGEMENT, 0, others, swapped), (CONTEXTUAL, ALL_DIRECTIONS, others, before), (LIGATURE, 0, ligatures, joined),
         (INSERTION, 0, others, doubled), (CONTEXTUAL, BACKWARDS | LOGICAL, others, behind), (NONCONTEXTUAL, ALL_DIRECTIONS, small, capitals)])
    return ot.font({
        **tables(names, "Vukhaso Apple"),
        "post": ot.post(names),
        "cmap": ot.cmap({(3, 1): ot.segment_mapping({ord(name): at for at, name in enumerate(names) if len(name) == 1} | {0x20: 1})}),
        "morx": morx(everything),
        "feat": feat([(1, False, [2]), (37, True, [0, 1])]),
        "trak": trak({9: 60, 18: 0, 36: -20}),
    })


def rearrangements(place):
    """Each verb: a letter from a to o begins, and z ends what is put in another order."""
    verbs = 15
    classes = {place[chr(97 + at)]: 4 + at for at in range(verbs)} | {place["z"]: 4 + verbs}
    width = 5 + verbs
    entries = [(0, 0), *((2 + at, 0x8000) for at in range(verbs)), *((2 + at, 0) for at in range(verbs)), *((0, 0x2000 | at + 1) for at in range(verbs))]
    start = [0] * 4 + [1 + at for at in range(verbs)] + [0]
    states = [start, start, *([0, 1 + verbs + at, 1 + verbs + at, 0] + [1 + verbs + at] * verbs + [1 + 2 * verbs + at] for at in range(verbs))]
    assert all(len(state) == width for state in states)
    return machine(classes, states, entries)


def insertions(place):
    """p to s put glyphs before or behind themselves; u marks, and v to y put glyphs before or behind the mark, and go on or stay."""
    own = {"p": 0x0820, "q": 0x0040, "r": 0x0860, "s": 0x2020}
    marked = {"v": 0x0401, "w": 0x0002, "x": 0x0403, "y": 0x1001}
    classes = {place[letter]: 4 + at for at, letter in enumerate("pqrsuvwxy")}
    entries = [(0, 0, NO, NO), *((0, flags, 0, NO) for flags in own.values()), (2, 0x8000, NO, NO), *((0, flags, NO, 0) for flags in marked.values()),
               (2, 0, NO, NO), (0, 0x0820 | 0x0401, 1, 2)]
    start = [0] * 4 + [1, 2, 3, 4, 5, 0, 0, 0, 0]
    behind = [0, 10, 10, 0, 11, 2, 3, 4, 5, 6, 7, 8, 9]
    return machine(classes, [start, start, behind], entries, ot.numbers(place["A"], place["B"], place["C"]))


def replacements(place):
    """t marks; i replaces both the mark and itself, h the mark alone, g itself alone, and deletes."""
    classes = {place[letter]: 4 + at for at, letter in enumerate("tihg")}
    entries = [(0, 0, NO, NO), (2, 0x8000, NO, NO), (0, 0, 0, 1), (0, 0, 0, NO), (2, 0x4000, NO, 1), (2, 0, NO, NO)]
    states = [[0, 0, 0, 0, 1, 0, 0, 0]] * 2 + [[0, 5, 5, 0, 1, 2, 3, 4]]
    tables = ot.long_numbers(8, 8 + len(by_glyph({place["t"]: place["T"]}))) + by_glyph({place["t"]: place["T"]}) \
        + by_glyph({place["i"]: place["I"], place["g"]: NO})
    return machine(classes, states, entries, tables)


def joined_letters(place):
    """j k l become X, and j l becomes Y, with what stands between left as it is."""
    classes = {place[letter]: 4 + at for at, letter in enumerate("jkl")}
    entries = [(0, 0, 0), (2, 0x8000, 0), (3, 0x8000, 0), (0, 0xA000, 0), (0, 0xA000, 3)]
    states = [[0, 0, 0, 0, 1, 0, 0]] * 2 + [[0, 2, 2, 0, 1, 2, 4], [0, 3, 3, 0, 1, 0, 3]]
    states[2][1], states[3][1] = 0, 0
    return machine(classes, states, entries, actions(place["l"], place["k"], place["j"]) + actions_from(3, place["l"], place["j"]),
                   ot.numbers(0, 0, 0, 0), ot.numbers(place["X"], place["Y"]))


def actions_from(first, *glyphs):
    """The actions of a ligature, whose components are listed from a place on."""
    offsets = [(first - glyph if at else first + 1 - glyph) & 0x3FFF_FFFF for at, glyph in enumerate(glyphs)]
    return ot.long_numbers(*offsets[:-1], offsets[-1] | 0x8000_0000)


def mapped(names):
    return ot.cmap({(3, 1): ot.segment_mapping({ord(name): at for at, name in enumerate(names) if len(name) == 1} | {0x20: 1})})


def apple_more():
    names = [".notdef", "space", *UPPER, *LOWER]
    place = {name: at for at, name in enumerate(names)}
    ways = {1: rearrangements, 2: insertions, 4: replacements, 8: joined_letters}
    kinds = {1: REARRANGEMENT, 2: INSERTION, 4: CONTEXTUAL, 8: LIGATURE}
    chosen = [(14, at, flag, 0xFFFF_FFFF) for at, flag in enumerate(ways)] + [(37, 1, 16, 0xFFFF_FFFF), (37, 0, 0, 0xFFFF_FFEF)]
    subtables = [(kinds[flag], ALL_DIRECTIONS, flag, make(place)) for flag, make in ways.items()]
    deleted = by_glyph({place["n"]: NO, place["m"]: place["M"]})
    gpos = lay.layout({"DFLT": {"dflt": (None, ["kern"])}}, {"kern": ["0"]},
                      {"0": lay.lookup(2, 0, lay.pairs_of_glyphs({place["A"]: {place["B"]: [-90]}, place["m"]: {place["o"]: [-30]}}, 4))})
    return ot.font({
        **tables(names, "Vukhaso Apple More"), "post": ot.post(names), "cmap": mapped(names), "GPOS": gpos,
        "morx": morx(chain(1, chosen, subtables), chain(16, [(37, 1, 16, 0xFFFF_FFFF), (37, 0, 0, 0xFFFF_FFEF)], [(NONCONTEXTUAL, ALL_DIRECTIONS, 16, deleted)])),
        "feat": feat([(14, False, [0, 1, 2, 3]), (37, True, [0, 1])]),
    })


def chain_more(number, flag):
    """`apple-more.ttf` with one of its kinds of subtables always on."""
    names = [".notdef", "space", *UPPER, *LOWER]
    place = {name: at for at, name in enumerate(names)}
    make = {REARRANGEMENT: rearrangements, INSERTION: insertions, CONTEXTUAL: replacements, LIGATURE: joined_letters}[number]
    deleted = by_glyph({place["n"]: NO, place["m"]: place["M"]})
    subtables = [(number, flag, 1, make(place)), (NONCONTEXTUAL, ALL_DIRECTIONS, 1, deleted)]
    gpos = lay.layout({"DFLT": {"dflt": (None, ["kern"])}}, {"kern": ["0"]},
                      {"0": lay.lookup(2, 0, lay.pairs_of_glyphs({place["A"]: {place["B"]: [-90]}, place["M"]: {place["o"]: [-30]}}, 4))})
    return ot.font({**tables(names, "Vukhaso Apple More"), "post": ot.post(names), "cmap": mapped(names), "GPOS": gpos,
                    "morx": morx(chain(1, [(1, 2, 1, 0xFFFF_FFFF), (1, 3, 0, 0xFFFF_FFFE)], subtables)), "feat": feat([(1, False, [2])])})


def apple_kern():
    """Apple's `kern`: pairs, classes, an array, and what is across the line or for vertical lines."""
    names = [".notdef", "space", *UPPER, *LOWER]
    place = {name: at for at, name in enumerate(names)}

    def pairs(**values):
        return lay.kern_pairs({(place[pair[0]], place[pair[1]]): value for pair, value in values.items()})

    bodies = [(0x00, 0, pairs(AV=-80, VA=-70, To=-60)), (0x40, 0, pairs(xy=35)), (0x80, 0, pairs(AV=-33, ab=-44)), (0x00, 0, pairs(AV=-5, cd=0))]
    rows = b"".join(ot.long_numbers(8 + len(body)) + bytes([flags, form]) + ot.numbers(0) + body for flags, form, body in bodies)
    return ot.font({**tables(names, "Vukhaso Apple Kern"), "post": ot.post(names), "cmap": mapped(names),
                    "kern": ot.long_numbers(0x10000, len(bodies)) + rows})


def apple_scripts(has_marks=False):
    """Letters and signs of many scripts, with a table `morx`, which leaves nothing to the shapers of scripts."""
    codes = [*range(0x61, 0x67), 0x301, 0x323, 0x5D0, 0x5E9, 0x5B8, 0x5BC, 0x5C1, 0xFB4A, 0x627, 0x628, 0x644, 0x64E, 0x651, 0xFE8E, 0xFEFB, 0x710, 0x712,
             0x730, 0x915, 0x930, 0x93F, 0x94D, 0x901, 0xE01, 0xE1B, 0xE33, 0xE48, 0xE49, 0xE4D, 0xE32, 0x1000, 0x1025, 0x102E, 0x103B, 0x1039, 0x1031,
             0x1780, 0x17D2, 0x17C1, 0x17BE, 0x17B6, 0x1100, 0x1161, 0xAC00, 0x302E, 0xA984, 0xA9BA, 0xA9C0, 0x1820, 0x180B, 0x7C1, 0x7EB, 0x7FD]
    swapped = by_glyph({5: 6, 6: 5})
    more = {"morx": morx(chain(1, [(1, 2, 1, 0xFFFF_FFFF), (1, 3, 0, 0xFFFF_FFFE)], [(NONCONTEXTUAL, ALL_DIRECTIONS, 1, swapped)])),
            "feat": feat([(1, False, [2])])}
    return ruled("Vukhaso Apple Scripts", codes, ["DFLT", "arab", "hebr", "mym2", "thai"], {}, placed=("mark",) if has_marks else (), has_gdef=has_marks,
                 more=more, outlined=100)


def apple_syllables():
    """Letters and signs that compose, and marks with a width, in scripts whose shapers would leave them apart or take the width."""
    codes = [*range(0x41, 0x44), 0x4E, 0x6E, 0xF1, 0xD1, 0x300, 0x303, 0x307, 0x323, *assigned(0x1000, 0x1049), *assigned(0x1780, 0x17D3),
             *assigned(0x0900, 0x094D), 0x0958, 0x05D0, 0x05D1, 0x05B7, 0x05BC, 0xFB31, 0x0627, 0x0628, 0x0622, 0x0653, 0x064E, 0x08DE, 0x07CA, 0x07D0,
             0x07EB, 0x07FD, 0x0E01, 0x0E33, 0x0E49, 0x0E4D, 0x0E32, 0xAC00, 0x1100, 0x1161, 0x1B05, 0x1B06, 0x1B35, 0x0DDA, 0x0DD9, 0x0DCA, 0x0D9A]
    first, second = (5 + codes.index(number) for number in (0x41, 0x42))
    everything = chain(1, [], [(NONCONTEXTUAL, ALL_DIRECTIONS, 1, by_glyph({first: second}))])
    return ruled("Vukhaso Apple Syllables", codes, [], {}, placed=(), more={"morx": morx(everything)})


FONTS = {
    "apple-scripts.ttf": apple_scripts, "apple-syllables.ttf": apple_syllables, "apple-marks.ttf": lambda: apple_scripts(True), "apple-more.ttf": apple_more, "apple-kern.ttf": apple_kern,
    **{f"apple-{name}.ttf": (lambda number=number, bits=bits: chain_more(number, bits))
       for name, number, bits in (("rearrangement", REARRANGEMENT, ALL_DIRECTIONS), ("insertion", INSERTION, ALL_DIRECTIONS),
                                  ("contextual", CONTEXTUAL, ALL_DIRECTIONS), ("ligature", LIGATURE, ALL_DIRECTIONS),
                                  ("backwards", REARRANGEMENT, BACKWARDS), ("logical", INSERTION, BACKWARDS | LOGICAL))},
}
