"""Small fonts for what few fonts have: long ligatures and contexts, lookups that shrink or grow a text, layout that only some scripts
have, a table `kern` beside `GPOS`, and ligatures in a font without positions."""

from . import layout as lay
from . import opentype as ot
from .rules import code, font as ruled

LETTERS = [chr(at) for at in range(ord("a"), ord("z") + 1)] + list("TVW")
NAMES = [".notdef", "space", *LETTERS, "acute", "grave", "below", "A", "B", "C", "D", "E", "O", "X", "Y", "Z", "vertical"]
PLACE = {name: at for at, name in enumerate(NAMES)}
MARKS = {"acute": 0x301, "grave": 0x300, "below": 0x323}
X_PLACEMENT, X_ADVANCE = 1, 4


def g(text):
    return [PLACE[name] for name in text.split()]


def whole(family, tables, codes=None, classes=None):
    """A font of the letters above, with these tables of layout."""
    count = len(NAMES)
    rows = [(0 if name in MARKS else 500 + 4 * at, 0) for at, name in enumerate(NAMES)]
    glyf, loca = ot.glyf_and_loca([b"" if at == 1 else ot.square(10 + at, 0, 300, 400 + at) for at in range(count)])
    by_code = {0x20: 1, **{ord(letter): PLACE[letter] for letter in LETTERS}, **{code: PLACE[name] for name, code in MARKS.items()}, **(codes or {})}
    gdef_classes = {at: 3 if name in MARKS else 2 if name in "ABO" else 1 for name, at in PLACE.items() if at > 1}
    return ot.font({
        "head": ot.head(1000, (0, 0, 900, 900)), "hhea": ot.measures(800, -200, 900, count), "maxp": ot.maxp(count),
        "hmtx": ot.advances(rows, count), "glyf": glyf, "loca": loca, "post": ot.post(NAMES), "OS/2": ot.os2(0x20, 0xFFFF, 800, -200),
        "name": ot.name_table(family), "cmap": ot.cmap({(3, 1): ot.segment_mapping(by_code)}),
        "GDEF": lay.gdef(classes or gdef_classes, {PLACE["below"]: 1}, [g("below")]), **tables,
    })


def ligature(flags, *rows):
    sets = {}
    for text, name in rows:
        first, *rest = g(text)
        sets.setdefault(first, []).append((rest, PLACE[name]))
    return lay.lookup(4, flags, lay.ligatures(sets))


def single(**pairs):
    return lay.lookup(1, 0, lay.by_list({PLACE[left]: PLACE[right] for left, right in pairs.items()}))


def each(text):
    return [[at] for at in g(text)]


def lookups_by_name(named):
    """Lookups in an order, each under a feature of its name, but for those that only contexts apply, whose names begin with `_`."""
    features = {}
    for name in named:
        tag = name.split(".")[0]
        if not tag.startswith("_"):
            features.setdefault(tag, []).append(name)
    return features


def substitutions():
    order = ["lig2", "lig2.next", "lig2.last", "revm", "shrm", "lg17", "null", "shr4", "gone", "twic", "ct62", "ct64", "ct65", "many", "chai", *(f"grow.{at}" for at in range(8)),
             "_ab", "_c_to_x", "_d_to_y", "_e_to_z", "_none", "_b_to_cc", "_abc", "_many", "_more"]

    def calls(*rows):
        return [(place, order.index(name)) for place, name in rows]

    rules = [lay.rule(g(f"b {end}"), calls((1, "_b_to_cc"))) for end in "cdefg"] + [lay.rule(g("h"), calls((0, "_many"))), lay.rule(g("b"), calls((0, "_many")))]
    chained = [lay.chained_rule([], g("b"), g(f"i {end}"), calls((1, "_b_to_cc"))) for end in "cdefg"] + [lay.chained_rule([], [], g("b"), calls((0, "_many")))]
    made = {
        "lig2": ligature(lay.IGNORE_MARKS, ("a b", "A"), ("a a", "C")), "lig2.next": ligature(lay.IGNORE_MARKS, ("A c", "B"), ("A A", "B"), ("c A", "B")),
        "lig2.last": ligature(lay.IGNORE_MARKS, ("B d", "O"), ("d B", "O")),
        "revm": lay.lookup(8, 0, lay.reverse_chained([], {PLACE["x"]: PLACE["below"]}, [])),
        "shrm": lay.lookup(5, lay.IGNORE_MARKS, lay.context_of_coverage(each("a b c d"), calls((0, "_ab"), (1, "_c_to_x"), (2, "_d_to_y")))),
        "lg17": ligature(lay.IGNORE_MARKS, (" ".join("o" * 17), "O")),
        "null": None,
        "shr4": lay.lookup(5, 0, lay.context_of_coverage(each("a b c d e"), calls((0, "_ab"), (1, "_c_to_x"), (2, "_d_to_y"), (3, "_e_to_z"), (4, "_e_to_z")))),
        "gone": lay.lookup(5, 0, lay.context_of_coverage(each("a b c d"), calls((1, "_none"), (1, "_c_to_x"), (2, "_d_to_y")))),
        "twic": lay.lookup(5, 0, lay.context_of_coverage(each("a b c"), calls((0, "_abc"), (0, "_none"), (1, "_c_to_x")))),
        "ct62": lay.lookup(5, 0, lay.context_of_coverage(each(" ".join("s" * 62)), calls((0, "_more"), (3, "_many")))),
        "ct64": lay.lookup(5, 0, lay.context_of_coverage(each(" ".join("s" * 64)), calls((63, "_many"), (0, "_many")))),
        "ct65": lay.lookup(5, 0, lay.context_of_coverage(each(" ".join("s" * 65)), calls((64, "_many"), (0, "_many")))),
        "many": lay.lookup(5, 0, lay.context_of_glyphs({PLACE["a"]: rules})),
        "chai": lay.lookup(6, 0, lay.context_of_glyphs({PLACE["a"]: chained})),
        **{f"grow.{at}": lay.lookup(2, 0, lay.sequences({PLACE["t"]: g("t t t t")})) for at in range(8)},
        "_ab": ligature(0, ("a b", "E")), "_c_to_x": single(c="x"), "_d_to_y": single(d="y"), "_e_to_z": single(e="z"),
        "_none": lay.lookup(2, 0, lay.sequences({PLACE["b"]: [], PLACE["D"]: []})), "_b_to_cc": lay.lookup(2, 0, lay.sequences({PLACE["b"]: g("c c")})),
        "_abc": ligature(0, ("a b c", "D")), "_many": single(s="Z", a="Y"),
        "_more": lay.lookup(2, 0, lay.sequences({PLACE["s"]: g("s s s s")})),
    }
    return lay.layout({"DFLT": {"dflt": (None, sorted(lookups_by_name(order)))}}, lookups_by_name(order), {name: made[name] for name in order})


def bounded(values, more):
    """Positions by a list that has fewer values than its coverage has glyphs."""
    glyphs = sorted([*values, *more])
    return ot.table(2, ot.Offset(lay.coverage(glyphs)), X_ADVANCE, len(values), *(values[at] for at in sorted(values)))


def positions():
    marks = {PLACE[name]: (0, lay.anchor(0, 500)) for name in ("acute", "grave", "below")}

    def parts(count):
        return [[lay.anchor(100 * at, 600 + 10 * at)] for at in range(1, count + 1)]

    joining = lay.cursive({PLACE[name]: (lay.anchor(10 * at, 30 * at), lay.anchor(400 + 10 * at, 40 - 20 * at)) for at, name in enumerate("fghijk")})
    some = lay.cursive({PLACE["f"]: (None, lay.anchor(400, 15)), PLACE["h"]: (lay.anchor(5, 25), lay.anchor(390, -35)), PLACE["j"]: (lay.anchor(9, 77), None)})
    nested = lay.marks_on(marks, {PLACE[name]: [lay.anchor(250, 640)] for name in "abcdT"})
    made = {
        "kern": lay.lookup(2, 0, lay.pairs_of_glyphs({PLACE["T"]: {PLACE["o"]: [0], PLACE["a"]: [-70]}}, X_ADVANCE),
                           lay.pairs_of_classes(g("T V"), {PLACE["T"]: 1}, {PLACE["o"]: 1}, [[[0], [0]], [[0], [-60]]], X_ADVANCE)),
        "dist": lay.lookup(1, 0, bounded({PLACE["p"]: 40}, g("q r"))),
        "mark": lay.lookup(4, 0, nested),
        "mark.2": lay.lookup(5, 0, lay.marks_on_ligatures(marks, {PLACE["A"]: parts(2), PLACE["B"]: parts(4), PLACE["C"]: parts(2), PLACE["O"]: parts(17)})),
        "mkmk": lay.lookup(6, 0, lay.marks_on(marks, {PLACE[name]: [lay.anchor(20, 730)] for name in MARKS})),
        "cur1": lay.lookup(3, 0, joining), "cur2": lay.lookup(3, lay.RIGHT_TO_LEFT, joining), "cur3": lay.lookup(3, 0, some),
        "nest": lay.lookup(8, 0, lay.chained_of_coverage([], [[*g("a b c")], g("acute grave"), g("acute grave")], [], [(2, 10), (1, 10), (1, 11)])),
        "nst2": lay.lookup(8, 0, lay.chained_of_coverage([], [g("a"), g("e"), g("acute")], [], [(2, 12), (1, 12)])),
        "_again": lay.lookup(4, 0, lay.marks_on(marks, {PLACE[name]: [lay.anchor(99, 99)] for name in "abc"})),
        "_raised": lay.lookup(1, 0, lay.one_value(g("acute"), 2, [77])),
        "_letter": lay.lookup(4, 0, lay.marks_on({PLACE["acute"]: (0, lay.anchor(0, 500)), PLACE["e"]: (0, lay.anchor(0, 400))},
                                                 {PLACE[name]: [lay.anchor(111, 222)] for name in "ae"})),
    }
    features = lookups_by_name(made)
    return lay.layout({"DFLT": {"dflt": (None, sorted(features))}}, features, made)


def special():
    return whole("Vukhaso Special", {"GSUB": substitutions(), "GPOS": positions()})


def scripts():
    """Features that only some scripts have, a required feature that is asked for too, and a table `kern` beside `GPOS`."""
    gsub = lay.layout(
        {"DFLT": {"dflt": (None, ["liga"])}, "latn": {"dflt": ("calt", ["liga", "ligb", "rvrn"]), "NLD ": ("ss09", ["liga"])}, "kana": {"dflt": (None, ["vert", "liga"])},
         "hebr": {"dflt": ("init", ["liga"])}},
        {"liga": ["0"], "ligb": ["6"], "calt": ["1"], "vert": ["2"], "rvrn": ["3"], "ss09": ["4"], "init": ["5"]},
        {"0": ligature(0, ("a c", "X"), ("b c", "Y")), "1": single(a="b"), "2": single(c="vertical"), "3": single(d="a"), "4": single(e="f"), "5": single(g="h"), "6": single(z="y", a="x")})
    gsub = gsub.replace(b"ligb", b"liga")  # A second feature of this tag, which does not count.
    gpos = lay.layout({"latn": {"dflt": (None, ["kern"])}, "DFLT": {"dflt": (None, ["kern"])}}, {"kern": ["0"]},
                      {"0": lay.lookup(2, 0, lay.pairs_of_glyphs({PLACE["T"]: {PLACE["V"]: [-90]}}, X_ADVANCE))})
    kern = lay.kern((0, 1, lay.kern_pairs({(PLACE["T"], PLACE["V"]): -50, (PLACE["V"], PLACE["T"]): -45})))
    codes = {0x5D0: PLACE["T"], 0x5D1: PLACE["V"], 0x5D2: PLACE["g"], 0x5D3: PLACE["a"], 0x30A2: PLACE["c"], 0x1000: PLACE["T"], 0x1001: PLACE["V"]}
    return whole("Vukhaso Scripts", {"GSUB": gsub, "GPOS": gpos, "kern": kern}, codes)


def ligated():
    """Ligatures, and no positions, and glyphs without classes: marks are placed by bounds, components by their number."""
    rules = {
        "liga": [[8, "0066 0069 > f_i", "0066 0066 0069 > f_f_i", "2003 2003 > wide", "0020 0061 > space_a", "00AD 0061 > shy_a", "200B 0062 > zero_b", "0301 0302 > two_marks"]],
        "ccmp": [["0077 > 0076 0076"], ["0079 > 0079 0301"], ["0071 > "]], "smcp": [["00AD > 00AD.seen", "0063 > 0063.small"]], "dlig": [["0076 0076 > v_v"]],
    }
    codes = [*range(0x61, 0x7B), 0x301, 0x302, 0x323, 0x327, 0x2003, 0x2002, 0xAD, 0x200B, 0x5D0, 0x627]
    return ruled("Vukhaso Ligated", codes, ["DFLT"], rules, placed=(), has_gdef=False, outlined=100)


def breaks_kern():
    """A table `kern` with pairs whose first glyph most pairs pass over: n, which is a mark, and the glyph of a zero width non-joiner."""
    kern = lay.kern((0, 1, lay.kern_pairs({(PLACE["n"], PLACE["a"]): 50, (PLACE["vertical"], PLACE["m"]): 10})))
    classes = {at: 3 if name in MARKS or name == "n" else 1 for name, at in PLACE.items() if at > 1}
    return whole("Vukhaso Breaks Kern", {"kern": kern}, {0x200C: PLACE["vertical"]}, classes)


def breaks_pairs():
    """Pairs by glyphs and by classes, of which some begin with the glyph of a zero width non-joiner, which other pairs pass over."""
    joiner = PLACE["vertical"]
    first, second = {PLACE["b"]: 0, joiner: 1}, {PLACE["m"]: 1}
    gpos = lay.layout({"DFLT": {"dflt": (None, ["kern", "pair", "both"])}}, {"kern": ["0"], "pair": ["1"], "both": ["2"]}, {
        "0": lay.lookup(2, 0, lay.pairs_of_glyphs({PLACE["d"]: {PLACE["a"]: [0]}, joiner: {PLACE["a"]: [-40]}}, X_ADVANCE)),
        "1": lay.lookup(2, 0, lay.pairs_of_classes([PLACE["b"], joiner], first, second, [[[0], [0]], [[0], [-30]]], X_ADVANCE)),
        "2": lay.lookup(2, 0, lay.pairs_of_glyphs({PLACE["g"]: {PLACE["a"]: [0, 0]}, joiner: {PLACE["a"]: [-20, 5]}}, X_ADVANCE, X_ADVANCE)),
    })
    return whole("Vukhaso Breaks Pairs", {"GPOS": gpos}, {0x200C: joiner})


def breaks_hidden():
    """A font without a space, so that what is invisible is taken out, and a pair of the glyph of a zero width joiner."""
    joiner = PLACE["vertical"]
    pair = lay.lookup(2, 0, lay.pairs_of_glyphs({joiner: {PLACE["g"]: [14, 7]}}, X_ADVANCE, X_PLACEMENT))
    gpos = lay.layout({"DFLT": {"dflt": (None, ["kern"])}}, {"kern": ["0"]}, {"0": pair})
    return whole("Vukhaso Breaks Hidden", {"GPOS": gpos}, {0x20: 0, 0x200D: joiner})


def breaks_lookups():
    """Lookups that drop a glyph of which something hangs on the glyphs beside it: by itself, within a context, and as a component of a ligature."""
    order = ["gone", "part", "part.then", "part.last", "nest", "nes2", "fall", "fall.last", "frac", "back", "_none", "_a_to_c", "_e_to_f", "_f_to_g"]

    def calls(*rows):
        return [(place, order.index(name)) for place, name in rows]

    made = {
        "gone": lay.lookup(6, 0, lay.chained_of_coverage(each("m"), each("m"), [], calls((0, "_none")))),
        "part": lay.lookup(2, 0, lay.sequences({PLACE["b"]: g("x y")})),
        "part.then": lay.lookup(6, 0, lay.chained_of_coverage([], each("a"), each("x"), calls((0, "_a_to_c")))),
        "part.last": lay.lookup(2, 0, lay.sequences({PLACE["x"]: []})),
        "nest": lay.lookup(5, 0, lay.context_of_coverage(each("d"), calls((0, "_none"), (0, "_e_to_f")))),
        "nes2": lay.lookup(6, 0, lay.chained_of_coverage(each("g"), each("d d"), [], calls((1, "_none"), (0, "_none"), (0, "_e_to_f"), (0, "_f_to_g")))),
        "fall": lay.lookup(6, lay.IGNORE_MARKS, lay.chained_of_coverage([], each("f"), each("b"), calls((0, "_f_to_g")))),
        "fall.last": ligature(lay.IGNORE_MARKS, ("h g", "X"), ("h h g", "Y")),
        "frac": ligature(0, ("g c", "C")),
        "back": lay.lookup(8, 0, lay.reverse_chained(each("c"), {PLACE["a"]: PLACE["x"]}, [])),
        "_none": lay.lookup(2, 0, lay.sequences({PLACE["m"]: [], PLACE["d"]: []})),
        "_a_to_c": single(a="c"), "_e_to_f": single(e="f"), "_f_to_g": single(f="g"),
    }
    features = lookups_by_name(order)
    gsub = lay.layout({"DFLT": {"dflt": (None, sorted(features))}}, features, {name: made[name] for name in order})
    return whole("Vukhaso Breaks Lookups", {"GSUB": gsub}, {0x31: PLACE["a"], 0x32: PLACE["g"], 0x2044: PLACE["c"], 0x200D: PLACE["vertical"]})


def breaks_forms():
    """A ligature of Balinese syllables within a word, of which each joins."""
    return ruled("Vukhaso Breaks Forms", [0x20, 0x1B05, 0x1B13, 0x1B27, 0x1B50], ["bali"], {"medi": [[0, "1B50 1B27 > 1B50.medi", "1B13 1B27 1B13 > 1B13.medi"]]}, placed=())


def breaks_limit():
    """A lookup that applies itself until no more may be applied by others, and one behind it that applies another."""
    made = {
        "itself": lay.lookup(5, 0, lay.context_of_coverage(each("b"), [(0, 0)] * 8)),
        "other": lay.lookup(5, 0, lay.context_of_coverage(each("a"), [(0, 2)])),
        "_a_to_c": single(a="c"),
    }
    gsub = lay.layout({"DFLT": {"dflt": (None, ["liga"])}}, {"liga": ["itself", "other"]}, made)
    return whole("Vukhaso Breaks Limit", {"GSUB": gsub})


FONTS = {"breaks-lookups.ttf": breaks_lookups, "breaks-limit.ttf": breaks_limit, "breaks-forms.ttf": breaks_forms, "breaks-hidden.ttf": breaks_hidden, "breaks-kern.ttf": breaks_kern, "breaks-pairs.ttf": breaks_pairs, "special.ttf": special, "scripts.ttf": scripts, "ligated.ttf": ligated}
