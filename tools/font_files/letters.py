"""`letters.ttf`: each kind of lookup, under a feature of its own or under one that is on by default."""

from . import layout as lay
from . import opentype as ot
from .glyphs import CODES, DIGITS, GLYPH, LOWER, MARKS, NAMES, NUMBERED, UPPER, advance, g, glyphs, tables
from .layout import IGNORE_BASES, IGNORE_LIGATURES, IGNORE_MARKS, RIGHT_TO_LEFT, USE_MARK_SET

X_PLACEMENT, Y_PLACEMENT, X_ADVANCE, X_DEVICE = 1, 2, 4, 16

LIGATURES = ["f_i", "f_f", "f_f_i"]


def calls(order, *rows):
    """The actions of a context: the place of a glyph, and the number of the lookup that is applied there."""
    return [(place, order.index(name)) for place, name in rows]


def each(text):
    """A coverage for each glyph of a text."""
    return [[glyph] for glyph in glyphs(text)]


def contexts(kinds, order, actions):
    """A lookup for each format of context and of chained context, in which `b` follows `a` and `c` or `d` follows `b`."""
    plain, chained = kinds
    a, b, c, d = glyphs("a b c d")
    then, before, after = {a: 1, b: 2, c: 3, d: 3}, {a: 1}, {c: 1, d: 2}
    in_middle, at_start = calls(order, (1, actions)), calls(order, (0, actions))
    return [
        lay.lookup(plain, 0, lay.context_of_glyphs({a: [lay.rule([b, d], in_middle), lay.rule([b, c], in_middle)]})),
        lay.lookup(plain, 0, lay.context_of_classes([a], then, {1: [lay.rule([2, 3], in_middle)]})),
        lay.lookup(plain, 0, lay.context_of_coverage([[a], [b], [c, d]], in_middle)),
        lay.lookup(chained, 0, lay.context_of_glyphs({b: [lay.chained_rule([a], [], [c], at_start)]})),
        lay.lookup(chained, 0, lay.context_of_classes([b], {b: 1}, {1: [lay.chained_rule([1], [], [2], at_start)]}, before, after)),
        lay.lookup(chained, 0, lay.chained_of_coverage(each("a"), each("b"), [[c, d]], at_start)),
    ]


def single(text):
    """A lookup that puts the second of two glyphs for the first."""
    first, second = glyphs(text)
    return lay.lookup(1, 0, lay.by_list({first: second}))


def ligature(flag, rows, **more):
    """A lookup of ligatures, each a text of its components and the glyph that comes for them."""
    sets = {}
    for text, name in rows:
        first, *rest = glyphs(text)
        sets.setdefault(first, []).append((rest, g(name)))
    return lay.lookup(4, flag, lay.ligatures(sets), **more)


SUBSTITUTIONS = ("locl need sin1 sin2 mult altr ligs liga con1 con2 con3 cha1 cha2 cha3 exte reve nest shrt self skba skli mcla mset "
                 "numr dnom b_to_x a_to_vv c_to_D ab_to_E all_to_z").split()


def substitutions():
    contextual = contexts((5, 6), SUBSTITUTIONS, "b_to_x")
    made = [
        single("i dotless"),
        single("x y"),
        lay.lookup(1, 0, lay.by_difference(glyphs("a b c"), 1)),
        lay.lookup(1, 0, lay.by_list({g("a"): g("x"), g("e"): g("q")})),
        lay.lookup(2, 0, lay.sequences({g("w"): glyphs("v v"), g("q"): []})),
        lay.lookup(3, 0, lay.sequences({g("a"): glyphs("A B C")})),
        ligature(0, [("a b c", "D"), ("a b", "E")]),
        ligature(IGNORE_MARKS, [("f f i", "f_f_i"), ("f f", "f_f"), ("f i", "f_i")]),
        *contextual,
        lay.lookup(7, 0, lay.extension(1, lay.by_list({g("a"): g("z")}))),
        lay.lookup(8, 0, lay.reverse_chained([], {g("a"): g("b")}, each("b"))),
        lay.lookup(5, 0, lay.context_of_coverage(each("a b c"), calls(SUBSTITUTIONS, (0, "a_to_vv"), (3, "c_to_D")))),
        lay.lookup(5, 0, lay.context_of_coverage(each("a b c"), calls(SUBSTITUTIONS, (0, "ab_to_E"), (1, "all_to_z")))),
        lay.lookup(5, 0, lay.context_of_coverage(each("a"), calls(SUBSTITUTIONS, (0, "self"), (0, "self")))),
        ligature(IGNORE_BASES, [("acute grave", "below")]),
        ligature(IGNORE_LIGATURES, [("a b", "E")]),
        ligature(1 << 8, [("a acute", "A")]),
        ligature(USE_MARK_SET, [("a below", "B")], mark_set=0),
        lay.lookup(1, 0, lay.by_list({g(digit): g(f"{digit}.numr") for digit in DIGITS})),
        lay.lookup(1, 0, lay.by_difference([g(digit) for digit in DIGITS], g("zero.dnom") - g("zero"))),
        single("b x"),
        lay.lookup(2, 0, lay.sequences({g("a"): glyphs("v v")})),
        single("c D"),
        ligature(0, [("a b", "E")]),
        lay.lookup(1, 0, lay.by_list({glyph: g("z") for glyph in glyphs("b c d")})),
    ]
    features = {name: [name] for name in SUBSTITUTIONS if "_" not in name}
    features["frac"] = ["dnom"]
    return features, dict(zip(SUBSTITUTIONS, made, strict=True))


def marks_of(classes):
    """Marks with their classes. One that stands above is put by its middle at the bottom, and one below by its top."""
    return {g(name): (of, lay.anchor(100, -150 if name == "below" else 550)) for name, of in classes.items()}


def anchors_of_base(name):
    """Where marks stand above and below a letter. Of `e` the anchor is that of a point too, of `o` it moves with the size."""
    middle = advance(name) // 2
    more = {"e": {"point": 1}, "o": {"devices": (lay.device(12, [1, 2], 2), None)}}.get(name, {})
    return [lay.anchor(middle, 600, **more), lay.anchor(middle, -50)]


POSITIONS = "pos1 pos2 posd kern par1 par2 cur1 cur2 mark marl mkmk pcn1 pcn2 pcn3 pch1 pch2 pch3 pext b_up".split()


def positions():
    ends = {g(name): (lay.anchor(0, 0), lay.anchor(advance(name) - 50, 100)) for name in "jkl"}
    on_bases = lay.marks_on(marks_of({"acute": 0, "grave": 0, "below": 1}), {g(name): anchors_of_base(name) for name in "aeou"})
    parts = [[lay.anchor(225, 620), lay.anchor(225, -60)], [lay.anchor(675, 620), lay.anchor(675, -60)]]
    without = [[lay.anchor(225, 640), None], [None, lay.anchor(675, -70)]]
    on_ligatures = lay.marks_on_ligatures(marks_of({"acute": 0, "grave": 0, "below": 1}), {g("f_i"): parts, g("f_f"): without})
    on_marks = lay.marks_on(marks_of({"acute": 0, "grave": 0}), {g("acute"): [lay.anchor(100, 750)], g("grave"): [lay.anchor(100, 760)]})
    pairs = lay.pairs_of_glyphs({g("A"): {g("V"): [-80]}, g("V"): {g("A"): [-80]}}, X_ADVANCE)
    classes = lay.pairs_of_classes(glyphs("T V W"), {g("T"): 1, g("V"): 2, g("W"): 2}, {g("a"): 1, g("e"): 1, g("o"): 2}, [
        [[0], [0], [0]], [[0], [-40], [-60]], [[0], [-30], [-35]]], X_ADVANCE)
    both = lay.pairs_of_glyphs({g("m"): {g("n"): [-30, 15, 30]}}, X_ADVANCE, X_PLACEMENT | X_ADVANCE)
    both_by_class = lay.pairs_of_classes(
        glyphs("m"), {g("n"): 1}, {g("n"): 1}, [[[-5, 5], [-7, 7]], [[0, 0], [0, 0]]], X_ADVANCE, X_ADVANCE)
    by_size = {g(name): [0, *lay.offsets(lay.device(12, [1, -2], form))] for form, name in enumerate("abc", 1)}
    made = [
        lay.lookup(1, 0, lay.one_value(glyphs("a b"), X_PLACEMENT | X_ADVANCE, [10, 20])),
        lay.lookup(1, 0, lay.value_each({g("d"): [30, 0], g("e"): [40, 20]}, Y_PLACEMENT | X_ADVANCE)),
        lay.lookup(1, 0, lay.value_each(by_size, X_PLACEMENT | X_DEVICE)),
        lay.lookup(2, 0, pairs, classes),
        lay.lookup(2, 0, both),
        lay.lookup(2, 0, both_by_class),
        lay.lookup(3, 0, lay.cursive(ends)),
        lay.lookup(3, lay.RIGHT_TO_LEFT, lay.cursive(ends)),
        lay.lookup(4, 0, on_bases),
        lay.lookup(5, 0, on_ligatures),
        lay.lookup(6, 0, on_marks),
        *contexts((7, 8), POSITIONS, "b_up"),
        lay.lookup(9, 0, lay.extension(1, lay.one_value(glyphs("a"), Y_PLACEMENT, [50]))),
        lay.lookup(1, 0, lay.one_value(glyphs("b"), Y_PLACEMENT, [50])),
    ]
    features = {name: [name] for name in POSITIONS if "_" not in name and name != "marl"}
    features["mark"] = ["mark", "marl"]
    return features, dict(zip(POSITIONS, made, strict=True))


def layout_of(features, lookups, systems):
    """The table, where the languages have what all have, and the features that are named for them."""
    special = {tag for required, more in systems.values() for tag in [required, *more]}
    common = [tag for tag in features if tag not in special]
    of_all = {"dflt": (None, common), **{tag: (required, [*common, *more]) for tag, (required, more) in systems.items()}}
    return lay.layout({"DFLT": {"dflt": of_all["dflt"]}, "latn": of_all}, features, lookups)


def letters():
    by_code = {code: g(name) for code, name in CODES.items()}
    glyph_classes = {g(name): 1 for name in UPPER + LOWER + ["eacute", "dotless", "a.alt"]}
    glyph_classes.update({g(name): 2 for name in LIGATURES} | {g(name): 3 for name in MARKS})
    return ot.font({
        **tables(NAMES, "Vukhaso Letters"),
        "post": ot.post(NAMES, NUMBERED),
        "cmap": ot.cmap({(0, 5): ot.variation_mapping({0xFE00: ([], {0x61: g("a.alt")}), 0xFE01: ([0x61], {})}),
                         (3, 1): ot.segment_mapping({code: glyph for code, glyph in by_code.items() if code < 0x10000}),
                         (3, 10): ot.group_mapping(by_code)}),
        "GDEF": lay.gdef(glyph_classes, {g("acute"): 1, g("grave"): 1, g("below"): 2}, [glyphs("below")]),
        "GSUB": layout_of(*substitutions(), {"TRK ": (None, ["locl"]), "DEU ": ("need", [])}),
        "GPOS": layout_of(*positions(), {}),
    })
