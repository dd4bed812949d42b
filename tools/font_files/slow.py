"""Fonts that are made to be slow: each asks for more work, or more glyphs, than a text is worth. `FONTS` has a function for each, which
answers the font, a line of text and the options that it is meant for."""

from . import apple, cff
from . import layout as lay
from . import opentype as ot
from . import variable
from .glyphs import CODES, NAMES, NUMBERED, advance, g, glyphs, tables
from .layout import IGNORE_MARKS
from .opentype import long_numbers, numbers

# As many places as an offset of 16 bits reaches past.
MANY = 32_000
EVERYTHING = numbers(2, 1, 0, 0xFFFF, 0)
MAPPED = {code: g(name) for code, name in CODES.items()}


def font(more):
    groups = {(3, 10): ot.group_mapping(MAPPED)}
    return ot.font({**tables(NAMES, "Slow"), "post": ot.post(NAMES, NUMBERED), "cmap": ot.cmap(groups), **more})


def shared(count, data):
    """A list of offsets that all lead to one table."""
    return numbers(count, *[2 + 2 * count] * count) + data


def layout(lookups, tags=("liga",), used=None):
    """A layout table of a list of lookups, of which each feature has all, or those of some numbers."""
    chosen = range(int.from_bytes(lookups[:2], "big")) if used is None else used
    feature = numbers(0, len(chosen), *chosen)
    system = numbers(0, 0xFFFF, len(tags), *range(len(tags)))
    scripts = numbers(1) + b"DFLT" + numbers(8, 4, 0) + system
    start = 2 + 6 * len(tags)
    features = numbers(len(tags)) + b"".join(tag.encode() + numbers(start) for tag in tags) + feature
    return numbers(1, 0, 10, 10 + len(scripts), 10 + len(scripts) + len(features)) + scripts + features + lookups


def listed(*lookups):
    return ot.table(len(lookups), *ot.offsets(*lookups))


def actions(count, lookup, place=0):
    return [(place, lookup)] * count


def calling(depth, each):
    """Contexts of one letter, of which each calls the next one several times."""
    rows = [lay.lookup(5, 0, lay.context_of_coverage([glyphs("a")], actions(each, at + 1))) for at in range(depth)]
    return font({"GSUB": layout(listed(*rows, lay.lookup(1, 0, lay.by_difference(glyphs("a"), 0))), used=[0])})


def calls_of_calls():
    return calling(60, 100), "a" * 20, []


def calls_itself():
    looped = lay.lookup(5, 0, lay.context_of_coverage([glyphs("a")], actions(8, 0)))
    return font({"GSUB": layout(listed(looped))}), "a" * 20, []


def many_calls():
    inner = lay.lookup(1, 0, lay.by_difference(glyphs("a"), 0))
    outer = numbers(5, 0, 1, 8, 3, 1, 15_000, 8 + 4 * 15_000) + numbers(*[0, 0] * 15_000) + lay.coverage(glyphs("a"))
    return font({"GSUB": layout(listed(inner, outer), used=[1])}), "a" * 100, []


def many_lookups():
    """Contexts over every glyph, which look at 60 glyphs and fail at the last."""
    wide = [range(0, len(NAMES))] * 60
    context = lay.chained_of_coverage([], [*wide, glyphs("Z")], [], [])
    return font({"GSUB": layout(shared(8000, lay.lookup(6, 0, context)))}), "abcdefgh" * 12, []


def many_features():
    tags = [f"{at:04}" for at in range(1, 5000)]
    inner = shared(5000, lay.lookup(1, 0, lay.by_difference(glyphs("a"), 0)))
    return font({"GSUB": layout(inner, tags)}), "abc" * 30, ["--features=" + ",".join(tags[:400])]


def grows():
    """Each lookup puts a hundred letters for one."""
    more = lay.lookup(2, 0, lay.sequences({g("a"): [g("a")] * 100}))
    return font({"GSUB": layout(shared(30, more))}), "a" * 50, []


def grows_in_calls():
    more = lay.lookup(2, 0, lay.sequences({g("a"): [g("a")] * 60}))
    context = lay.lookup(5, 0, lay.context_of_coverage([glyphs("a")], actions(60, 0)))
    return font({"GSUB": layout(listed(more, context), used=[1])}), "a" * 50, []


def inserts():
    """Apple's insertion of 31 letters behind each, again and again."""
    more = apple.machine({g("a"): 4}, [[0, 0, 0, 0, 1]] * 2, [(0, 0, apple.NO, apple.NO), (0, 31 << 5, 0, apple.NO)], numbers(*[g("a")] * 31))
    subtables = [(apple.INSERTION, apple.ALL_DIRECTIONS, 1, more)] * 8
    return font({"morx": apple.morx(apple.chain(1, [(1, 2, 1, 0xFFFF_FFFF)], subtables))}), "a" * 50, []


def many_ligatures():
    """A set of ligatures that differ from the text in their last component."""
    ligature = numbers(g("b"), 64, *[g("a")] * 62, g("Z"))
    covered = lay.coverage(glyphs("a"))
    subtable = numbers(1, 8, 1, 8 + len(covered)) + covered + shared(MANY - 100, ligature)
    return font({"GSUB": layout(listed(lay.lookup(4, IGNORE_MARKS, subtable)))}), "a" * 200, []


def many_rules():
    rule = lay.rule([*[g("a")] * 60, g("Z")], [])
    covered = lay.coverage(glyphs("a"))
    subtable = numbers(1, 8, 1, 8 + len(covered)) + covered + shared(MANY - 100, rule)
    return font({"GSUB": layout(listed(lay.lookup(5, 0, subtable)))}), "a" * 200, []


def many_subtables():
    inner = lay.context_of_coverage([glyphs("a"), glyphs("Z")], [])
    lookup = numbers(5, 0, MANY - 100, *[6 + 2 * (MANY - 100)] * (MANY - 100)) + inner
    return font({"GSUB": layout(listed(lookup))}), "a" * 200, []


def extends_itself():
    subtable = numbers(1, 7) + long_numbers(0)
    return font({"GSUB": layout(listed(lay.lookup(7, 0, subtable)))}), "abc", []


def many_marks():
    on_bases = lay.marks_on({g("acute"): (0, lay.anchor(0, 0))}, {g("a"): [lay.anchor(1, 1)]})
    positions = {"GPOS": layout(shared(100, lay.lookup(4, 0, on_bases)), ["mark"])}
    classes = {"GDEF": lay.gdef({g("a"): 1, g("acute"): 3}, {g("acute"): 1}, [glyphs("acute")])}
    return font({**positions, **classes}), "x" + "\u0301" * 600, []


def long_cursive():
    ends = {g(name): (lay.anchor(0, 0), lay.anchor(advance(name), 30_000)) for name in "abc"}
    rows = [lay.lookup(3, flag, lay.cursive(ends)) for flag in (0, 1)]
    return font({"GPOS": layout(listed(*rows), ["curs"])}), "abc" * 500, []


def many_kern_tables():
    subtable = numbers(0, 14 + 6, 1, 1, 6, 0, 0, g("a"), g("b"), 1)
    return font({"kern": numbers(0, 3000) + subtable * 3000}), "ab" * 30, []


def many_groups():
    rows = b"".join(long_numbers(2 * at, 2 * at, at & 0x3F) for at in range(60_000))
    mapping = numbers(12, 0) + long_numbers(16 + len(rows), 0, 0xFFFFFFFF) + rows
    return font({"cmap": ot.cmap({(3, 10): mapping})}), "abcdefgh" * 30, []


def unsorted_groups():
    """Groups of characters that fall."""
    rows = b"".join(long_numbers(2 * at, 2 * at, at & 0x3F) for at in reversed(range(100_000)))
    mapping = numbers(12, 0) + long_numbers(16 + len(rows), 0, 100_000) + rows
    return font({"cmap": ot.cmap({(3, 10): mapping})}), "abcdefgh" * 3, []


def swapped_groups():
    """200,000 groups in order but for the last two."""
    starts = [*range(199_998), 199_999, 199_998]
    rows = b"".join(long_numbers(5 * at, 5 * at, at % 50) for at in starts)
    mapping = numbers(12, 0) + long_numbers(16 + len(rows), 0, len(starts)) + rows
    line = "".join(chr(5 * at) for at in range(20, 199_998, 1_000) if not 0xD800 <= 5 * at < 0xE000)
    return font({"cmap": ot.cmap({(3, 10): mapping})}), line[:100], []


def shared_sequences():
    """Eight variation selectors with the same characters, of which there are 60,000."""
    rows = long_numbers(60_000) + b"".join((3 * at).to_bytes(3, "big") + b"\0" for at in range(60_000))
    selectors = [0xFE00 + at for at in range(8)]
    start = 10 + 11 * len(selectors)
    records = b"".join(code.to_bytes(3, "big") + long_numbers(start, 0) for code in selectors)
    sequences = numbers(14) + long_numbers(start + len(rows), len(selectors)) + records + rows
    line = "".join(chr(0x61 + at % 26) + chr(selectors[at % 8]) for at in range(1_000))
    return font({"cmap": ot.cmap({(3, 10): ot.group_mapping(MAPPED), (0, 5): sequences})}), line, []


def unsorted_classes():
    """Ranges of classes that fall."""
    rows = b"".join(numbers(at, at, 3) for at in reversed(range(65_535)))
    return font({"GDEF": numbers(1, 0, 12, 0, 0, 0) + numbers(2, 65_535) + rows}), "abcdefgh" * 3, []


def charstrings(text, shared_routines, own):
    names = [".notdef", "a"]
    made = cff.cff("Slow", names, {".notdef": "endchar", "a": text}, shared_routines, own, (0, 0, 1, 1))
    more = {tag: data for tag, data in tables(names, "Slow").items() if tag not in ("glyf", "loca", "maxp")}
    return ot.font({**more, "maxp": ot.maxp(2, outlines=False), "post": ot.post(), "CFF ": made,
                    "cmap": ot.cmap({(3, 1): ot.segment_mapping({0x61: 1})})}, b"OTTO")


def routines_of_routines():
    """Each subroutine calls the next one 50 times."""
    own = [f"{f'{at + 1 - 107} callsubr ' * 50}return" for at in range(9)] + ["1 1 rlineto return"]
    return charstrings("0 0 rmoveto -107 callsubr endchar", [], own), "a" * 4, ["--show-extents"]


def routine_calls_itself():
    return charstrings("0 0 rmoveto -107 callgsubr endchar", ["-107 callgsubr -107 callgsubr return"], []), "a" * 20, ["--show-extents"]


def glyph_of_itself():
    more = tables(NAMES, "Slow")
    parts = [(g("a"), 0, 0)] * 60
    glyf, loca = ot.glyf_and_loca([ot.composite((0, 0, 10, 10), parts) for _ in NAMES])
    return font({**more, "glyf": glyf, "loca": loca}), "a" * 20, ["--show-extents"]


def varied(more):
    """A font with one axis, at whose end a line is shaped."""
    return font({"fvar": variable.fvar([("wght", (0, 0, 100))], []), **more})


def many_regions():
    """An advance of each glyph that has a delta for each of 8,000 parts of an axis."""
    count = 8_000
    regions = numbers(1, count) + numbers(0, 0x4000, 0x4000) * count
    row = bytes(at % 3 for at in range(count))
    deltas = numbers(len(NAMES), 0, count, *range(count)) + row * len(NAMES)
    some = ot.table(1, ot.Offset(regions, 4), 1, ot.Offset(deltas, 4))
    return varied({"HVAR": ot.table(1, 0, ot.Offset(some, 4), *[ot.long_numbers(0)] * 3)}), "abcdefgh" * 1_250, ["--variations=wght=50"]


def many_deltas():
    """Eight letters of 2,000 points, with 4,000 tuples of deltas each."""
    count, tuples = 2_000, 4_000
    drawn = numbers(1, 0, 0, 10, 10, count - 1, 0) + bytes([0x31]) * count
    glyf, loca = ot.glyf_and_loca([drawn] * len(NAMES))
    deltas = variable.packed_deltas([0] * (count + 3) + [1])
    data = b"\0" + deltas + deltas
    heads = numbers(len(data), 0xA000, 0x4000) * tuples
    moved = numbers(tuples, 4 + len(heads)) + heads + data * tuples
    by_glyph = {g(name): moved for name in "abcdefgh"}
    places = [sum(len(by_glyph.get(it, b"")) for it in range(at)) for at in range(len(NAMES) + 1)]
    start = 20 + 4 * len(places)
    head = numbers(1, 0, 1, 0) + long_numbers(start) + numbers(len(NAMES), 1) + long_numbers(start, *places)
    return varied({"glyf": glyf, "loca": loca, "gvar": head + b"".join(by_glyph[at] for at in sorted(by_glyph))}), "abcdefgh" * 12, \
        ["--variations=wght=50"]


FONTS = {make.__name__: make for make in (
    calls_of_calls, calls_itself, many_calls, many_lookups, many_features, grows, grows_in_calls, inserts, many_ligatures, many_rules,
    many_subtables, extends_itself, many_marks, long_cursive, many_kern_tables, many_groups, unsorted_groups, swapped_groups, shared_sequences,
    unsorted_classes,
    routines_of_routines, routine_calls_itself, glyph_of_itself, many_regions, many_deltas)}
