"""Small fonts whose lookups are drawn at random, of each kind and format, with each flag, and with lookups that apply others.

They mean nothing, and that is what they are for: what no font maker would write is asked of a shaper too. Letters a to l are bases,
x to z ligatures, and five marks have two classes.
"""

import random
from functools import partial

from . import layout as lay
from . import opentype as ot

LETTERS, LIGATED, MARKS, OTHERS = "abcdefghijkl", "xyz", (0x300, 0x301, 0x316, 0x323, 0x345), 8
FLAGS = (0, 0, 0, 0, lay.IGNORE_MARKS, lay.IGNORE_MARKS, lay.IGNORE_BASES, lay.IGNORE_LIGATURES, 1 << 8, 2 << 8, lay.USE_MARK_SET)
SUBSTITUTING, PLACING = ("ccmp", "rlig", "calt", "liga", "clig"), ("kern", "mark", "mkmk", "dist", "curs")
ACTED, NESTED = 9, 5

BASES = list(range(1, 1 + len(LETTERS)))
WIDE = list(range(BASES[-1] + 1, BASES[-1] + 1 + len(LIGATED)))
ON_BASES = list(range(WIDE[-1] + 1, WIDE[-1] + 1 + len(MARKS)))
REST = list(range(ON_BASES[-1] + 1, ON_BASES[-1] + 1 + OTHERS))
ALL = [*BASES, *WIDE, *ON_BASES, *REST]


class Draw(random.Random):
    """What lookups are made of."""

    def glyph(self):
        return self.choice(self.choice((BASES, BASES, BASES[:5], WIDE, ON_BASES, REST)))

    def glyphs(self, low, high):
        return [self.glyph() for _ in range(self.randint(low, high))]

    def cover(self, size=4):
        return sorted({self.glyph() for _ in range(size)} | {self.choice(BASES)})

    def by_class(self, count=2):
        return {glyph: self.randint(1, count) for glyph in self.cover(9)}

    def value(self, fields):
        return [self.randrange(-60, 61, 10) for at in range(4) if fields >> at & 1]

    def actions(self, length, count):
        return [(self.randrange(length), self.randrange(count)) for _ in range(self.choice((1, 1, 2)))]


def sets_of(draw, keys, make):
    return {key: [make() for _ in range(draw.choice((1, 2, 2, 6)))] for key in keys}


def context(draw, kinds, count):
    """A context or a chained context, of any format: its kind and its table."""
    is_chained, form = draw.random() < 0.6, draw.randint(1, 3)

    def rule(part):
        then = [part() for _ in range(draw.randint(0, 2))]
        actions = draw.actions(len(then) + 1, count)
        if not is_chained:
            return lay.rule(then or [part()], actions if then else draw.actions(2, count))
        return lay.chained_rule([part() for _ in range(draw.randint(0, 2))], then, [part() for _ in range(draw.randint(0, 2))], actions)

    if form == 1:
        table = lay.context_of_glyphs(sets_of(draw, draw.cover(), lambda: rule(draw.glyph)))
    elif form == 2:
        of = draw.by_class()
        rules = sets_of(draw, range(0, 3), lambda: rule(lambda: draw.randint(0, 2)))
        table = lay.context_of_classes(draw.cover(8), of, rules, *([draw.by_class(), draw.by_class()] if is_chained else []))
    else:
        sets = [draw.cover(6) for _ in range(draw.randint(1, 3))]
        around = [[draw.cover(8) for _ in range(draw.randint(0, 2))] for _ in range(2)]
        actions = draw.actions(len(sets), count)
        table = lay.chained_of_coverage(around[0], sets, around[1], actions) if is_chained else lay.context_of_coverage(sets, actions)
    return kinds[is_chained], table


def substitution(draw, count, may_nest):
    """The kind and the table of a lookup of `GSUB`."""
    kind = draw.choice((1, 1, 2, 3, 4, 4, 4, 8) if not may_nest else (1, 2, 4, 4, 5, 5, 5, 5, 8))
    covered = draw.cover()
    if kind == 1:
        return 1, lay.by_difference(covered, draw.randint(1, 3)) if draw.random() < 0.3 else lay.by_list({at: draw.glyph() for at in covered})
    if kind == 2:
        return 2, lay.sequences({at: draw.glyphs(0, 3) for at in covered})
    if kind == 3:
        return 3, lay.sequences({at: draw.glyphs(1, 3) for at in covered})
    if kind == 4:
        return 4, lay.ligatures({at: [(draw.glyphs(1, 2), draw.choice(WIDE + REST)) for _ in range(2)] for at in covered})
    if kind == 8:
        around = [[draw.cover(6) for _ in range(draw.randint(0, 2))] for _ in range(2)]
        return 8, lay.reverse_chained(around[0], {at: draw.glyph() for at in covered}, around[1])
    return context(draw, (5, 6), count)


def anchor(draw):
    return lay.anchor(draw.randrange(0, 600, 20), draw.randrange(-100, 800, 20))


def anchors(draw, count):
    return [anchor(draw) if draw.random() < 0.85 else None for _ in range(count)]


def position(draw, count, may_nest):
    """The kind and the table of a lookup of `GPOS`."""
    kind = draw.choice((1, 2, 2, 3, 4, 4, 5, 6) if not may_nest else (1, 2, 2, 2, 3, 3, 4, 4, 5, 6, 6, 7, 7))
    covered, marks = draw.cover(), {at: (draw.randint(0, 1), anchor(draw)) for at in ON_BASES}
    marks[ON_BASES[0]], marks[ON_BASES[1]] = (0, anchor(draw)), (1, anchor(draw))
    fields, second = draw.randint(1, 15), draw.choice((0, 0, 4, 5))
    if kind == 1:
        return 1, lay.one_value(covered, fields, draw.value(fields)) if draw.random() < 0.5 else lay.value_each({at: draw.value(fields) for at in covered}, fields)
    if kind == 2 and draw.random() < 0.5:
        return 2, lay.pairs_of_glyphs({at: {to: draw.value(fields) + draw.value(second) for to in draw.cover(5)} for at in covered}, fields, second)
    if kind == 2:
        values = [[draw.value(fields) + draw.value(second) for _ in range(3)] for _ in range(3)]
        first = draw.by_class() | {BASES[0]: 2}
        return 2, lay.pairs_of_classes(draw.cover(8), first, draw.by_class() | {BASES[1]: 2}, values, fields, second)
    if kind == 3:
        return 3, lay.cursive({at: anchors(draw, 2) for at in BASES[:7] + WIDE})
    if kind == 4:
        return 4, lay.marks_on(marks, {at: anchors(draw, 2) for at in BASES + REST})
    if kind == 5:
        return 5, lay.marks_on_ligatures(marks, {at: [anchors(draw, 2) for _ in range(draw.randint(2, 3))] for at in WIDE + REST[:4]})
    if kind == 6:
        return 6, lay.marks_on(marks, {at: anchors(draw, 2) for at in ON_BASES})
    return context(draw, (7, 8), count)


def layout_table(draw, make, tags, extension, directions):
    """Lookups for each feature, and some that only contexts apply."""
    lookups = {}
    for number in range(ACTED + NESTED):
        kind, table = make(draw, ACTED + NESTED, number < ACTED)
        flags = draw.choice(FLAGS) | (draw.choice(directions) if kind == 3 else 0)
        sets = {"mark_set": 0} if flags & lay.USE_MARK_SET else {}
        more = [table]
        if draw.random() < 0.15:
            kind, more = extension, [lay.extension(kind, table)]
        lookups[f"{number:02}"] = lay.lookup(kind, flags, *more, **sets)
    features = {}
    for number in range(ACTED):
        features.setdefault(tags[number % len(tags)], []).append(f"{number:02}")
    return lay.layout({"DFLT": {"dflt": (None, list(features))}}, features, lookups)


def drawn(seed):
    draw = Draw(seed)
    count = ALL[-1] + 1
    names = [".notdef", *LETTERS, *LIGATED, *(f"mark{at}" for at in range(len(MARKS))), *(f"other{at}" for at in range(OTHERS))]
    codes = dict(zip([*map(ord, LETTERS + LIGATED), *MARKS], [*BASES, *WIDE, *ON_BASES]))
    rows = [(400 + 10 * at, 0) for at in range(count)]
    glyf, loca = ot.glyf_and_loca([ot.square(20, 0, 300, 400 + at) for at in range(count)])
    classes = {at: 1 for at in BASES} | {at: 2 for at in WIDE} | {at: 3 for at in ON_BASES} | {at: draw.choice((0, 1, 2, 3)) for at in REST}
    has_gdef = seed % 4 != 3
    gdef = {"GDEF": lay.gdef({at: of for at, of in classes.items() if of}, {ON_BASES[0]: 1, ON_BASES[1]: 1, ON_BASES[2]: 2}, [ON_BASES[1:4]])}
    return ot.font({
        "head": ot.head(1000, (0, 0, 700, 700)), "hhea": ot.measures(800, -200, 700, count), "maxp": ot.maxp(count),
        "hmtx": ot.advances(rows, count), "glyf": glyf, "loca": loca, "post": ot.post(names), "OS/2": ot.os2(0x20, 0xFFFF, 800, -200),
        "name": ot.name_table(f"Vukhaso Drawn {seed}"), "cmap": ot.cmap({(3, 1): ot.segment_mapping(codes)}),
        "GSUB": layout_table(draw, substitution, SUBSTITUTING, 7, (0,)),
        "GPOS": layout_table(draw, position, PLACING, 9, (0, lay.RIGHT_TO_LEFT)), **(gdef if has_gdef else {}),
    })


# Those of the first hundred that show most bugs.
SEEDS = range(14)
FONTS = {f"drawn-{seed:02}.ttf": partial(drawn, seed) for seed in SEEDS}
