"""Fonts whose layout is said by rules, as `0930 094D > reph`: the characters of a script, and the features of its shaper.

A name of four to six hexadecimal digits stands for the glyph of that character; any other name is a glyph without a character. Rules
of one lookup are of one kind, which their shape says: `a > b` is a single substitution, `a b > c` a ligature, `a > b c` and `a >`
multiple ones, `a > b / c` an alternate one, and `a [b] c > d` a single substitution of what is in brackets, where the rest stands
around it, or a ligature where several glyphs are in brackets. A number before the rules of a lookup is its flags.
"""

import re
import unicodedata

from . import layout as lay
from . import opentype as ot

X_PLACEMENT, Y_PLACEMENT, X_ADVANCE, Y_ADVANCE = 1, 2, 4, 8
BASE, LIGATURE, MARK = 1, 2, 3
CIRCLE, SPACE, JOINERS = 0x25CC, 0x20, (0x200C, 0x200D)


def is_code(name):
    return bool(re.fullmatch("[0-9A-F]{4,6}", name))


def glyph_name(name):
    return ("uni" if len(name) == 4 else "u") + name if is_code(name) else name


def code(number):
    return f"{number:04X}"


def assigned(first, last):
    """The characters between two code points."""
    return [number for number in range(first, last + 1) if unicodedata.category(chr(number)) not in ("Cn", "Cs", "Co")]


def is_mark_code(number):
    return unicodedata.category(chr(number)) in ("Mn", "Me")


class Glyphs:
    """The glyphs of a font: those of its characters, and those that its rules name."""

    def __init__(self, codes, features):
        names = [code(number) for number in dict.fromkeys([SPACE, *JOINERS, CIRCLE, *codes])]
        for lookups in features.values():
            for rules in lookups:
                names += [name for rule in rules if isinstance(rule, str) for name in re.findall(r"[\w.]+", rule)]
        self.names = [".notdef", *dict.fromkeys(names)]
        self.places = {name: at for at, name in enumerate(self.names)}
        self.codes = {int(name, 16): at for name, at in self.places.items() if is_code(name)}
        self.of_codes = {int(name, 16): at for name, at in self.places.items()
                         if is_code(name) and int(name, 16) in {SPACE, *JOINERS, CIRCLE, *codes}}

    def of(self, text):
        return [self.places[name] for name in re.findall(r"[\w.]+", text)]

    def marks(self):
        return [at for name, at in self.places.items() if is_code(name) and is_mark_code(int(name, 16))]

    def advance(self, at):
        return 0 if self.names[at] in map(code, JOINERS) else 240 + at % 7 if at in self.marks_set() else 500 + 3 * at

    def outline(self, at):
        if self.names[at] in (".notdef", code(SPACE)):
            return b""
        if at in self.marks_set():
            return ot.square(30 + at % 11, -180 if at % 3 == 0 else 560 + at % 17, 100 + at % 13, 90 + at % 5)
        return ot.square(20 + at % 9, -(at % 5), self.advance(at) - 50, 400 + at % 50)

    def marks_set(self):
        if not hasattr(self, "_marks"):
            self._marks = set(self.marks())
        return self._marks


def split(rule):
    left, right = rule.split(">")
    return left.strip(), right.strip()


class Substitutions:
    """The lookups of rules, with those that contexts apply at their end."""

    def __init__(self, glyphs, features):
        self.glyphs, self.lookups, self.nested, self.of = glyphs, [], [], {}
        self.total = sum(map(len, features.values()))
        for tag, lookups in features.items():
            self.of[tag] = [f"{len(self.lookups) + at:03}" for at in range(len(lookups))]
            for rules in lookups:
                self.lookups.append(self.lookup(rules))

    def table(self, scripts):
        lookups = {f"{at:03}": data for at, data in enumerate([*self.lookups, *self.nested])}
        return lay.layout({tag: {"dflt": (None, list(self.of))} for tag in scripts}, self.of, lookups)

    def lookup(self, rules):
        flags = rules[0] if isinstance(rules[0], int) else 0
        rules = [rule for rule in rules if isinstance(rule, str)]
        g, (left, right) = self.glyphs, split(rules[0])
        if "[" in left:
            return lay.lookup(6, flags, *map(self.context, rules))
        if "/" in right:
            return lay.lookup(3, flags, lay.sequences({g.of(left)[0]: g.of(right) for left, right in map(split, rules)}))
        if len(g.of(left)) > 1:
            sets = {}
            for left, right in map(split, rules):
                first, *rest = g.of(left)
                sets.setdefault(first, []).append((rest, g.of(right)[0]))
            return lay.lookup(4, flags, lay.ligatures(sets))
        if len(g.of(right)) != 1:
            return lay.lookup(2, flags, lay.sequences({g.of(left)[0]: g.of(right) for left, right in map(split, rules)}))
        return lay.lookup(1, flags, lay.by_list({g.of(left)[0]: g.of(right)[0] for left, right in map(split, rules)}))

    def context(self, rule):
        left, right = split(rule)
        before, inside, after = ([[at] for at in self.glyphs.of(part)] for part in re.split(r"[\[\]]", left))
        (first, *rest), whole = [at for at, in inside], self.glyphs.of(right)[0]
        nested = (4, lay.ligatures({first: [(rest, whole)]})) if rest else (1, lay.by_list({first: whole}))
        self.nested.append(lay.lookup(nested[0], 0, nested[1]))
        action = (0, self.total + len(self.nested) - 1)
        return lay.chained_of_coverage(before[::-1], inside, after, [action])


def positions(glyphs, scripts, features):
    """Marks stand on all other glyphs and on each other, `kern` and `dist` change advances, `curs` joins some letters."""
    marks = glyphs.marks()
    bases = [at for at in range(1, len(glyphs.names)) if at not in marks]
    placed = {at: (0, lay.anchor(glyphs.advance(at) // 2, 500)) for at in marks}
    made = {}
    if marks:
        on_bases = lay.marks_on(placed, {at: [lay.anchor(glyphs.advance(at) // 2, 700 + at)] for at in bases})
        made["mark"] = lay.lookup(4, 0, on_bases)
        made["abvm"] = made["blwm"] = made["mark"]
        made["mkmk"] = lay.lookup(6, 0, lay.marks_on(placed, {at: [lay.anchor(glyphs.advance(at) // 2, 650)] for at in marks}))
    moved = bases[6:12]
    made["kern"] = lay.lookup(2, 0, lay.pairs_of_glyphs({moved[0]: {moved[1]: [-40]}}, X_ADVANCE))
    made["dist"] = lay.lookup(1, 0, lay.one_value([*moved[2:4], *marks[:3]], X_ADVANCE, [60]))
    made["curs"] = lay.lookup(3, lay.RIGHT_TO_LEFT, lay.cursive({at: (lay.anchor(glyphs.advance(at), 0), lay.anchor(0, 90)) for at in moved[4:]}))
    made = {tag: data for tag, data in made.items() if tag in features}
    return lay.layout({tag: {"dflt": (None, list(made))} for tag in scripts}, {tag: [tag] for tag in made}, made)


def font(family, codes, scripts, features, placed=("mark", "mkmk", "abvm", "blwm", "dist", "kern"), has_gdef=True, more=None, outlined=8):
    """A font of some characters, with the features of its rules and of positions, for some scripts of OpenType. So many glyphs have an
    outline: letters a square, and marks one above them or below."""
    glyphs = Glyphs(codes, features)
    count = len(glyphs.names)
    rows = [(glyphs.advance(at), 0) for at in range(count)]
    small = {number: at for number, at in glyphs.of_codes.items() if number < 0x10000}
    maps = {(3, 1): ot.segment_mapping(small)}
    if len(small) < len(glyphs.of_codes):
        maps[3, 10] = ot.group_mapping(glyphs.of_codes)
    outlines = [glyphs.outline(at) for at in range(min(count, outlined))]
    glyf, loca = ot.glyf_and_loca(outlines + [b""] * (count - len(outlines)))
    tables = {
        "head": ot.head(1000, (0, -200, 900, 800)), "hhea": ot.measures(800, -200, 900, count), "maxp": ot.maxp(count),
        "hmtx": ot.advances(rows, count), "glyf": glyf, "loca": loca, "post": ot.post([glyph_name(name) for name in glyphs.names]),
        "OS/2": ot.os2(0x20, 0xFFFF, 800, -200), "name": ot.name_table(family), "cmap": ot.cmap(maps),
    }
    if has_gdef:
        ligatures = {at: LIGATURE for name, at in glyphs.places.items() if "_" in name}
        tables["GDEF"] = lay.gdef({at: BASE for at in range(1, count)} | ligatures | {at: MARK for at in glyphs.marks()},
                                  {at: 1 for at in glyphs.marks()[:1]} or {1: 0}, [glyphs.marks()[:1] or [1]])
    if features:
        tables["GSUB"] = Substitutions(glyphs, features).table(scripts)
    if placed:
        tables["GPOS"] = positions(glyphs, scripts, placed)
    return ot.font(tables | (more or {}))
