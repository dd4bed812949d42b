"""Random fonts of a few glyphs and a few lookups, for `breaks`. The lookups are written in the language of feature files, and fontTools makes
tables of them; it is Debian's, unpacked and not installed."""

import io
import sys
from dataclasses import dataclass, field

from sources import FETCHED, unpacked

sys.path.insert(0, str(unpacked(["python3-fonttools"], FETCHED / "packages")[0] / "usr/lib/python3/dist-packages"))

from fontTools.feaLib.builder import addOpenTypeFeaturesFromString  # noqa: E402
from fontTools.fontBuilder import FontBuilder  # noqa: E402
from fontTools.pens.ttGlyphPen import TTGlyphPen  # noqa: E402
from fontTools.ttLib import TTFont, newTable  # noqa: E402
from fontTools.ttLib.tables._k_e_r_n import KernTable_format_0  # noqa: E402

BASES = list("abcdefgh")
MARKS = ["m", "n", "acute", "circumflex"]
ALTERNATES = [f"x{number}" for number in range(1, 7)]
JOINERS = {0x200D: "zwj", 0x200C: "zwnj"}
EMPTY = ["space", *JOINERS.values()]
ORDER = [".notdef", *EMPTY, *BASES, *MARKS, "one", "two", *ALTERNATES]

SUBSTITUTIONS = "single multiple ligature ligature multiple context chained chained alternate reverse".split()
POSITIONS = "adjustment pair pair cursive cursive mark_to_base mark_to_ligature mark_to_mark context chained".split()
# What contexts apply.
NESTED_SUBSTITUTIONS, NESTED_POSITIONS = "single multiple ligature".split(), "adjustment pair cursive mark_to_base".split()

VALUES = ["-20", "30", "<0 0 -40 0>", "<10 5 0 0>", "<7 0 14 0>", "0"]
POSITION_FEATURES = ["kern", "mark", "mkmk", "curs", "dist"]


@dataclass(frozen=True)
class Script:
    """Letters and marks of a script, its tag in fonts and in ISO 15924, and the features that its shaper applies."""

    name: str
    font_tag: str
    tag: str
    letters: tuple
    marks: tuple
    features: tuple
    directions: tuple

    def characters(self):
        """The glyph of each character."""
        glyphs = [*BASES, "one", "two"]
        return dict(zip(self.letters, glyphs)) | dict(zip(self.marks, [*MARKS, *glyphs[len(self.letters):]])) | JOINERS | {0x20: "space"}


def script(name, tags, letters, marks, features, directions):
    font_tag, tag = tags.split()
    codes = [tuple(int(code, 16) for code in codes.split()) for codes in (letters, marks)]
    return Script(name, font_tag, tag, *codes, tuple(features.split()), tuple(directions.split()))


SCRIPTS = {row.name: row for row in [
    script("Latin", "latn latn", "61 62 63 64 65 66 67 68", "6d 6e 301", "liga calt ccmp rlig", "ltr ltr rtl"),
    script("fractions", "latn latn", "31 32 2044 61 62 33 34", "", "frac numr dnom liga", "ltr rtl"),
    script("vertical", "latn latn", "61 62 63 64 65 66", "301", "liga calt vert ccmp", "ttb btt"),
    script("Arabic", "arab arab", "628 627 644 62f 640 6a9 621 31", "64e 651", "isol init medi fina liga rlig calt ccmp", "rtl rtl ltr"),
    script("Syriac", "syrc syrc", "710 715 712 718 716 72a 725 70f", "730 73c", "isol init medi fina fin2 fin3 med2 liga calt", "rtl"),
    script("Mongolian", "mong mong", "1820 1828 182d 1835 180a 180e 1873 202f", "180b 180c", "isol init medi fina calt rlig", "ltr"),
    script("Devanagari", "dev2 deva", "915 930 907 924 905 92f", "94d 93f 93e 902",
           "rphf half blwf pref abvs pres psts init haln akhn calt liga ccmp nukt cjct", "ltr"),
    script("Bengali", "beng beng", "995 9b0 985 9a4 9af 964", "9cd 9bf 9c7 9be", "rphf half blwf pref pres psts init haln akhn calt", "ltr"),
    script("Khmer", "khmr khmr", "1780 179a 1793 17a2 61", "17d2 17c1 17b6 17c4", "pref blwf abvf pstf pres blws abvs psts clig liga calt cfar", "ltr"),
    script("Myanmar", "mym2 mymr", "1000 101b 1004 1019 1025", "103a 1039 103c 1031", "rphf pref blwf pstf pres abvs blws psts liga calt", "ltr"),
    script("Balinese", "bali bali", "1b13 1b27 1b05 1b31 1b50", "1b44 1b3e 1b35 1b36",
           "isol init medi fina rphf pref blwf pres abvs psts haln calt rlig", "ltr"),
    script("Tibetan", "tibt tibt", "f40 f42 f0b f66", "f90 f71 f72 f7c", "abvs blws calt liga ccmp", "ltr"),
    script("Hangul", "hang hang", "1100 1161 11a8 ac00 ac01 115f 1160 1102", "302e", "ljmo vjmo tjmo calt ccmp", "ltr"),
    script("Thai", "thai thai", "e01 e1b e33 e40 e0d e0e", "e31 e48 e38 e4d", "liga calt ccmp", "ltr"),
    script("Hebrew", "hebr hebr", "5d0 5d1 5e9 5d5", "5bc 5c1 5b7", "liga calt ccmp", "rtl"),
    script("NKo", "nko nkoo", "7ca 7cb 7c1 7e8", "7eb 7ec", "isol init medi fina calt rlig", "rtl"),
]}


@dataclass
class RandomFont:
    """Lookups over some of the glyphs of a script's characters, and a `kern` table as often as not."""

    rng: object
    script: Script
    glyphs: list = field(default_factory=list)
    marks: list = field(default_factory=list)
    mark_classes: list = field(default_factory=list)
    lookups: list = field(default_factory=list)
    names: int = 0

    def __post_init__(self):
        chosen = list(dict.fromkeys(self.script.characters()[code] for code in self.script.letters))
        letters = self.rng.sample(chosen, self.rng.randint(2, min(5, len(chosen))))
        marks = [self.script.characters()[code] for code in self.script.marks]
        self.marks = self.rng.sample(marks, self.rng.randint(0, min(2, len(marks))))
        joiners = list(JOINERS.values()) if self.chance(0.15) else []
        self.glyphs = [*letters, *self.marks, *ALTERNATES[: self.rng.randint(1, 4)], *joiners]

    def chance(self, share):
        return self.rng.random() < share

    def glyph(self):
        return self.rng.choice(self.glyphs)

    def some(self, *counts):
        """Some glyphs, as many as one of the counts says."""
        return sorted(self.rng.sample(self.glyphs, min(len(self.glyphs), self.rng.choice(counts))))

    def glyph_class(self):
        glyphs = self.some(1, 1, 2, 2, 3)
        return glyphs[0] if len(glyphs) == 1 else f"[{' '.join(glyphs)}]"

    def classes(self, *counts):
        return [self.glyph_class() for _ in range(self.rng.choice(counts))]

    def anchor(self):
        return f"<anchor {self.rng.choice([0, 30, 60])} {self.rng.choice([0, 50, 100])}>"

    def value(self):
        return self.rng.choice(VALUES)

    def lookup_flag(self):
        if self.chance(0.55):
            return []
        flags = [flag for flag, share in [("IgnoreMarks", 0.5), ("RightToLeft", 0.1), ("IgnoreLigatures", 0.15), ("IgnoreBaseGlyphs", 0.1)]
                 if self.chance(share)]
        if self.marks and self.chance(0.25):
            flags.append(f"{self.rng.choice(['MarkAttachmentType', 'UseMarkFilteringSet'])} [{self.rng.choice(self.marks)}]")
        return [f"lookupflag {' '.join(flags)};"] if flags else []

    # Rules of each type of lookup

    def single(self, _nested):
        return [f"sub {glyph} by {self.glyph()};" for glyph in self.some(1, 2, 3)]

    def multiple(self, _nested):
        counts = [self.rng.choice([0, 0, 2, 2, 3]) for _ in range(2)]
        return [f"sub {glyph} by {' '.join(self.glyph() for _ in range(count)) or 'NULL'};" for glyph, count in zip(self.some(1, 2), counts)]

    def alternate(self, _nested):
        return [f"sub {self.glyph()} from [{' '.join(self.some(2))}];"]

    def ligature(self, _nested):
        sequences = {tuple(self.glyph() for _ in range(self.rng.choice([2, 2, 3, 4]))) for _ in range(self.rng.choice([1, 2, 2, 3, 6]))}
        return [f"sub {' '.join(sequence)} by {self.glyph()};" for sequence in sorted(sequences)]

    def reverse(self, _nested):
        backtrack, lookahead, glyphs = self.classes(0, 1, 1, 2), self.classes(0, 1, 1), self.some(2)
        return [f"rsub {' '.join(backtrack)} [{' '.join(glyphs)}]' {' '.join(lookahead)} by [{' '.join(self.glyph() for _ in glyphs)}];"]

    def rule(self, verb, nested, is_chained):
        backtrack, lookahead = (self.classes(0, 0, 1, 2), self.classes(0, 1, 1, 2)) if is_chained else ([], [])
        sequence = [f"{word}'" for word in self.classes(1, 1, 2, 2, 3)]
        if is_chained and self.chance(0.25):
            return f"ignore {verb} {' '.join([*backtrack, *sequence, *lookahead])};"
        applied = [[self.rng.choice(nested) for _ in range(self.rng.choice([0, 1, 1, 2]))] for _ in sequence]
        applied[0] = applied[0] or [self.rng.choice(nested)]
        sequence = [" lookup ".join([word, *names]) for word, names in zip(sequence, applied)]
        return f"{verb} {' '.join([*backtrack, *sequence, *lookahead])};"

    def context(self, nested, verb="sub"):
        return [self.rule(verb, nested, False) for _ in range(self.rng.choice([1, 1, 2]))] if nested else []

    def chained(self, nested, verb="sub"):
        return [self.rule(verb, nested, True) for _ in range(self.rng.choice([1, 1, 2, 3]))] if nested else []

    def adjustment(self, _nested):
        return [f"pos {glyph} {self.value()};" for glyph in self.some(2)]

    def pair(self, _nested):
        def one():
            if self.chance(0.4):
                return f"pos [{' '.join(self.some(2))}] [{' '.join(self.some(2))}] {self.value()};"
            first, second = self.glyph(), self.glyph()
            return f"pos {first} {self.value()} {second} {self.value()};" if self.chance(0.3) else f"pos {first} {second} {self.value()};"

        return [one() for _ in range(self.rng.choice([1, 2, 3]))]

    def cursive(self, _nested):
        def end():
            return self.anchor() if self.chance(0.85) else "<anchor NULL>"

        return [f"pos cursive {glyph} {end()} {end()};" for glyph in self.some(2, 3, 4)]

    def attached(self, rule_of, targets):
        """Rules that attach marks of a new class of marks to glyphs."""
        if not self.marks:
            return []
        name = f"@CLASS_{len(self.mark_classes)}"
        self.mark_classes.append("".join(f"markClass {mark} {self.anchor()} {name};\n" for mark in self.marks))
        return [rule_of(glyph, name) for glyph in targets]

    def bases(self):
        return [glyph for glyph in self.some(2) if glyph not in self.marks]

    def mark_to_base(self, _nested):
        return self.attached(lambda glyph, name: f"pos base {glyph} {self.anchor()} mark {name};", self.bases())

    def mark_to_ligature(self, _nested):
        def rule(glyph, name):
            return f"pos ligature {glyph} {self.anchor()} mark {name} ligComponent {self.anchor()} mark {name};"

        return self.attached(rule, self.bases())

    def mark_to_mark(self, _nested):
        return self.attached(lambda glyph, name: f"pos mark {glyph} {self.anchor()} mark {name};", self.marks)

    # The font

    def lookup(self, kind, nested, verb):
        """The name of a new lookup, unless it has no rule."""
        rules = getattr(self, kind)(nested, **({"verb": verb} if kind in ("context", "chained") else {}))
        if not rules:
            return []
        self.names += 1
        name = f"LOOKUP_{self.names}"
        body = "\n".join(f"  {line}" for line in [*self.lookup_flag(), *rules])
        self.lookups.append(f"lookup {name}{' useExtension' if self.chance(0.1) else ''} {{\n{body}\n}} {name};\n")
        return [name]

    def features(self, verb, kinds, nested_kinds, tags):
        """Lookups, and the features that have them."""
        nested = [name for _ in range(self.rng.choice([0, 1, 2])) for name in self.lookup(self.rng.choice(nested_kinds), [], verb)]
        by_tag = {}
        for _ in range(self.rng.choice([1, 1, 2, 3])):
            for name in self.lookup(self.rng.choice(kinds), nested, verb):
                by_tag.setdefault(self.rng.choice(tags), []).append(name)
        return "".join(f"feature {tag} {{\n{''.join(f'  lookup {name};{chr(10)}' for name in names)}}} {tag};\n" for tag, names in by_tag.items())

    def glyph_classes(self):
        """`GDEF` with the classes of glyphs, in nine of ten fonts."""
        if self.chance(0.1):
            return ""
        ligatures = [glyph for glyph in self.glyphs if glyph in ALTERNATES][: self.rng.randint(0, 1)]
        bases = [glyph for glyph in self.glyphs if glyph not in [*self.marks, *ligatures, *EMPTY]]
        classes = [f"[{' '.join(glyphs)}]" if glyphs else "" for glyphs in (bases, ligatures, self.marks)]
        return f"table GDEF {{\n  GlyphClassDef {','.join(classes)},;\n}} GDEF;\n"

    def feature_file(self):
        systems = ["DFLT dflt", *([f"{self.script.font_tag} dflt"] if self.script.tag != "latn" else [])]
        features = self.features("sub", SUBSTITUTIONS, NESTED_SUBSTITUTIONS, self.script.features) if self.chance(0.7) else ""
        if self.chance(0.5):
            features += self.features("pos", POSITIONS, NESTED_POSITIONS, POSITION_FEATURES)
        head = "".join(f"languagesystem {system};\n" for system in systems)
        return "".join([head, self.glyph_classes(), *self.mark_classes, *self.lookups, features])

    def kern_pairs(self):
        return {(self.glyph(), self.glyph()): self.rng.choice([-30, 20, 50]) for _ in range(3)} if self.chance(0.1) else {}


def plain_font(characters, lacks_space):
    """The bytes of a font of these characters, without lookups."""
    order = [glyph for glyph in ORDER if not (lacks_space and glyph == "space")]
    builder = FontBuilder(1000, isTTF=True)
    builder.setupGlyphOrder(order)
    builder.setupCharacterMap({code: glyph for code, glyph in characters.items() if glyph in order})
    outlines = {}
    for number, glyph in enumerate(order):
        pen = TTGlyphPen(None)
        if glyph not in EMPTY:
            pen.moveTo((20, 0))
            pen.lineTo((20, 300 + 10 * number))
            pen.lineTo((200 + 5 * number, 300 + 10 * number))
            pen.closePath()
        outlines[glyph] = pen.glyph()
    builder.setupGlyf(outlines)
    builder.setupHorizontalMetrics({glyph: (400 + 10 * number, 20) for number, glyph in enumerate(order)})
    builder.setupHorizontalHeader(ascent=800, descent=-200)
    builder.setupOS2()
    builder.setupPost()
    builder.setupNameTable({"familyName": "Random", "styleName": "Regular"})
    written = io.BytesIO()
    builder.save(written)
    return written.getvalue()


def write_font(path, plain, features, kern_pairs):
    """Writes a plain font with the lookups of a feature file, and with a `kern` table where there are pairs."""
    font = TTFont(io.BytesIO(plain))
    if features.strip():
        addOpenTypeFeaturesFromString(font, features)
    if kern_pairs:
        subtable = KernTable_format_0(apple=False)
        subtable.coverage, subtable.tupleIndex, subtable.kernTable = 1, None, kern_pairs
        font["kern"] = table = newTable("kern")
        table.version, table.kernTables = 0, [subtable]
    font.save(path)
