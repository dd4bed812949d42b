"""Small fonts of scripts with shapers of their own: their letters, and rules for each feature that the shaper asks for.

Each feature has a rule that a real font has, as a conjunct or a form below, and a letter that the feature alone changes, so that it
is seen which letters of a syllable have the feature.
"""

from functools import partial

from .rules import assigned, code, font

PROBED = "rphf pref rkrf abvf blwf half pstf vatu cjct cfar init pres abvs blws psts haln calt clig liga rclt rlig nukt akhn locl ccmp".split()


def probes(letters, tags):
    """For each feature a letter that it alone changes."""
    return {tag: [f"{letter} > {letter}.{tag}"] for letter, tag in zip(letters, tags)}


def merged(*features):
    """Features with the lookups of all of these, in the order of the first ones."""
    made = {}
    for of in features:
        for tag, lookups in of.items():
            made.setdefault(tag, []).extend(lookups if isinstance(lookups[0], list) else [lookups])
    return made


# ---- the scripts of India, whose blocks are laid out alike

INDIC = {
    "devanagari": (0x0900, "deva dev2"), "bengali": (0x0980, "beng bng2"), "gurmukhi": (0x0A00, "guru gur2"),
    "gujarati": (0x0A80, "gujr gjr2"), "oriya": (0x0B00, "orya ory2"), "tamil": (0x0B80, "taml tml2"),
    "telugu": (0x0C00, "telu tel2"), "kannada": (0x0C80, "knda knd2"), "malayalam": (0x0D00, "mlym mlm2"),
}


class Letters:
    """The characters of a script of India that its font has, as rules write them: by how far they stand behind the first of the block."""

    HALANT, RA = 0x4D, 0x30

    def __init__(self, name, old):
        self.name, self.old = name, old
        self.start, self.tags = INDIC[name]
        start = self.start
        self.codes = [number for number in assigned(start, start + 0x7F)] + ([0x0951, 0x0952, 0x0964] if start != 0x0900 else [])
        self.have = {number - start for number in self.codes}
        special = (self.RA, 0x15, 0x2F, 0x32, 0x35, 0x37, 0x2C)
        self.plain = [at for at in range(0x15, 0x3A) if at in self.have and at not in special]

    def __call__(self, *offsets):
        return " ".join(code(self.start + at) for at in offsets)

    def behind_halant(self, at):
        """A letter that takes a form after another one: behind the halant, or before it by the older rules."""
        return self(at, self.HALANT) if self.old else self(self.HALANT, at)

    def formed(self, at, form):
        return f"{self.behind_halant(at)} > {self(at)}.{form}"


def of(tag, *rules):
    return {tag: [list(rules)]}


def forms_of_letters(c):
    """The rules that give letters of a syllable their forms."""
    halant, ra, have, plain = c.HALANT, c.RA, c.have, c.plain
    is_southern = c.name in ("malayalam", "telugu")
    return [
        of("nukt", *(f"{c(at, 0x3C)} > {c(at)}.nukta" for at in (0x15, 0x1C, ra) if at in have)) if 0x3C in have else {},
        of("akhn", f"{c(0x15, halant)} {c(0x37) if 0x37 in have else c(0x15)} > k_ssa"),
        of("rphf", f"{c(ra, halant)} > reph", *([f"{c(ra, halant)} 200D > reph.joined"] if c.name in ("telugu", "sinhala") else [])),
        of("rkrf", *(f"{c(at, halant, ra)} > {c(at)}.ra" for at in (0x15, 0x24))) if c.name in ("devanagari", "gujarati") else {},
        of("pref", f"{c.behind_halant(ra)} > ra.pref") if is_southern else {},
        of("blwf", *(c.formed(at, "below") for at in (0x32, 0x35, 0x2C, *([] if is_southern else [ra])) if at in have)),
        of("abvf", c.formed(0x28, "above")),
        of("half", *(f"{c(at, halant)} > {c(at)}.half" for at in plain[:8] + [0x15])),
        of("pstf", c.formed(0x2F, "post")),
        {} if is_southern else of("vatu", *(f"{c(at)} {c(ra)}.below > {c(at)}.vatu" for at in plain[:2])),
        of("cjct", f"{c(0x24, halant, 0x24)} > t_ta", f"{c(plain[0])}.half {c(plain[1])} > h_c"),
    ]


def forms_of_syllables(c):
    """The rules over the syllable as it is ordered."""
    halant, plain = c.HALANT, c.plain
    return [
        of("init", f"{c(0x47)} > {c(0x47)}.init") if c.name == "bengali" else {},
        of("pres", f"{c(0x24)} {c(0x3F)} > t_i" if c.name == "tamil" else f"{c(0x3F, 0x24)} > i_t", f"{c(plain[2])}.half {c(plain[3])} > p_q"),
        of("abvs", f"{c(0x24)} reph > t_reph", f"reph {c(0x02)} > reph_dot"),
        of("blws", f"{c(0x24, 0x41)} > t_u"),
        of("psts", f"{c(0x24, 0x40)} > t_ii"),
        of("haln", f"{c(0x24, halant)} > t.haln"),
        of("calt", f"{c(0x15)} [{c(0x24)}] > {c(0x24)}.calt"),
        {"blwf": [[f"{c(0x28)} [{c(halant, plain[4])}] > {c(plain[4])}.behind"]], "pstf": [[f"[{c(halant, plain[5])}] {c(0x28)} > {c(plain[5])}.ahead"]],
         "pres": [[f"{c(plain[6])} [{c(plain[7])}] > {c(plain[7])}.after"]], "psts": [[f"[{c(plain[6])}] {c(0x28)} > {c(plain[6])}.before"]],
         "abvs": [["25CC > 25CC.abvs"]]},
    ]


def bare_rules(c, rules):
    """Forms below a letter alone, with letters that are parted before and put together again."""
    halant, ra = c.HALANT, c.RA
    twice = {"nukt": [[f"{c(ra)} > {c(ra)} ra.second"]], "rphf": [[f"{c(ra)} ra.second {c(halant)} > reph"]],
             "half": [[f"{c(0x15, halant)} > k.half", f"{c(0x16, halant)} > {c(halant)}"]]}
    return merged(twice, {tag: rules[tag] for tag in ("blwf", "rphf") if tag in rules})


def indic(name, old=False, bare=False):
    """A font of a script of India, by the older or the newer rules of its letters, or with forms below a letter alone."""
    c = Letters(name, old)
    rules = merged(*forms_of_letters(c), *forms_of_syllables(c))
    if bare:
        rules = bare_rules(c, rules)
    else:
        rules = merged(rules, probes([c(at) for at in c.plain[8:]],
                                     "rphf pref half blwf abvf pstf cjct init pres abvs blws psts haln calt liga clig".split()))
    tags = c.tags.split()
    return font(f"Vukhaso {name.title()}", c.codes, tags[:1] if old else tags[1:], rules)


def parted(name):
    """A font of a script of India in which a form below is taken apart again, so that its halant is one, and a half form looks like a halant."""
    c = Letters(name, False)
    halant, ra = c(c.HALANT), c(c.RA)
    rules = {"akhn": [[f"{c(0x15)} {halant} {c(0x37)} > k_ssa"]], "rkrf": [[f"k_ssa > {c(0x15)} {halant} {c(0x37)}"]],
             "half": [[f"{c(0x16)} {halant} > {halant}"]], "rphf": [[f"{ra} {halant} > reph"]]}
    return font(f"Vukhaso {name.title()} Parted", c.codes, c.tags.split()[1:], rules)


# ---- others with syllables


def sinhala():
    c = lambda *numbers: " ".join(map(code, numbers))
    halant, ra, ya, ka = 0x0DCA, 0x0DBB, 0x0DBA, 0x0D9A
    letters = assigned(0x0D9A, 0x0DC6)
    rules = merged(
        {"rphf": [[f"{c(ra, halant)} 200D > reph"]], "vatu": [[f"{c(halant)} 200D {c(ra)} > ra.vatu"]],
         "pstf": [[f"{c(halant)} 200D {c(ya)} > ya.post"]], "akhn": [[f"{c(ka, halant)} 200D {c(0x0DC2)} > k_ssa"]],
         "half": [[f"{c(0x0DAD, halant)} 200D > t.half"]], "pres": [[f"{c(0x0DD9, ka)} > e_ka"]], "psts": [[f"{c(ka, 0x0DCF)} > k_aa"]],
         "abvs": [[f"{c(ka, 0x0DD2)} > k_i"]], "blws": [[f"{c(ka, 0x0DD4)} > k_u"]], "haln": [[f"{c(0x0DB1, halant)} > n.haln"]]},
        probes(list(map(code, letters[1:])), "rphf pref half blwf abvf pstf cjct init pres abvs blws psts haln calt liga".split()))
    return font("Vukhaso Sinhala", assigned(0x0D80, 0x0DFF), ["sinh"], rules)


def khmer():
    rules = merged(
        {"pref": [["17D2 179A > ro.pref"]], "blwf": [["17D2 1780 > ka.below", "17D2 178F > ta.below", "17D2 179B > lo.below"]],
         "abvf": [["17C1 > e.above"]], "pstf": [["17D2 1799 > yo.post", "17D2 1794 > ba.post"]], "cfar": [["179A > ro.far"]],
         "pres": [["17C1 1780 > e_ka"]], "abvs": [["1780 17B7 > ka_i"]], "blws": [["1780 17BB > ka_u"]], "psts": [["1780 17B6 > ka_aa"]],
         "clig": [["178F 17D0 > ta_s"]]},
        probes(map(code, range(0x1781, 0x17A3)), "pref blwf abvf pstf cfar pres abvs blws psts clig liga calt locl ccmp".split()))
    return font("Vukhaso Khmer", assigned(0x1780, 0x17FF), ["khmr"], rules)


def khmer_stages():
    """A font whose first rule is of a feature that comes behind the basic ones, and is for what a basic feature makes."""
    rules = {"pres": [["1783.abvf > 1783.pres"]], "abvf": [["1783 > 1783.abvf"]]}
    return font("Vukhaso Khmer Stages", assigned(0x1780, 0x17FF), ["khmr"], rules)


def myanmar(tag="mym2"):
    rules = merged(
        {"rphf": [["1004 103A 1039 > kinzi"]], "pref": [["103C > ra.pref"]],
         "blwf": [["1039 1000 > ka.below", "1039 1010 > ta.below", "103D > wa.below", "103E > ha.below"]], "pstf": [["103B > ya.post"]],
         "pres": [["ra.pref 1000 > ra_ka"]], "abvs": [["1000 102D > ka_i"]], "blws": [["1000 102F > ka_u"]], "psts": [["1000 102C > ka_aa"]],
         "liga": [["1014 102F > na_u"]]},
        probes(map(code, range(0x1005, 0x1022)), "rphf pref blwf pstf pres abvs blws psts liga calt clig rlig locl ccmp".split()))
    return font("Vukhaso Myanmar", assigned(0x1000, 0x109F), [tag], rules)


# Of scripts that the universal shaper shapes: first and last character, tag, a letter RA, the sign that joins letters, a vowel
# before its letter, and the number of its first letters.
UNIVERSAL = {
    "javanese": (0xA980, 0xA9DF, "java", 0xA9AB, 0xA9C0, 0xA9BA, 0xA98F),
    "balinese": (0x1B00, 0x1B7C, "bali", 0x1B2D, 0x1B44, 0x1B3E, 0x1B13),
    "taitham": (0x1A20, 0x1AAD, "lana", 0x1A41, 0x1A60, 0x1A6E, 0x1A20),
    "tibetan": (0x0F00, 0x0FBC, "tibt", 0x0F62, 0x0F84, 0x0F71, 0x0F40),
    "grantha": (0x11300, 0x11374, "gran", 0x11330, 0x1134D, 0x11347, 0x11315),
    "chakma": (0x11100, 0x11146, "cakm", 0x1111B, 0x11133, 0x1112C, 0x11107),
    "newa": (0x11400, 0x11461, "newa", 0x1142C, 0x11442, 0x11436, 0x1140E),
    "brahmi": (0x11000, 0x1104D, "brah", 0x11037 - 0x0B, 0x11046, 0x11042, 0x11013),
}


def universal(name):
    first, last, tag, ra, halant, vowel, letter = UNIVERSAL[name]
    codes = assigned(first, last)
    letters = [at for at in codes if at >= letter and at != ra][:30]
    c = lambda *numbers: " ".join(map(code, numbers))
    few, more = letters[:6], letters[6:]
    rules = merged(
        {"nukt": [[f"{c(few[0])} {c(few[5])} > k_k.nukt"]], "akhn": [[f"{c(few[0], halant, few[1])} > k_x"]],
         "rphf": [[f"{c(ra, halant)} > reph"]], "pref": [[f"{c(halant, ra)} > ra.pref"]],
         "rkrf": [[f"{c(few[4], halant, few[5])} > k.rkrf"]], "abvf": [[f"{c(halant, few[3])} > l.above"]],
         "blwf": [[f"{c(halant, few[1])} > l.below"]], "half": [[f"{c(few[2], halant)} > l.half"]],
         "pstf": [[f"{c(halant, few[4])} > l.post"]], "vatu": [[f"{c(few[0])} l.below > k.vatu"]], "cjct": [[f"l.half {c(few[0])} > l_k"]],
         "isol": [[f"{c(few[5])} > f.isol"]], "init": [[f"{c(few[5])} > f.init"]],
         "medi": [[f"{c(few[5])} > f.medi"]], "fina": [[f"{c(few[5])} > f.fina"]],
         "pres": [[f"{c(vowel, few[0])} > v_k"]], "abvs": [[f"{c(few[1])} reph > l_reph"]], "haln": [[f"{c(few[3], halant)} > l.haln"]],
         "abvs": [["25CC > 25CC.abvs"]], "rclt": [[f"{c(few[0])} [{c(few[5])}] > f.rclt"]]},
        {"blwf": [[f"{c(more[-1])} [{c(halant, more[-2])}] > l.behind", f"{c(more[-1])} [{c(more[-2])}] > l.after"]]},
        probes(map(code, more), "rphf pref rkrf abvf blwf half pstf vatu cjct abvs blws calt clig haln liga pres psts rclt rlig ccmp locl".split()))
    if name == "newa":
        rules = merged({"ccmp": [[f"{c(ra)} > {c(ra)} ra.second"]], "rphf": [[f"{c(ra)} ra.second {c(halant)} > reph"]]}, rules)
    return font(f"Vukhaso {name.title()}", codes, [tag], rules)


# ---- letters that join

FORMS = "isol fina medi init".split()


def joined(family, tags, codes, forms, more=None, placed=("mark", "mkmk", "kern", "curs"), **how):
    """A font of letters that join, with a glyph for each form of some of them."""
    rules = {tag: [[f"{code(number)} > {code(number)}.{tag}" for number in numbers]] for tag, numbers in forms.items()}
    return font(family, codes, tags, merged({tag: of for tag, of in (more or {}).items() if tag in rules}, rules,
                                            {tag: of for tag, of in (more or {}).items() if tag not in rules}), placed, **how)


def arabic():
    letters = assigned(0x0620, 0x064A) + assigned(0x0671, 0x06B0)
    forms = {tag: letters[:36] for tag in FORMS}
    more = {
        "stch": [["06DD > tile.left tile.fixed tile.right"]], "ccmp": [["0622 > 0627 0653"], ["0649 0654 > 0626"]], "locl": [["06A9 > 06A9.locl"]],
        "rlig": [["0644.init 0627.fina > lam_alef", "0644.medi 0627.fina > lam_alef.fina", "0651 064E > shadda_fatha"]],
        "calt": [["0628.init [0646.fina] > 0646.calt"]], "liga": [["0644.init 062C.medi > lam_jeem"]], "clig": [["0633 0644 > seen_lam"]],
        "mset": [["0650 > 0650.low"]], "dlig": [["06A0 0671 > a_b"]], "swsh": [["06A1 > 06A1.swsh"]],
    }
    codes = assigned(0x0600, 0x06FF) + [0x0753, 0x08D3, 0x08E3, 0x061C, 0x0640]
    return joined("Vukhaso Arabic", ["arab"], codes, forms, more)


def arabic_fallback():
    """Presentation forms as characters, and no features."""
    return font("Vukhaso Arabic Fallback", [*assigned(0x0621, 0x0655), *assigned(0xFE70, 0xFEFC), *range(0xFC5E, 0xFC64), 0x0671, 0xFB50, 0xFB51],
                ["arab"], {}, placed=())


def syriac():
    letters = assigned(0x0710, 0x072F)
    forms = {tag: letters[:30] for tag in FORMS} | {"fin2": [0x0710], "fin3": [0x0710], "med2": [0x0710, 0x0712]}
    forms = {tag: forms[tag] for tag in "isol fina fin2 fin3 medi med2 init".split()}
    more = {"stch": [["070F > bar.left bar.fixed bar.tile bar.right"]], "rlig": [["0720.init 0710.fina > lamadh_alaph"]],
            "calt": [["0713.init [0721.fina] > 0721.calt"]], "mset": [["0730 > 0730.low"]]}
    return joined("Vukhaso Syriac", ["syrc"], assigned(0x0700, 0x074F), forms, more)


def joining(name):
    """A font of a script whose letters join by the universal shaper."""
    first, last, tag = {"nko": (0x07C0, 0x07FF, "nko "), "mongolian": (0x1800, 0x18AA, "mong"), "phagspa": (0xA840, 0xA877, "phag"),
                        "adlam": (0x1E900, 0x1E95F, "adlm"), "mandaic": (0x0840, 0x085F, "mand")}[name]
    codes = assigned(first, last)
    letters = [number for number in codes if chr(number).isalpha()]
    more = {"rlig": [[f"{code(letters[0])}.init {code(letters[1])}.fina > a_b"]], "calt": [[f"{code(letters[2])} > {code(letters[2])}.calt"]],
            "liga": [[f"{code(letters[4])}.init {code(letters[5])}.medi > c_d"]]}
    if name == "mongolian":
        more |= {tag: [[f"{code(at)} 180B > {code(at)}.{tag}.one" for at in letters[:9]]] for tag in FORMS}
    return joined(f"Vukhaso {name.title()}", [tag], codes + ([0x1807] if name == "phagspa" else []), {tag: letters[:40] for tag in FORMS}, more)


# ---- Hebrew, Hangul, Thai and Lao


def hebrew(is_placed=True):
    codes = assigned(0x05B0, 0x05F4) + [0x034F, *range(0xFB1D, 0xFB50)]
    codes = [number for number in codes if not 0xFB30 <= number <= 0xFB4F or number in assigned(0xFB30, 0xFB4F)]
    rules = {"ccmp": [["05D0 05B7 > alef_patah"]], "dlig": [["05D0 05DC > alef_lamed"]]} if is_placed else {}
    return font("Vukhaso Hebrew", codes, ["hebr"], rules, placed=("mark", "mkmk", "kern") if is_placed else ())


def hangul(is_jamo=True):
    """Jamo with their forms, and a few syllables; or syllables alone, with tone marks that have no width."""
    syllables = [0xAC00, 0xAC01, 0xAC02, 0xAC1C, 0xAE00, 0xD55C, 0xD574, 0xB098, 0xD7A3]
    jamo = [*range(0x1100, 0x1113), *range(0x1161, 0x1176), *range(0x11A8, 0x11C3), 0x115F, 0x1160, 0xA960, 0xD7B0, 0xD7CB, 0x302E, 0x302F]
    if not is_jamo:
        return font("Vukhaso Hangul", [*syllables, 0x302E, 0x302F], ["hang"], {}, placed=())
    rules = merged(
        {"ccmp": [["1109 1109 > 1109.twice"]], "ljmo": [[f"{code(at)} > {code(at)}.l" for at in jamo[:19]]],
         "vjmo": [[f"{code(at)} > {code(at)}.v" for at in range(0x1161, 0x1176)]],
         "tjmo": [[f"{code(at)} > {code(at)}.t" for at in range(0x11A8, 0x11C3)]], "calt": [["1100.l > 1100.calt"]], "liga": [["1102.l 1161.v > n_a"]]})
    return font("Vukhaso Jamo", jamo + syllables[:2] + syllables[5:6], ["hang"], rules, placed=("kern",))


def thai(is_old=False):
    codes = assigned(0x0E01, 0x0E5B)
    if is_old:
        private = [*range(0xF700, 0xF71B)]
        return font("Vukhaso Thai Old", codes + private, ["thai"], {}, placed=())
    rules = {"ccmp": [["0E33 > 0E4D 0E32.short"]], "locl": [["0E0D > 0E0D.locl"]], "liga": [["0E24 0E45 > ru_lakkhang"]], "calt": [["0E01 [0E34] > 0E34.calt"]]}
    return font("Vukhaso Thai", codes, ["thai"], rules)


def lao():
    return font("Vukhaso Lao", assigned(0x0E81, 0x0EDF), ["lao "], {"liga": [["0E9A 0EB4 > bo_i"]], "ccmp": [["0EDC > 0EAB 0E99"]]})


FONTS = {
    **{f"{name}.ttf": partial(indic, name) for name in INDIC},
    **{f"{name}-old.ttf": partial(indic, name, True) for name in ("devanagari", "bengali", "malayalam", "kannada", "oriya", "tamil")},
    "devanagari-bare.ttf": partial(indic, "devanagari", False, True), "devanagari-parted.ttf": partial(parted, "devanagari"),
    "sinhala.ttf": sinhala, "khmer.ttf": khmer, "khmer-stages.ttf": khmer_stages, "myanmar.ttf": myanmar, "myanmar-old.ttf": partial(myanmar, "mymr"),
    **{f"{name}.ttf": partial(universal, name) for name in UNIVERSAL},
    "arabic.ttf": arabic, "arabic-fallback.ttf": arabic_fallback, "syriac.ttf": syriac,
    **{f"{name}.ttf": partial(joining, name) for name in ("nko", "mongolian", "phagspa", "adlam", "mandaic")},
    "hebrew.ttf": hebrew, "hebrew-old.ttf": partial(hebrew, False), "jamo.ttf": hangul, "hangul.ttf": partial(hangul, False),
    "thai.ttf": thai, "thai-old.ttf": partial(thai, True), "lao.ttf": lao,
}
