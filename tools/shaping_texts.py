"""Texts for rows of shaping: words as a script might have them, drawn at random, and each character of a font in a few places."""

import random
import unicodedata

JOINERS = (0x200C, 0x200D)

# What HarfBuzz 10 has otherwise than Unicode today, as docs/DIFFERENCES.md says.
OTHERWISE = (0x180F,)
CIRCLE = 0x25CC

# Words in the names of signs that join letters or take a vowel away.
STACKING = ("VIRAMA", "COENG", "HALANTA", "PANGKON", "ADEG", "SAKOT", "SIGN ASAT", "AL-LAKUNA", "MAAYYAA", "HALANTA")

# Options that change how a text is shaped, of which a row has one now and then.
OPTIONS = ("--cluster-level=1", "--cluster-level=2", "--features=-kern,-mark", "--features=liga[1:3]=0,clig=0", "--bot",
           "--eot", "--unicodes-before=0640", "--unicodes-after=0640", "--direction=rtl", "--direction=ltr", "--direction=ttb",
           "--features=+calt,-rlig,-abvs", "--preserve-default-ignorables", "--remove-default-ignorables", "--utf8-clusters",
           "--safe-to-insert-tatweel", "--no-positions", "--features=-locl,-ccmp,-blwf", "--show-extents", "--font-size=500")


class Characters:
    """The characters of a font by what they do in a word."""

    def __init__(self, codes, liked=()):
        self.all = [code for code in codes if code not in (0x20, *JOINERS, CIRCLE, *OTHERWISE)]
        self.letters, self.signs, self.stacking, self.others = [], [], [], []
        for code in self.all:
            name, category = unicodedata.name(chr(code), ""), unicodedata.category(chr(code))
            if any(word in name for word in STACKING):
                self.stacking.append(code)
            elif category in ("Mn", "Mc", "Me"):
                self.signs.append(code)
            elif category.startswith("L"):
                self.letters.append(code)
            else:
                self.others.append(code)
        self.letters += [code for code in self.letters if code in liked] * 3
        self.letters = self.letters or self.all
        self.signs = self.signs or self.letters


def syllable(draw, of):
    """A letter, others that are joined to it, and signs; now and then something is amiss."""
    text = [draw.choice(of.letters)]
    while of.stacking and draw.random() < 0.5 and len(text) < 7:
        text.append(draw.choice(of.stacking))
        if draw.random() < 0.15:
            text.append(draw.choice(JOINERS))
        text.append(draw.choice(of.letters))
    while draw.random() < 0.55 and len(text) < 9:
        text.append(draw.choice(of.signs))
    chance = draw.random()
    if chance < 0.06:
        text.insert(draw.randrange(len(text)), draw.choice(of.signs + of.stacking))
    elif chance < 0.10:
        text.insert(draw.randrange(len(text) + 1), draw.choice(JOINERS))
    elif chance < 0.13:
        text[0] = draw.choice((CIRCLE, 0x20))
    elif chance < 0.17 and of.others:
        text.append(draw.choice(of.others))
    return text


def texts(codes, liked, count, seed):
    """Options and texts: words at random, and each character behind a letter, before one and joined to one."""
    draw, of = random.Random(seed), Characters(codes, liked)
    for _ in range(count):
        text = [code for _ in range(draw.choice((1, 1, 2, 2, 3))) for code in syllable(draw, of)]
        yield (draw.choice(OPTIONS),) if draw.random() < 0.2 else (), text
    first, second = (of.letters * 2)[:2]
    for at in range(0, len(of.all), 6):
        text = []
        for code in of.all[at:at + 6]:
            text += [first, code, second, 0x20] if code not in of.letters or not of.stacking else [code, of.stacking[0], second, of.stacking[0], code, 0x20]
        yield (), text[:-1]


def row(font, options, text):
    return f"../../fonts/{font};{' '.join(['--show-flags', *options])};{','.join(f'U+{code:04X}' for code in text)};?"
