"""Random programs for `shaping_cli`, and random lines of the commands that need no text. A seed gives the same ones again."""

import random

CALLS_OF_THE_INPUT = ("unsafe_to_break", "safe_to_insert_tatweel", "unsafe_to_concat")
CALLS_OF_BOTH_SIDES = ("unsafe_to_break_from_outbuffer", "unsafe_to_concat_from_outbuffer")
CALLS = (
    *["next_glyph"] * 5, "next_glyphs", "skip_glyph", *["move_to"] * 4, "replace_glyph", *["replace_glyphs"] * 3,
    "output_glyph", "copy_glyph", *["delete_glyph"] * 2, *["merge_clusters"] * 3, *["merge_out_clusters"] * 2,
    *CALLS_OF_THE_INPUT, *CALLS_OF_BOTH_SIDES, "clear_output", "sync",
)


class Program:
    """A program as it is written. It counts the glyphs of both sides, so that most calls meet their conditions."""

    def __init__(self, rng):
        self.rng = rng
        self.lines = ["new"]
        self.open = False
        self.idx = self.len = self.out = 0

    def within(self, low, high):
        """Mostly a number from low to high, and sometimes any."""
        if self.rng.random() < 0.06 or high < low:
            return self.rng.choice((0, self.len, self.len + 1, self.out, self.out + 1, self.idx, 99, 4294967295))
        return self.rng.randint(low, high)

    def id(self):
        return self.rng.choice((0, 1, 7, 65535, 65536, self.rng.randrange(1, 1000)))

    def clusters(self, n):
        """The clusters of n glyphs: each its own, in runs, falling, in any order, or the largest numbers."""
        runs = [i // self.rng.randint(1, 3) for i in range(n)]
        few = [self.rng.randrange(4) for _ in range(n)]
        largest = [4294967295 - number for number in few]
        return self.rng.choice((range(n), sorted(runs), sorted(runs, reverse=True), sorted(few, reverse=True), few, largest))

    def begin(self):
        rng = self.rng
        self.lines += [f"level {rng.randrange(3)}", f"flags {rng.choice((0, 64, 128, 192))}"]
        self.len = rng.choice((0, 1, 2, 3, 4, 5, 6, 8, 8, 12, 30))
        if rng.random() < 0.3:
            self.lines.append("push " + "".join(rng.choice("abcdéש한😀 ") for _ in range(self.len)))
            return
        self.lines += [f"add {rng.choice((0x61, 0x5e9, 0x1f600)):x} {cluster}" for cluster in self.clusters(self.len)]

    def left(self):
        return self.len - self.idx

    def put_out(self, taken, put):
        self.idx += taken
        self.out += put if self.open else 0

    def ranges(self, name):
        if name in CALLS_OF_THE_INPUT or name == "merge_clusters":
            low = self.idx if self.open else 0
            start = low if self.rng.random() < 0.5 else self.within(low, self.len)
            return start, self.within(start, self.len)
        start = self.within(0, self.out if self.open else self.len)
        if name == "merge_out_clusters":
            return start, self.within(start, self.out)
        return start, self.within(self.idx if self.open else start, self.len)

    def move(self):
        last = self.out + self.left() if self.open else self.len
        place = self.within(0, last)
        if place > last:
            return place
        if not self.open:
            self.idx = place
        elif place >= self.out:
            self.put_out(place - self.out, place - self.out)
        else:
            back = self.out - place
            self.len += max(back - self.idx, 0)
            self.idx, self.out = max(self.idx - back, 0), place
        return place

    def replace(self):
        taken, put = self.within(0, min(self.left(), 4)), self.rng.choice((0, 1, 1, 2, 3, 9))
        if self.open and self.left() and taken <= self.left():
            self.put_out(taken, put)
        return " ".join(map(str, (taken, put, *(self.id() for _ in range(put)))))

    def add_call(self):
        name = self.rng.choice(CALLS)
        glyph = self.left() > 0
        line = name
        if name == "clear_output" and not self.open:
            self.open, self.idx, self.out = True, 0, 0
        elif name == "sync" and self.open:
            self.open, self.idx, self.len, self.out = False, 0, self.out + self.left(), 0
        elif name == "next_glyph" and glyph:
            self.put_out(1, 1)
        elif name == "skip_glyph" and glyph or name == "delete_glyph" and glyph and self.open:
            self.put_out(1, 0)
        elif name == "next_glyphs":
            count = self.within(0, self.left())
            line += f" {count}"
            if count <= self.left():
                self.put_out(count, count)
        elif name == "move_to":
            line += f" {self.move()}"
        elif name == "replace_glyphs":
            line += f" {self.replace()}"
        elif name in ("replace_glyph", "output_glyph"):
            line += f" {self.id()}"
            if self.open and (glyph or name == "output_glyph" and self.out):
                self.put_out(int(name == "replace_glyph"), 1)
        elif name == "copy_glyph" and glyph and self.open:
            self.put_out(0, 1)
        elif name.startswith(("merge", "unsafe", "safe")):
            line += " {} {}".format(*self.ranges(name))
        self.lines.append(line)


def program(rng):
    """The lines of a program that begins anew, makes calls, looks at the buffer and prints its glyphs."""
    made = Program(rng)
    made.begin()
    if rng.random() < 0.9:
        made.lines.append("clear_output")
        made.open = True
    for _ in range(rng.choice((3, 8, 16, 32))):
        made.add_call()
        if rng.random() < 0.6:
            made.lines.append("state")
    if made.open:
        made.lines += ["state", "sync"]
    return made.lines + ["state", f"serialize {rng.randrange(64)}"]


def programs(seed, count):
    rng = random.Random(seed)
    return [program(rng) for _ in range(count)]


def feature(rng):
    """A text that is a feature, or nearly one."""
    pick = rng.choice
    number = pick(("0", "1", "5", "17", "2147483647", "2147483648", "4294967295", "99999999999", "007"))
    parts = [
        pick(("", "", "+", "-")), pick(("", "", " ")), pick(("kern", "liga", "ss01", "a_1", "k", "abcde", "")),
        pick(("", "", " ")), pick(("", "[]", "[3]", "[3:5]", "[:5]", "[3:]", "[1;4]", "[:]", f"[{number}]", "[3", "[-1]")),
        pick(("", "", "=")), pick(("", "", "on", "off", "On", "0", "2", number, "x", " on", "-1", "+1", " 1")), pick(("", " ")),
    ]
    if rng.random() < 0.3:
        quote = pick("'\"")
        parts[2] = quote + parts[2] + pick((quote, quote, ""))
    if rng.random() < 0.2:
        parts[rng.randrange(len(parts))] = pick(("", " ", "\t", "=", "[", "é", "--"))
    return "feature " + "".join(parts)


def script(rng):
    known = "Latn Arab Hebr Beng Deva Mlym Mymr Hira Kana Hang Laoo Yiii Nkoo Vaii Qaai Aran Cyrs Hans Zmth Zzzz Zyyy Zinh Tibt"
    if rng.random() < 0.6:
        return rng.choice(known.split())
    return "".join(rng.choice("abcdefghijklmnopqrstuvwxyzABCXYZ") for _ in range(4))


def private_language(rng):
    """A language that is for private use, which no table names."""
    letters = lambda n: "".join(rng.choice("abcxyzABC0129") for _ in range(n))
    parts = [rng.choice((f"hbsc{letters(4)}", f"hbot{letters(4)}", "hbscdflt", "hbotDFLT", f"hbot{letters(2)}", letters(3)))
             for _ in range(rng.choice((1, 1, 2)))]
    return "x-" + "-".join(parts)


def tags(rng):
    languages = "-", private_language(rng), private_language(rng), rng.choice(("en", "ml", "qqq", "zh-hant", "xyz-qw"))
    return f"tags {rng.choice(('-', script(rng), script(rng)))} {rng.choice(languages)}"


def hangul(rng):
    syllable = lambda: rng.randrange(0xABF0, 0xD7B0)
    part = lambda: rng.choice((rng.randrange(0x10F8, 0x1120), rng.randrange(0x1158, 0x1180), rng.randrange(0x11A0, 0x11C8)))
    if rng.random() < 0.5:
        return f"decompose {syllable():x}"
    return f"compose {rng.choice((syllable, part))():x} {part():x}"


def queries(seed, count):
    """Lines of features, of tags and of Hangul, each a program of its own."""
    rng = random.Random(seed)
    return [[rng.choice((feature, tags, hangul))(rng)] for _ in range(count)]
