"""A `requires` as a test of plain Rust, where it can be computed in a few steps.

Read are numbers, lengths, comparisons, implications, and the words of a buffer below. Of any other clause there is no
test: it is documentation alone.
"""

import re

NUMBERS = {"u8", "u16", "u32", "u64", "usize"}

# What the clauses say of a type, as its accessors say it.
FIELDS = {
    "hb_buffer_t": {
        "have_output": "have_output()", "have_separate_output": "have_separate_output()", "idx": "idx()",
        "max_len": "max_len()", "room": "room()",
    },
    "Sides": {"is_open": "is_open()", "is_separate": "is_separate()", "idx": "idx()", "room": "room()"},
}
BOOLEANS = {"have_output", "have_separate_output", "is_open", "is_separate"}
LENGTHS = {
    "hb_buffer_t": {"out": "out_len()", "input": "info().len()"},
    "Sides": {"out": "out_len()", "input": "input().len()"},
}
WORDS = {
    ("hb_buffer_t", "len"): "len()", ("hb_buffer_t", "lookahead_len"): "lookahead_len()",
    ("Sides", "len"): "len()", ("Sides", "left"): "left()",
}

TOKEN = re.compile(r"\s*(0x[0-9A-Fa-f_]+|\d[\d_]*|[^\W\d][\w']*(?:\.\w+)*|[≤<≡≢→+\-()]|.)", re.S)


class Unknown(Exception):
    """A clause that cannot be computed here."""


class Clauses:
    """Reads clauses of a function, whose parameters have these types."""

    def __init__(self, types):
        self.types = types

    def test_of(self, text):
        """The test, or None."""
        self.words = [word for word in TOKEN.findall(text) if word.strip()]
        self.place = 0
        try:
            test = self.implication()
        except Unknown:
            return None
        return test if self.place == len(self.words) and test[1] in ("bool", "bools") else None

    def peek(self):
        return self.words[self.place] if self.place < len(self.words) else ""

    def step(self):
        self.place += 1
        return self.words[self.place - 1]

    def implication(self):
        left = self.comparison()
        if self.peek() != "→":
            return left
        self.step()
        right = self.implication()
        if left[1] != "bool" or right[1] != "bool":
            raise Unknown
        return f"{negated(left[0])} || {right[0]}", "bool"

    def comparison(self):
        left = self.sum()
        sign = {"≤": "<=", "<": "<", "≡": "==", "≢": "!="}.get(self.peek())
        if not sign:
            return left
        self.step()
        if self.peek() == "None" and left[1] == "positions":
            self.step()
            return (negated(left[0]) if sign == "==" else left[0]), "bool"
        return compared(left, sign, self.sum())

    def sum(self):
        left = self.applied()
        while self.peek() in ("+", "-"):
            sign, right = self.step(), self.applied()
            if left[1] != "number" or right[1] != "number":
                raise Unknown
            if sign == "+":
                left = f"{left[0]} + {right[0]}", "number"
            else:
                whole = left[0] if re.fullmatch(r"[\w.()]+", left[0]) else f"({left[0]})"
                left = f"{whole}.saturating_sub({right[0]})", "number"
        return left

    def applied(self):
        word = self.peek()
        if word == "(":
            self.step()
            inner = self.implication()
            if self.peek() != ")":
                raise Unknown
            self.step()
            return (f"({inner[0]})", inner[1]) if " " in inner[0] and inner[1] == "number" else inner
        if not word or not re.match(r"\w", word):
            raise Unknown
        self.step()
        if word[0].isdigit():
            return word, "number"
        if word in ("true", "false"):
            return word, "bool"
        return self.named(word)

    def named(self, word):
        word = word.split(".")[-1] if word.startswith(("step.", "cluster_step.")) else word
        if word in ("length", "vec_len"):
            return self.length(self.step()), "number"
        if word == "vec_capacity":
            name, rest, _ = self.root(self.step())
            return f"{name}.capacity()", "number"
        if word == "range_start":
            return f"{self.step()}.unwrap_or(0)", "number"
        if word == "range_end":
            end, (name, _, _) = self.step(), self.root(self.step())
            return f"{end}.unwrap_or({name}.len()).min({name}.len())", "number"
        if word == "IsSome":
            return self.positions(self.step()), "bool"
        if word in ("HasPositions", "HasCurrent"):
            name, rest, kind = self.root(self.step())
            if rest or kind != "hb_buffer_t":
                raise Unknown
            if word == "HasCurrent":
                return f"{name}.have_output() && !{name}.info().is_empty()", "bools"
            return f"!{name}.have_output() && {name}.have_positions()", "bools"
        if word == "IsScalar":
            value, kind = self.value(self.step())
            if kind != "number":
                raise Unknown
            return f"char::from_u32({value}).is_some()", "bool"
        if word == "AreCharacters":
            return f"{self.list(self.step())}.iter().all(|glyph| char::from_u32(glyph.glyph_id).is_some())", "bool"
        if word == "last_place":
            name, rest, kind = self.root(self.step())
            if rest or kind != "hb_buffer_t":
                raise Unknown
            return f"{name}.backtrack_len() + {name}.lookahead_len()", "number"
        if any(word == name for _, name in WORDS):
            name, rest, kind = self.root(self.step())
            if rest or (kind, word) not in WORDS:
                raise Unknown
            return f"{name}.{WORDS[kind, word]}", "number"
        return self.value(word)

    def root(self, word):
        """The parameter that a word begins with, what is asked of it, and its type."""
        name, *rest = word.split(".")
        if name not in self.types:
            raise Unknown
        rest = rest[1:] if rest and rest[0] in ("now", "old", "entry") else rest
        return name, rest, self.types[name]

    def positions(self, word):
        name, rest, kind = self.root(word)
        if kind != "hb_buffer_t" or rest != ["positions"]:
            raise Unknown
        return f"{name}.have_positions()"

    def list(self, word):
        """The glyphs that are left to read, or a slice."""
        length = self.length(word)
        if not length.endswith(".len()"):
            raise Unknown
        return length.removesuffix(".len()")

    def length(self, word):
        name, rest, kind = self.root(word)
        if kind in LENGTHS and len(rest) == 1 and rest[0] in LENGTHS[kind]:
            return f"{name}.{LENGTHS[kind][rest[0]]}"
        if kind.startswith(("[", "Vec<")) and rest in ([], ["items"]):
            return f"{name}.len()"
        raise Unknown

    def value(self, word):
        name, rest, kind = self.root(word)
        if kind in NUMBERS and not rest:
            return name, "number"
        if kind == "char" and not rest:
            return f"u32::from({name})", "number"
        if kind == "bool" and not rest:
            return name, "bool"
        if kind == "hb_glyph_info_t" and rest in (["glyph_id"], ["cluster"], ["mask"]):
            return f"{name}.{rest[0]}", "number"
        if kind == "hb_buffer_t" and rest == ["positions"]:
            return self.positions(word), "positions"
        if kind in FIELDS and len(rest) == 1 and rest[0] in FIELDS[kind]:
            return f"{name}.{FIELDS[kind][rest[0]]}", "bool" if rest[0] in BOOLEANS else "number"
        raise Unknown


def compared(left, sign, right):
    if left[1] != right[1]:
        raise Unknown
    if left[1] == "bool":
        if right[0] not in ("true", "false") or sign not in ("==", "!="):
            raise Unknown
        return (left[0] if (right[0] == "true") == (sign == "==") else negated(left[0])), "bool"
    if left[0] == "0" and sign == "<" and right[0].endswith(".len()") and not right[0].startswith("self.len"):
        return f"!{right[0].removesuffix('.len()')}.is_empty()", "bool"
    return f"{left[0]} {sign} {right[0]}", "bool"


def negated(test):
    for sign, other in ((" <= ", " > "), (" < ", " >= "), (" == ", " != "), (" != ", " == ")):
        if sign in test:
            return test.replace(sign, other, 1)
    return test[1:] if test.startswith("!") else f"!{test}"


def types_of(parameters, owner):
    """The types of parameters, references taken off."""
    types = {"self": owner} if owner else {}
    for name, kind in parameters:
        types[name.removeprefix("mut ").strip()] = re.sub(r"^&\s*('\w+\s+)?(mut\s+)?", "", kind).strip()
    return types
