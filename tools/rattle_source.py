"""Reads Rattle source: the words of a file, and the items that they make.

A word is a piece of the text with a kind and a line; all of them end to end are the text. An item is a function, a
type, a trait, an implementation or another declaration, with the places of its words: its documentation, its
attributes, its clauses and its body. What is not known is a `Refused` that names file and line.
"""

import re
from dataclasses import dataclass, field
from functools import lru_cache

WORD = re.compile(
    r"""(?P<space>\s+)
    | (?P<inner>//![^\n]*)
    | (?P<doc>///(?!/)[^\n]*)
    | (?P<comment>//[^\n]*)
    | (?P<text>b?"(?:\\.|[^"\\])*" | b?r(?P<hashes>\#*)".*?"(?P=hashes))
    | (?P<char>b?'(?:\\(?:x[0-9a-fA-F]{2}|u\{[0-9a-fA-F_]+\}|.)|[^'\\\n])')
    | (?P<name>[^\W\d]\w*'*)
    | (?P<number>\d\w*(?:\.\d\w*)?)
    | (?P<lifetime>'\w+)
    | (?P<sign>->|=>|::|\.\.=|\.\.|.)""",
    re.X | re.S,
)

CLOSING = {"(": ")", "[": "]", "{": "}"}
MODIFIERS = ("const", "unsafe", "async", "extern")


class Refused(Exception):
    """What the reader, or a tool that reads by it, does not know."""


@dataclass
class Word:
    kind: str
    text: str
    line: int


@dataclass
class Clause:
    """`requires NAME { TEXT }` or `ensures`, or a ghost member. Its words are those from `first` up to `last`."""

    kind: str
    name: str
    text: str
    first: int
    last: int


@dataclass
class Attribute:
    name: str
    first: int
    last: int


@dataclass
class Item:
    """A declaration. Words are named by their places: the item has those from `first` up to `last`, and its own text
    begins at `start`, after documentation and attributes."""

    kind: str
    name: str = ""
    first: int = 0
    start: int = 0
    last: int = 0
    docs: list = field(default_factory=list)
    attributes: list = field(default_factory=list)
    visibility: str = ""
    clauses: list = field(default_factory=list)
    items: list = field(default_factory=list)
    parameters: tuple = (0, 0)
    signature_end: int = 0
    body: tuple = None
    trait: str = ""
    generics: str = ""

    @property
    def is_public(self):
        return self.visibility == "pub"

    @property
    def ensures(self):
        return [clause for clause in self.clauses if clause.kind == "ensures"]

    @property
    def requires(self):
        return [clause for clause in self.clauses if clause.kind == "requires"]


@lru_cache(maxsize=None)
def scanned(text):
    """The words of a text, the places of its bare words, and the rank of each of these."""
    words, line = [], 1
    for match in WORD.finditer(text):
        words.append(Word(match.lastgroup if match.lastgroup != "hashes" else "text", match[0], line))
        line += match[0].count("\n")
    bare = [i for i, word in enumerate(words) if word.kind not in ("space", "comment", "doc", "inner")]
    return words, bare, {place: i for i, place in enumerate(bare)}


class Source:
    """The words of a file."""

    def __init__(self, path, text):
        self.path = path
        self.words, self.bare, self.rank = scanned(text)

    def refuse(self, place, what):
        line = self.words[min(place, len(self.words) - 1)].line if self.words else 0
        raise Refused(f"{self.path}:{line}: {what}")

    def text(self, first, last):
        return "".join(word.text for word in self.words[first:last])

    def after(self, place, steps=1):
        """The place of the word that comes so many bare words later."""
        at = self.rank[place] + steps
        return self.bare[at] if 0 <= at < len(self.bare) else len(self.words)

    def at(self, place):
        return self.words[place].text if place < len(self.words) else ""

    def closing(self, place):
        """The place of the bracket that closes the one at `place`."""
        stack = []
        for at in self.bare[self.rank[place] :]:
            text = self.words[at].text
            if self.words[at].kind == "sign" and text in CLOSING:
                stack.append(CLOSING[text])
            elif self.words[at].kind == "sign" and text in ")]}":
                if not stack or stack.pop() != text:
                    self.refuse(at, f"a `{text}` closes nothing")
                if not stack:
                    return at
        self.refuse(place, f"a `{self.at(place)}` is not closed")

    def closing_angle(self, place):
        depth, at = 0, place
        while at < len(self.words):
            text = self.at(at)
            if text in CLOSING:
                at = self.closing(at)
            depth += (text == "<") - (text == ">")
            if depth == 0:
                return at
            at = self.after(at)
        self.refuse(place, "a `<` is not closed")

    def split(self, first, last, sign=","):
        """The pieces from `first` up to `last` that the sign parts, brackets left whole, as pairs of places."""
        pieces, at, start, angles = [], first, first, 0
        while at < last:
            text = self.at(at)
            if text in CLOSING and self.words[at].kind == "sign":
                at = self.closing(at)
            elif text == "<":
                angles += 1
            elif text == ">":
                angles -= 1
            elif text == sign and angles <= 0:
                pieces.append((start, at))
                start = self.after(at)
            at = self.after(at)
        return pieces + ([(start, last)] if start < last else [])


class Reader:
    """Reads the items of a source file."""

    def __init__(self, path, text):
        self.source = Source(path, text)
        self.inner_docs = [i for i, word in enumerate(self.source.words) if word.kind == "inner"]
        self.place = 0
        self.inner_attributes = []
        self.items = self.read_items(len(self.source.words))

    def skip(self, kinds=("space", "comment", "inner")):
        while self.place < len(self.source.words) and self.source.words[self.place].kind in kinds:
            self.place += 1

    def text(self):
        return self.source.at(self.place)

    def step(self):
        """Takes one bare word, and goes to the next."""
        taken = self.place
        self.place = self.source.after(self.place)
        return taken

    def take(self, wanted):
        if self.text() != wanted:
            self.source.refuse(self.place, f"`{wanted}` was looked for, and `{self.text()}` stands there")
        return self.step()

    def read_items(self, last):
        items = []
        while True:
            self.skip()
            if self.place >= last:
                return items
            items.append(self.read_item())

    def read_item(self):
        item = Item("", first=self.place)
        while self.source.words[self.place].kind == "doc" or self.text() == "#":
            if self.source.words[self.place].kind == "doc":
                item.docs.append(self.place)
                self.place += 1
            elif not self.read_attribute(item):
                return Item("inner attribute", first=item.first, start=item.first, last=self.place)
            self.skip()
        item.start = self.place
        if self.text() == "pub":
            self.step()
            item.visibility = "pub"
            if self.text() == "(":
                end = self.source.closing(self.place)
                item.visibility = "pub" + self.source.text(self.place, end + 1)
                self.place = self.source.after(end)
        self.read_declaration(item)
        return item

    def read_attribute(self, item):
        """An attribute. Whether it is one of the item that follows."""
        first = self.step()
        is_inner = self.text() == "!"
        if is_inner:
            self.step()
        name = self.source.at(self.source.after(self.place))
        end = self.source.closing(self.place)
        attribute = Attribute(name, first, end + 1)
        self.place = end + 1
        (self.inner_attributes if is_inner else item.attributes).append(attribute)
        return not is_inner

    def read_declaration(self, item):
        word, following = self.text(), self.source.at(self.source.after(self.place))
        if word == "ghost":
            return self.read_ghost(item)
        if (word, following) == ("extern", "crate"):
            item.kind = "extern crate"
            return self.read_to_semicolon(item)
        if word in MODIFIERS and (following in (*MODIFIERS, "fn") or word == "extern") or word == "fn":
            return self.read_function(item)
        readers = {
            "use": self.read_to_semicolon, "mod": self.read_module, "const": self.read_to_semicolon,
            "static": self.read_to_semicolon, "type": self.read_to_semicolon, "struct": self.read_struct,
            "enum": self.read_enum, "trait": self.read_block, "impl": self.read_block,
        }
        if word not in readers:
            self.source.refuse(self.place, f"no item begins with `{word}`")
        item.kind = word
        readers[word](item)

    def end_item(self, item, place):
        item.last = place + 1
        self.place = place + 1

    def read_to_semicolon(self, item):
        if item.kind != "use":
            item.name = self.source.at(self.source.after(self.place))
        at = self.place
        while self.source.at(at) != ";":
            at = self.source.after(self.source.closing(at) if self.source.at(at) in CLOSING else at)
            if at >= len(self.source.words):
                self.source.refuse(item.start, "no `;` ends this")
        self.end_item(item, at)

    def read_ghost(self, item):
        """`ghost use ..;`, or a ghost member `ghost NAME: { .. } = { .. };`."""
        item.kind = "ghost"
        following = self.source.after(self.place)
        item.name = self.source.at(following)
        self.read_to_semicolon(item)
        if item.name == "use":
            item.name = ""
        else:
            item.name = self.source.at(following)

    def read_module(self, item):
        item.name = self.source.at(self.source.after(self.place))
        if self.source.at(self.source.after(self.place, 2)) != ";":
            self.source.refuse(self.place, "a module stands in a file of its own")
        self.read_to_semicolon(item)

    def read_generics(self, item):
        if self.text() == "<":
            end = self.source.closing_angle(self.place)
            item.generics = self.source.text(self.place, end + 1)
            self.place = self.source.after(end)

    def read_function(self, item):
        while self.text() in MODIFIERS or self.source.words[self.place].kind == "text":
            self.step()
        self.take("fn")
        item.kind, item.name = "fn", self.text()
        self.step()
        self.read_generics(item)
        if self.text() != "(":
            self.source.refuse(self.place, f"`fn {item.name}` has no parameters")
        end = self.source.closing(self.place)
        item.parameters = (self.source.after(self.place), end)
        self.place = self.source.after(end)
        while self.text() not in ("requires", "ensures", "{", ";"):
            if self.place >= len(self.source.words):
                self.source.refuse(item.start, f"`fn {item.name}` has no end")
            self.place = self.source.after(
                self.source.closing(self.place) if self.text() in CLOSING else self.place)
        item.signature_end = self.place
        while self.text() in ("requires", "ensures"):
            item.clauses.append(self.read_clause())
        if self.text() == ";":
            return self.end_item(item, self.place)
        if self.text() != "{":
            self.source.refuse(self.place, f"`{self.text()}` stands between the clauses of `fn {item.name}`")
        item.body = (self.place, self.source.closing(self.place))
        self.end_item(item, item.body[1])

    def read_clause(self):
        kind, first = self.text(), self.step()
        if self.text() == "*":
            kind += "*"
            self.step()
        name = ""
        if self.text() != "{":
            name = self.source.at(self.step())
        if self.text() != "{":
            self.source.refuse(first, f"this `{kind}` has no braces")
        end = self.source.closing(self.place)
        text = self.source.text(self.place + 1, end).strip()
        self.place = self.source.after(end)
        return Clause(kind.rstrip("*"), name, text, first, end + 1)

    def read_struct(self, item):
        self.step()
        item.name = self.text()
        self.step()
        self.read_generics(item)
        while self.text() not in ("{", "(", ";"):
            self.step()
        if self.text() == "(":
            self.place = self.source.after(self.source.closing(self.place))
        if self.text() == "{":
            end = self.source.closing(self.place)
            self.place += 1
            item.items = self.read_fields(end)
            return self.end_item(item, end)
        if self.text() != ";":
            self.source.refuse(self.place, f"`struct {item.name}` does not end here")
        self.end_item(item, self.place)

    def read_fields(self, last):
        """The fields of a struct, or the variants of an enum."""
        fields = []
        while True:
            self.skip()
            if self.place >= last:
                return fields
            item = Item("field", first=self.place)
            while self.source.words[self.place].kind == "doc" or self.text() == "#":
                if self.source.words[self.place].kind == "doc":
                    item.docs.append(self.place)
                    self.place += 1
                else:
                    self.read_attribute(item)
                self.skip()
            item.start = self.place
            if self.text() == "pub":
                item.visibility = "pub"
            words = [self.text(), self.source.at(self.source.after(self.place))]
            if "ghost" in words[: 2 if words[0] == "pub" else 1]:
                item.kind = "ghost"
            pieces = self.source.split(self.place, last)
            item.last = pieces[0][1]
            self.name_field(item)
            if self.source.at(item.last) == ",":
                item.last += 1
            fields.append(item)
            self.place = item.last

    def name_field(self, item):
        at = item.start
        while self.source.at(at) in ("pub", "ghost") or self.source.at(at) == "(":
            at = self.source.after(self.source.closing(at) if self.source.at(at) == "(" else at)
        item.name = self.source.at(at)

    def read_enum(self, item):
        self.step()
        item.name = self.text()
        self.step()
        self.read_generics(item)
        end = self.source.closing(self.place)
        self.place += 1
        item.items = self.read_fields(end)
        self.end_item(item, end)

    def read_block(self, item):
        """A trait or an implementation, with the items in it."""
        self.step()
        if item.kind == "impl":
            self.read_generics(item)
        head = self.place
        while self.text() != "{":
            if self.text() == "for":
                item.trait = self.source.text(head, self.place).strip()
                head = self.source.after(self.place)
            self.place = self.source.after(self.place)
            if self.place >= len(self.source.words):
                self.source.refuse(item.start, f"this `{item.kind}` has no body")
        item.name = self.source.text(head, self.place).strip()
        item.name = re.match(r"&?\w*", item.name)[0] or item.name
        end = self.source.closing(self.place)
        self.place += 1
        item.items = self.read_items(end)
        self.end_item(item, end)


def every(items):
    """These items and those in them."""
    for item in items:
        yield item
        yield from every(item.items)


def functions(items, owner=None, trait=None):
    """The functions among these items that have a body, each with its type and its trait."""
    for item in items:
        if item.kind == "fn" and item.body:
            yield item, owner, trait
        elif item.kind == "impl":
            yield from functions(item.items, item.name, re.sub(r"<.*", "", item.trait) or None)
