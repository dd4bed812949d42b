"""Reads the wrong bodies of crates, and the functions that they change.

A wrong body, or edit, is a file of a crate's folder `must-fail`, which `rt ci` tries one by one, or of its folder
`wrong-bodies`, which `tools/edits` plants many at once. It says what stands in such a file.
"""

import re
from dataclasses import dataclass, field
from pathlib import Path

from rattle_source import Reader, functions

ROOT = Path(__file__).resolve().parent.parent
FOLDERS = ("must-fail", "wrong-bodies")


@dataclass
class Pair:
    """A text of a file, and what takes its place."""

    file: str
    old: str
    new: str = None
    control: str = None


@dataclass
class Edit:
    """One wrong body, as its file has it."""

    path: Path
    words: dict = field(default_factory=dict)
    pairs: list = field(default_factory=list)
    faults: list = field(default_factory=list)

    @property
    def crate(self):
        return self.path.parent.parent

    @property
    def folder(self):
        return self.path.parent.name

    @property
    def label(self):
        return f"{self.crate.name}/{self.path.stem}"


@dataclass
class Function:
    """A function of a source file, with the lines of its body, also with those of its braces. Its lines are counted from 0: `top` has
    its documentation and attributes, `last` is its own. It promises something where it has an `ensures`."""

    file: Path
    owner: str
    trait: str
    name: str
    is_public: bool
    promises: bool
    top: int
    first: int
    last: int
    body: list
    whole: list

    @property
    def key(self):
        return self.file, self.first

    @property
    def full(self):
        return f"{self.owner}::{self.name}" if self.owner else self.name

    def printed(self, crate):
        """The end of its name as `rt check` prints it."""
        if self.trait:
            return f"{self.owner[0].upper()}{self.owner[1:]}{self.trait.split('::')[-1]}::{self.name}"
        place = self.file.relative_to(crate / "src").with_suffix("")
        module = crate.name if self.file.stem in ("lib", "main") else "::".join(place.parts)
        return f"{self.owner or module}::{self.name}"

    def hands_on(self):
        call = r" *(\w+::)*\w+\((&?(mut )?\w+(, )?)*\);?"
        return len(self.body) == 1 and re.fullmatch(call, self.body[0]) is not None


# The edits and the functions, as they are read.


def read_edit(path):
    edit, file = Edit(path), None
    for line in path.read_text().splitlines():
        word, _, text = line.partition(":")
        text = text.removeprefix(" ")
        if word in ("promise", "why", "of", "gate"):
            if word in edit.words:
                edit.faults.append("it has several parts, and an edit is one wrong body")
            edit.words[word] = text.strip()
        elif word == "file":
            file = text.strip()
        elif word == "old":
            edit.pairs.append(Pair(file, text))
        elif word in ("new", "control") and edit.pairs and getattr(edit.pairs[-1], word) is None:
            setattr(edit.pairs[-1], word, text)
        elif line.strip():
            edit.faults.append(f"a line is out of its place: {line}")
    return edit


def edits_of(names):
    """The edits of these crates, or these edits, or all, of both folders."""
    files = sorted((path for folder in FOLDERS for path in ROOT.glob(f"crates/*/{folder}/*.edit")), key=lambda it: (it.parent.parent, it.name))
    return [edit for edit in map(read_edit, files) if not names or edit.crate.name in names or edit.label in names]


def functions_in(file, text, with_defaults=False):
    """The functions of a source file that have a body, also the bodies that a trait has by default, where these are asked for."""
    reader, lines = Reader(file, text), text.splitlines()
    words = reader.source.words
    found = [*functions(reader.items)]
    if with_defaults:
        found += [it for item in reader.items if item.kind == "trait" for it in functions(item.items, item.name)]
    for item, owner, trait in found:
        opening, closing = (words[place].line - 1 for place in item.body)
        top, first = words[item.first].line - 1, words[item.start].line - 1
        yield Function(
            file, owner, trait, item.name, item.is_public, bool(item.ensures), top, first, closing, lines[opening + 1 : closing],
            lines[opening : closing + 1])


def sources_of(crate):
    return sorted((crate / "src").rglob("*.rt"))


def functions_of(crate, with_defaults=False):
    for file in sources_of(crate):
        yield from functions_in(file, file.read_text(), with_defaults)


def readers_of(crate):
    for file in sources_of(crate):
        yield Reader(file, file.read_text())


def texts_with(edit, word, texts):
    """These texts with those of the edit's pairs put in that have this word, or None where one does not fit."""
    texts = dict(texts)
    for pair in edit.pairs:
        if getattr(pair, word) is None:
            continue
        path = edit.crate / (pair.file or "")
        if not path.is_file():
            return None
        text = texts.get(path) or path.read_text()
        if text.count(pair.old) != 1:
            return None
        texts[path] = text.replace(pair.old, getattr(pair, word))
    return texts


def changed_functions(edit):
    """The functions in which the edit's texts stand. Each text is of one line, so all lines stay where they are."""
    found, texts = {}, {}
    for pair in edit.pairs:
        path = edit.crate / pair.file
        text = texts.get(path) or path.read_text()
        at = text.count("\n", 0, text.index(pair.old))
        texts[path] = text.replace(pair.old, pair.new)
        found |= {it.key: it for it in functions_in(path, text) if it.first <= at <= it.last}
    return [*found.values()]


def is_of_a_goal(line):
    """Whether a line of `rt check` speaks of a goal, and not of a name that an answer has and the edit took away."""
    said = re.match(r"(?:note: )?(?:\./|\w+/)?(?:src|proofs)/\S+?:\d+:\d+: (error.*|.*not proved that.*|.*found no proof.*)", line)
    gone = "has no field|is not in scope|has no `|was not admitted|can be named from here"
    return said is not None and not re.search(gone, said[1])


def left_open(lines):
    """The functions that `rt check` leaves without a proof, as it prints them."""
    return [found[1] for line in lines if (found := re.match(r"fn (\S+): (?:not proved|no proof)", line))]


def is_named(path, name):
    """Whether a path that `rt check` prints is that of the function with this name."""
    return f"::{path}".endswith(f"::{name}")


def place_in(line, crate):
    """The file of a crate, and the number of the line, of which a line of `rt check` speaks, if it does. Where several crates are
    checked the place begins with the name of its crate."""
    said = re.match(r"(?:note: )?(?:\./)?(?:(\w+)/)?((?:src|proofs)/\S+?):(\d+):\d+: ", line)
    return (crate / said[2], int(said[3])) if said and said[1] in (None, crate.name) else None


def speaks_of(line, function, crate):
    """Whether a line of `rt check` is of a place in this function, or in its answers."""
    place = place_in(line, crate)
    if not place:
        return False
    path, number = place
    if path == function.file:
        return function.top <= number - 1 <= function.last
    name = function.printed(crate).removeprefix(f"{crate.name}::")
    return f"/{path.parent}".endswith("/" + name.replace("::", "/"))