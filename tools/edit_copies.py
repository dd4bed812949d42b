"""Plants wrong bodies beside the right ones: a copy of a function, of a name of its own, has the wrong body, and a copy of the answers
of its proof.

So what calls the function, and the copy where it calls itself, calls the right one, by its contract, and one check tells of as many wrong bodies as one
likes. What changes a function of a trait, one of a cycle of calls, several functions or a table is planted in its place.
"""

import re
from dataclasses import dataclass

from edit_contracts import answers_of, by_contract, is_of_a_cycle
from wrong_bodies import Function, changed_functions, is_of_a_goal, place_in

# How many copies one check has at most.
COPIES = 24


@dataclass
class Copy:
    """A wrong body in a function of a name of its own."""

    edit: object
    function: Function
    name: str
    lines: list

    def printed(self):
        """The end of its name as the check prints it."""
        return self.function.printed(self.edit.crate).removesuffix(self.function.name) + self.name


def edited_text(edit, is_right):
    """The text of the edit's file with its new texts, or as it is, and the lines on which they stand; None where it has several files."""
    paths = {pair.file for pair in edit.pairs}
    if len(paths) != 1:
        return None
    text, places = (edit.crate / paths.pop()).read_text(), []
    for pair in edit.pairs:
        places.append(text.count("\n", 0, text.index(pair.old)))
        text = text if is_right else text.replace(pair.old, pair.new)
    return text, places


def copy_of(edit, number, is_right=False):
    """The edit as a copy with this number, or None where it has to stand in its place."""
    changed, edited = changed_functions(edit), edited_text(edit, is_right)
    if len(changed) != 1 or edited is None:
        return None
    it, (text, places) = changed[0], edited
    folder, _ = answers_of(it, edit.crate)
    lines = text.split("\n")
    if it.trait or is_of_a_cycle(it, lines, folder) or not all(it.top <= place <= it.last for place in places):
        return None
    name, whole = f"{it.name}_copy_{number}", "\n".join(lines[it.top : it.last + 1])
    return Copy(edit, it, name, re.sub(rf"\bfn {it.name}\b", f"fn {name}", whole, count=1).split("\n"))


def copies_of(edits, is_right=False):
    """These edits as copies, each with a number of its own, and those that are none. Of right bodies each function has one copy."""
    made = [(edit, copy_of(edit, number, is_right)) for number, edit in enumerate(edits, 1)]
    copies = {copy.function.key if is_right else number: copy for number, (_, copy) in enumerate(made) if copy}
    return [*copies.values()], [edit for edit, copy in made if copy is None]


def chunks_of(copies):
    """These copies in as few lists of about the same length as one check may have, those of a crate beside each other."""
    count = -(-len(copies) // COPIES)
    size = -(-len(copies) // max(count, 1))
    return [copies[at * size : (at + 1) * size] for at in range(count)]


def by_crate(copies):
    """Lists of the copies of each crate, by the crates."""
    found = {}
    for copy in copies:
        found.setdefault(copy.edit.crate, []).append(copy)
    return found


def copied_answers(copy):
    """The answers of the copy, by their paths in the crate."""
    folder, path = answers_of(copy.function, copy.edit.crate)
    texts = {}
    for file in sorted((folder / copy.function.name).glob("*.antt")):
        text = file.read_text().replace(f"{path}.{copy.function.name}.", f"{path}.{copy.name}.")
        texts[(folder / copy.name / file.name)] = text
    return texts


def planted(copies):
    """The texts with these copies, where all other functions of their crates go by their contracts, by their paths, and of each copy the lines
    on which it stands, counted from 1."""
    texts, spans = {}, {}
    for crate, own in by_crate(copies).items():
        more, lines = planted_in(crate, own)
        texts, spans = texts | more, spans | lines
    return texts, spans


def planted_in(crate, copies):
    """The same of the copies of one crate."""
    texts, spans, moved = by_contract(crate, {}, set()), {}, {}
    for copy in sorted(copies, key=lambda it: (it.function.file, it.function.last)):
        path = copy.function.file
        lines = texts[path].split("\n")
        at = copy.function.last + 1 + moved.get(path, 0)
        texts[path] = "\n".join([*lines[:at], *copy.lines, *lines[at:]])
        moved[path] = moved.get(path, 0) + len(copy.lines)
        spans[copy.name] = path, at + 1, at + len(copy.lines)
        texts |= copied_answers(copy)
    return texts, spans


def is_refused(copy, span, lines):
    """Whether a check says of a goal of this copy that it is not proved."""
    path, first, last = span
    folder = "/" + copy.printed().removeprefix(f"{copy.edit.crate.name}::").replace("::", "/")
    for line in filter(is_of_a_goal, lines):
        place = place_in(line, copy.edit.crate)
        if place and (place[0] == path and first <= place[1] <= last or f"/{place[0].parent}".endswith(folder)):
            return True
    return False
