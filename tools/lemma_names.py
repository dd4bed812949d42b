"""Finds the lemmas that are equations and are not named by the left side of their equation.

A lemma's name has the word that its left side begins with: `length-append` says what `length (xs ++ ys)` is. Of a field it is
the field's name, of an operator the operator's. A test, whose other side is `true` or `false`, is named for what it says, and
so is an equation whose left side is a variable, a record or a variant.
"""

import re

OPERATORS = [
    {"&&": "and", "||": "or"},
    {"==": "eq"},
    {"++": "append", "∷": "cons"},
    {"+": "add", "-": "sub", "+ℤ": "add", "-ℤ": "sub"},
    {"*": "mul", "/": "div", "%": "mod", "*ℤ": "mul"},
    {"^": "pow"},
]
WORD = re.compile(r"--[^\n]*|[^\W\d◌][\w'-]*(?:\.[\w'-]+)*|\d\w*|[(){}\[\],;.]|[^\s\w(){}\[\],;.]+")
SIGNATURE = re.compile(r"^(?:pub )?([^\W\d][\w'-]*) : (.*(?:\n +.*)*)", re.M)
OPENING, CLOSING = "([{", ")]}"


def split_at(words, sign):
    """The parts of a list of words between the signs that stand in no bracket."""
    depth, parts = 0, [[]]
    for word in words:
        depth += (word in OPENING) - (word in CLOSING)
        if depth == 0 and word == sign:
            parts.append([])
        else:
            parts[-1].append(word)
    return parts


def closing_of(words):
    """The place of the bracket that closes the first one."""
    depth = 0
    for place, word in enumerate(words):
        depth += (word in OPENING) - (word in CLOSING)
        if depth == 0:
            return place
    return len(words)


def first_word(words):
    """The word that names an expression, or None where it has no name."""
    while words and words[0] == "(" and closing_of(words) == len(words) - 1:
        words = words[1:-1]
    for level in OPERATORS:
        for sign, name in level.items():
            if len(split_at(words, sign)) > 1:
                return name
    if words and words[0] == "(":
        behind = words[closing_of(words) + 1 :]
        return behind[1].rpartition(".")[2] if behind[:1] == ["."] else None
    return words[0].rpartition(".")[2] if words and words[0] != "record" and words[0][0].islower() else None


def left_side(signature):
    """The left side of the equation that a lemma ends with, or None."""
    words = [word for word in WORD.findall(signature) if not word.startswith("--")]
    sides = split_at(split_at(words, "→")[-1], "≡")
    if len(sides) != 2 or sides[1] in (["true"], ["false"]) or {"×", "⊎", "↔"} & {*sides[0], *sides[1]}:
        return None
    variables = {name for names in re.findall(r"[({]([^():{}]+) :", signature) for name in names.split()}
    return None if sides[0][0] in variables else sides[0]


def misnamed(text):
    """The lemmas of a file whose names leave out the first word of their left sides, with these words."""
    for name, signature in SIGNATURE.findall(text):
        side = left_side(signature)
        word = first_word(side) if side else None
        if word and word.lower() not in name.lower():
            yield name, word
