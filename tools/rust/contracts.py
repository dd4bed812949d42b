"""Contracts as documentation: what a function requires, when it answers an error, and what is proved of it, clause by
clause as they stand in the source."""

import re
import textwrap

from checks import Clauses, types_of

WIDTH = 100

# What a sentence says that speaks of a refusal or an error.
ERRORS = re.compile(r"`Ok\(false\)`|`Ok\(None\)`|`Err\b|\brefused\b|Error::|[Oo]ut of memory|[Mm]emory ran out|memory runs out")


def doc_lines(erased, item):
    """The documentation of an item, without its signs."""
    return [erased.source.words[at].text[3:].removeprefix(" ") for at in item.docs]


def put_docs(erased, item, lines):
    if item.docs:
        erased.cut(item.docs[0], item.docs[-1] + 1)
    text = "\n".join(f"/// {line}".rstrip() for line in lines)
    place = item.docs[0] if item.docs else item.first
    own = erased.paths.modules[erased.paths.own]
    erased.prefix[place] = erased.linked(text, own) + ("" if item.docs else "\n")


def sentences(paragraph):
    """The sentences of a paragraph of documentation."""
    text = " ".join(paragraph)
    return re.split(r"(?<=[.!?])\s+(?=[A-Z`\[])", text)


def parted(lines, has_errors):
    """The description, the sentences of what is required, and those of errors."""
    kept, required, errors, paragraph = [], [], [], []

    def close():
        if not paragraph:
            return
        if paragraph[0].startswith(("- ", "#", "```", "|")):
            kept.extend(paragraph)
        else:
            rest = []
            for sentence in sentences(paragraph):
                if sentence.startswith("Requires"):
                    required.append(sentence)
                elif has_errors and (ERRORS.search(sentence) or errors and sentence.startswith(("With `", "Then "))):
                    errors.append(sentence)
                else:
                    rest.append(sentence)
            kept.extend(textwrap.wrap(" ".join(rest), WIDTH, break_long_words=False, break_on_hyphens=False))
        paragraph.clear()

    for line in [*lines, ""]:
        if line.strip() and not (line.startswith("- ") and paragraph and not paragraph[0].startswith("- ")):
            paragraph.append(line)
            continue
        close()
        if line.strip():
            paragraph.append(line)
        elif kept and kept[-1]:
            kept.append("")
    while kept and not kept[-1]:
        kept.pop()
    return kept, required, errors


def clause_text(clause):
    """A clause as it stands in the source, one step less indented."""
    head = " ".join(word for word in (clause.kind, clause.name) if word)
    lines = clause.text.splitlines()
    rest = textwrap.dedent("\n".join(lines[1:])).splitlines() if len(lines) > 1 else []
    body = "\n".join([lines[0].strip(), *(f"    {line}" for line in rest)]) if lines else ""
    return f"{head} {{ {body} }}"


def in_code(texts):
    return ["```text", *"\n".join(texts).splitlines(), "```"]


def section(title, *parts):
    lines = [line for part in parts if part for line in [*part, ""]]
    return ["", f"# {title}", "", *lines[:-1]] if lines else []


def wrapped(sentences_):
    sentences_ = [re.sub(r"^Requires (\w?)", lambda match: match[1].upper(), sentence) for sentence in sentences_]
    return textwrap.wrap(" ".join(sentences_), WIDTH, break_long_words=False, break_on_hyphens=False)


def bullets(clauses):
    lines = []
    for clause in clauses:
        text = " ".join(clause.text.split())
        lines.append(f"- `{clause.name + ': ' if clause.name else ''}{text}`")
    return lines


def answers_errors(erased, item):
    returned = erased.source.text(item.parameters[1] + 1, item.signature_end)
    return re.search(r"->\s*(?:io::)?Result\b", returned)


def default_error(erased, item):
    returned = erased.source.text(item.parameters[1] + 1, item.signature_end)
    return "`Err(AllocError)` where memory ran out." if "AllocError" in returned else "`Err`: the clauses below say when."


def document_function(erased, item, parent):
    """Writes the documentation of a function, and the tests of what it requires."""
    is_public = item.is_public or parent is not None and parent.kind == "trait"
    lines, required, errors = parted(doc_lines(erased, item), bool(answers_errors(erased, item)))
    lines += section("Requires", wrapped(required), bullets(item.requires))
    if is_public and answers_errors(erased, item) and not any("Err" in sentence for sentence in errors):
        errors.append(default_error(erased, item))
    lines += section("Errors", wrapped(errors))
    if is_public:
        proved = [clause_text(clause) for clause in item.ensures]
        lines += section("Proved", in_code(proved) if proved else ["That it returns."])
    while lines and not lines[0]:
        lines.pop(0)
    if lines and lines != doc_lines(erased, item):
        put_docs(erased, item, lines)
    if item.body:
        write_tests(erased, item, parent)


def ghosts(erased, item):
    """The ghost members of a trait, a type or an implementation, as they stand."""
    found = []
    for inner in item.items:
        if inner.kind == "ghost" and inner.name:
            text = erased.source.text(inner.start, inner.last).rstrip(";,")
            found.append(textwrap.dedent(" " * 4 + text))
    return found


def document_type(erased, item, parent):
    """Writes of a type what holds of all its values, and what contracts see of it."""
    said = ghosts(erased, item)
    said += erased.models.get(item.name, []) if item.kind == "struct" else []
    if not said or not item.is_public and item.kind != "impl":
        return
    put_docs(erased, item, [*doc_lines(erased, item), *section("Proved", in_code(said))])


def parameters_of(erased, item):
    first, last = item.parameters
    for start, end in erased.source.split(first, last):
        name, _, kind = erased.source.text(start, end).partition(":")
        yield name.strip(), kind.strip()


def write_tests(erased, item, parent):
    """Puts the tests at the front of the body."""
    reader = Clauses(types_of(parameters_of(erased, item), parent.name if parent is not None else None))
    tests = [reader.test_of(clause.text) for clause in item.requires]
    texts = [f"debug_assert!({test[0]});" for test in tests if test]
    if texts:
        place = erased.source.after(item.body[0])
        erased.prefix[place] = "\n".join(texts) + "\n" + erased.prefix.get(place, "")
