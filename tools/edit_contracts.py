"""Takes the functions of a crate by their contracts, so that a check of some of them proves none of those that they call.

Such a function has a body that never returns, which calls nothing, and a proof that is a hole, so that a check with `--allow-holes` goes by its
contract. That its own body meets it `rt ci` shows. A function of a trait, of a cycle of calls or that is const stays as it is.
"""

import re
from functools import lru_cache

from wrong_bodies import functions_of, sources_of

# What the check is called with besides.
WORDS = ["--allow-holes"]

# The files of a proof, in whose place the hole stands.
ANSWERS = ("Answers.antt", "Invariants.antt")

BODY = "    loop {}"
HOLE = """use Rattle.{path}.{name}.Statement.{{statement}}

pub {name}_spec : {{M : Type 1}} → statement M
{name}_spec = ?
"""


@lru_cache(maxsize=None)
def files_of_types(crate):
    """The source files in which the types of a crate are declared, by their names."""
    found = {}
    for file in sources_of(crate):
        for name in re.findall(r"^ *(?:pub(?:\(\w+\))? )?(?:struct|enum) (\w+)", file.read_text(), re.M):
            found.setdefault(name, []).append(file)
    return found


def answers_of(function, crate):
    """The folder of the answers of a function's proof, and its path as answers name it: a method's stands where its type is declared."""
    files = files_of_types(crate).get(function.owner, [function.file])
    file = function.file if function.file in files else files[0]
    place = file.relative_to(crate / "src").with_suffix("")
    parts = [] if place.parts in (("lib",), ("main",)) else [*place.parts]
    parts += [function.owner] if function.owner else []
    return crate.joinpath("proofs", *parts), ".".join(["proofs", *parts])


def is_of_a_cycle(function, lines, folder):
    """Whether a function is proved together with others, or by the answers of its own contract."""
    return (folder / f"+{function.name}").exists() or "#[cycle(" in "\n".join(lines[function.top : function.last + 1])


def goes_by_contract(function, lines, folder):
    opening = function.last - len(function.whole) + 1
    head = "\n".join(lines[function.first : opening + 1])
    is_plain = not re.search(r"\bconst fn\b|-> impl\b", head) and head.endswith("{") and function.whole[-1].strip() == "}"
    return is_plain and len(function.whole) > 2 and not function.trait and not is_of_a_cycle(function, lines, folder)


def by_contract(crate, texts, keys):
    """These texts of a crate, by their paths, where all functions but those with these keys go by their contracts. None stands for a file
    that is to go. No line is moved."""
    found = {path: text.split("\n") for path, text in texts.items()}
    proofs = {}
    for it in functions_of(crate):
        lines, (folder, path) = found.setdefault(it.file, it.file.read_text().split("\n")), answers_of(it, crate)
        if it.key in keys or not goes_by_contract(it, lines, folder):
            continue
        opening = it.last - len(it.whole) + 1
        lines[opening + 1 : it.last] = [BODY, *[""] * (len(it.whole) - 3)]
        proofs |= {folder / it.name / name: None for name in ANSWERS if (folder / it.name / name).exists()}
        proofs[folder / it.name / "Proof.antt"] = HOLE.format(path=f"{crate.name}.{path}", name=it.name)
    return {path: "\n".join(lines) for path, lines in found.items()} | proofs
