"""Rows of `rows/breaks`: texts that HarfBuzz marks as safe to break where its own `hb-shape` gives something else for the two parts.

The answer of such a row has HarfBuzz's glyphs, positions and flags, and where the parts differ from the whole, the first glyphs of the
cluster there are marked as unsafe to break and to concatenate too. A row names its script and direction, which are those of the parts.

Beside these it may have marks of what is unsafe to concatenate, and no others. In the files `concatenation-*` those are all that HarfBuzz's
answers lack: its marks of breaks are the row's, the parts are not asked for, and a row need not name its script. In the files `contexts-*`
each part is asked for alone, and with the other as its context.
"""

import re
from collections import defaultdict
from dataclasses import replace

UNSAFE, UNSAFE_TO_CONCAT = 3, 2
GLYPH = re.compile(r"(?P<name>[^=|]+)=(?P<cluster>\d+)(?P<rest>[^#|]*)(?:#(?P<flags>\w+))?")


def glyphs_of(answer):
    """The glyphs of an answer: name, cluster, position, flags."""
    return [(it["name"], int(it["cluster"]), it["rest"], int(it["flags"] or "0", 16)) for it in GLYPH.finditer(answer.strip("[]"))]


def written(glyphs):
    return "[" + "|".join(f"{name}={cluster}{rest}" + (f"#{flags:X}" if flags else "") for name, cluster, rest, flags in glyphs) + "]"


def cuts(glyphs):
    """Where the text may be cut: at the clusters, but for the first."""
    return sorted({cluster for _, cluster, *_ in glyphs})[1:]


def parts_of(row, cut, with_contexts):
    """The rows of both parts, alone or each with the other as its context."""
    codes = row.text.split(",")
    left, right = ",".join(codes[:cut]), ",".join(codes[cut:])
    contexts = [(f"--unicodes-after={right}",), (f"--unicodes-before={left}",)] if with_contexts else [(), ()]
    return [replace(row, text=text, options=row.options + more) for text, more in zip((left, right), contexts)]


def shapes(glyphs, moved=0):
    return [(name, cluster + moved, rest) for name, cluster, rest, _ in glyphs]


def marked(row, whole, said):
    """The answer with the marks that are missing. `said` has cuts, each with the answers to both parts."""
    glyphs = glyphs_of(whole)
    unsafe = set()
    for cut, left, right in said:
        halves = [shapes(glyphs_of(left)), shapes(glyphs_of(right), cut)]
        is_backward = bool({"--direction=rtl", "--direction=btt"} & set(row.options))
        if sum(reversed(halves) if is_backward else halves, []) != shapes(glyphs):
            unsafe.add(cut)
    return written((name, cluster, rest, flags | UNSAFE if cluster in unsafe else flags) for name, cluster, rest, flags in glyphs)


def has_marks(answer, wanted, more=(UNSAFE_TO_CONCAT,)):
    """Whether an answer has the glyphs, positions and flags that are wanted, and no other flag but that of what is unsafe to concatenate."""
    given, least = ([glyph.partition("#")[::2] for glyph in (said or "").strip("[]").split("|")] for said in (answer, wanted))
    flags = [(int(own or "0", 16), int(least or "0", 16)) for (_, own), (_, least) in zip(given, least)]
    is_same = [glyph for glyph, _ in given] == [glyph for glyph, _ in least]
    return is_same and all(own in (least, *(least | flag for flag in more)) for own, least in flags)


def has_needless_marks(answer, wanted):
    """The same, but that any glyph may be unsafe to break too."""
    return has_marks(answer, wanted, (UNSAFE_TO_CONCAT, UNSAFE))


def answers(program, rows, has_contexts=False):
    """What `hb-shape` answers to rows, with the marks that are missing there. With contexts the parts are asked for in both ways."""
    wholes = program.answers([row.line() for row in rows])
    asked = [(at, cut, parts_of(row, cut, way)) for at, (row, whole) in enumerate(zip(rows, wholes)) for cut in cuts(glyphs_of(whole or ""))
             for way in ([False, True] if has_contexts else [False])]
    halves = iter(program.answers([part.line() for _, _, parts in asked for part in parts]))
    said = defaultdict(list)
    for at, cut, _ in asked:
        said[at].append((cut, next(halves) or "", next(halves) or ""))
    return [whole and marked(row, whole, said[at]) for at, (row, whole) in enumerate(zip(rows, wholes))]
