"""The layout tables of OpenType fonts, `GSUB`, `GPOS`, `GDEF` and `kern`: coverage, classes, lookups, contexts, features."""

from .opentype import Offset, numbers, offsets, table

IGNORE_BASES, IGNORE_LIGATURES, IGNORE_MARKS, RIGHT_TO_LEFT, USE_MARK_SET = 2, 4, 8, 1, 16


def runs(pairs):
    """Parts of a sorted list of pairs in which the first numbers follow each other, and the second are equal."""
    found = []
    for key, value in pairs:
        if found and found[-1][1] + 1 == key and found[-1][2] == value:
            found[-1][1] = key
        else:
            found.append([key, key, value])
    return found


def coverage(glyphs, ranges=False):
    glyphs = sorted(set(glyphs))
    if not ranges:
        return table(1, len(glyphs), *glyphs)
    parts = runs((glyph, 0) for glyph in glyphs)
    rows = [(first, last, sum(glyph < first for glyph in glyphs)) for first, last, _ in parts]
    return table(2, len(rows), *(number for row in rows for number in row))


def classes(by_glyph, ranges=True):
    """A class definition. Glyphs that are not named have class 0."""
    if ranges:
        rows = runs(sorted(by_glyph.items()))
        return table(2, len(rows), *(number for row in rows for number in row))
    first, last = min(by_glyph), max(by_glyph)
    return table(1, first, last - first + 1, *(by_glyph.get(glyph, 0) for glyph in range(first, last + 1)))


def device(first, deltas, form=3):
    """A device table: a number of 2, 4 or 8 bits for each size from the first on, the first one in the highest bits of a word."""
    bits = 2 ** form
    words = [0] * -(-len(deltas) * bits // 16)
    for at, delta in enumerate(deltas):
        words[at * bits // 16] |= (delta & (2 ** bits - 1)) << (16 - bits - at * bits % 16)
    return table(first, first + len(deltas) - 1, form, *words)


def anchor(x, y, point=None, devices=None):
    if devices:
        return table(3, x, y, *offsets(*devices))
    return table(1, x, y) if point is None else table(2, x, y, point)


def lookup(kind, flag, *subtables, mark_set=None):
    marks = () if mark_set is None else (mark_set,)
    return table(kind, flag, len(subtables), *offsets(*subtables), *marks)


def extension(kind, subtable):
    return table(1, kind, Offset(subtable, 4))


def tagged(rows):
    """A list of tags with an offset for each."""
    return table(len(rows), *(item for tag, data in rows for item in (tag.encode(), Offset(data))))


def layout(scripts, features, lookups):
    """`GSUB` or `GPOS`. A script has language systems, each of which has a required feature (or 0xFFFF) and its features."""
    tags = sorted(features)

    def system(required, chosen):
        return table(0, tags.index(required) if required else 0xFFFF, len(chosen), *sorted(tags.index(tag) for tag in chosen))

    def script(systems):
        rows = [(tag, system(*of)) for tag, of in sorted(systems.items()) if tag != "dflt"]
        default = system(*systems["dflt"]) if "dflt" in systems else None
        return table(Offset(default), len(rows), *(item for tag, data in rows for item in (tag.encode(), Offset(data))))

    order = list(lookups)
    made = [(tag, table(0, len(features[tag]), *sorted(order.index(name) for name in features[tag]))) for tag in tags]
    of_scripts = tagged([(tag, script(systems)) for tag, systems in sorted(scripts.items())])
    return table(1, 0, *offsets(of_scripts, tagged(made), table(len(order), *offsets(*lookups.values()))))


# ---- lookups of contexts, which GSUB and GPOS share


def rule(then, actions):
    """What follows the first glyph, as glyphs or classes, and the lookups that are applied, each with its place."""
    return table(len(then) + 1, len(actions), *then, *(number for action in actions for number in action))


def chained_rule(before, then, after, actions):
    """As `rule`, with what comes before, from the nearest on, and what comes after."""
    return table(len(before), *before, len(then) + 1, *then, len(after), *after,
                 len(actions), *(number for action in actions for number in action))


def rule_sets(rules, keys):
    """The rules of each key, as they stand in a lookup."""
    sets = [table(len(rules[key]), *offsets(*rules[key])) if key in rules else None for key in keys]
    return [len(sets), *offsets(*sets)]


def context_of_glyphs(rules):
    """Format 1, of GSUB 5, GSUB 6, GPOS 7 and GPOS 8: rules by the first glyph."""
    return table(1, Offset(coverage(rules)), *rule_sets(rules, sorted(rules)))


def context_of_classes(covered, by_glyph, rules, before=None, after=None):
    """Format 2: rules by the class of the first glyph; with classes before and after it is a chained one."""
    of = [by_glyph] if before is None else [before, by_glyph, after]
    last = max(by_glyph.values())
    return table(2, Offset(coverage(covered)), *offsets(*map(classes, of)), *rule_sets(rules, range(last + 1)))


def covered_each(sets):
    return [len(sets), *offsets(*map(coverage, sets))]


def context_of_coverage(sets, actions):
    """Format 3 of GSUB 5 and GPOS 7."""
    return table(3, len(sets), len(actions), *offsets(*map(coverage, sets)), *(number for action in actions for number in action))


def chained_of_coverage(before, sets, after, actions):
    """Format 3 of GSUB 6 and GPOS 8."""
    return table(3, *covered_each(before), *covered_each(sets), *covered_each(after),
                 len(actions), *(number for action in actions for number in action))


# ---- substitutions


def by_difference(glyphs, difference):
    return table(1, Offset(coverage(glyphs, ranges=True)), difference)


def by_list(pairs):
    return table(2, Offset(coverage(pairs)), len(pairs), *(pairs[glyph] for glyph in sorted(pairs)))


def sequences(lists):
    """A multiple or an alternate substitution, which are laid out alike."""
    rows = [table(len(lists[glyph]), *lists[glyph]) for glyph in sorted(lists)]
    return table(1, Offset(coverage(lists)), len(rows), *offsets(*rows))


def ligatures(sets):
    """Of each first glyph, the ligatures in their order: the other components, and the glyph that comes for all."""
    rows = []
    for first in sorted(sets):
        made = [table(glyph, len(rest) + 1, *rest) for rest, glyph in sets[first]]
        rows.append(table(len(made), *offsets(*made)))
    return table(1, Offset(coverage(sets)), len(rows), *offsets(*rows))


def reverse_chained(before, pairs, after):
    return table(1, Offset(coverage(pairs)), *covered_each(before), *covered_each(after),
                 len(pairs), *(pairs[glyph] for glyph in sorted(pairs)))


# ---- positions


def one_value(glyphs, fields, value):
    return table(1, Offset(coverage(glyphs, ranges=True)), fields, *value)


def value_each(values, fields):
    return table(2, Offset(coverage(values)), fields, len(values), *(it for glyph in sorted(values) for it in values[glyph]))


def pairs_of_glyphs(pairs, fields, second_fields=0):
    """Values by the first and the second glyph."""
    rows = [table(len(pairs[first]), *(it for second, values in sorted(pairs[first].items()) for it in (second, *values)))
            for first in sorted(pairs)]
    return table(1, Offset(coverage(pairs)), fields, second_fields, len(rows), *offsets(*rows))


def pairs_of_classes(covered, first, second, values, fields, second_fields=0):
    """Values by both classes, a row for each class of the first glyph."""
    return table(2, Offset(coverage(covered)), fields, second_fields, *offsets(classes(first), classes(second, ranges=False)),
                 len(values), len(values[0]), *(it for row in values for value in row for it in value))


def cursive(ends):
    """The anchors at which a glyph is entered and left."""
    anchors = [it for glyph in sorted(ends) for it in ends[glyph]]
    return table(1, Offset(coverage(ends)), len(ends), *offsets(*anchors))


def marks_on(marks, bases):
    """Marks on bases or on other marks: of a mark its class and its anchor, of a base an anchor for each class."""
    count = 1 + max(of for of, _ in marks.values())
    listed = table(len(marks), *(it for glyph in sorted(marks) for it in (marks[glyph][0], Offset(marks[glyph][1]))))
    placed = table(len(bases), *(it for glyph in sorted(bases) for it in offsets(*bases[glyph])))
    return table(1, *offsets(coverage(marks), coverage(bases)), count, *offsets(listed, placed))


def marks_on_ligatures(marks, ligatures):
    """As `marks_on`, where a ligature has a list of anchors for each of its components."""
    count = 1 + max(of for of, _ in marks.values())
    listed = table(len(marks), *(it for glyph in sorted(marks) for it in (marks[glyph][0], Offset(marks[glyph][1]))))
    parts = [table(len(ligatures[glyph]), *(it for row in ligatures[glyph] for it in offsets(*row))) for glyph in sorted(ligatures)]
    return table(1, *offsets(coverage(marks), coverage(ligatures)), count, *offsets(listed, table(len(parts), *offsets(*parts))))


def gdef(glyph_classes, mark_classes, mark_sets):
    sets = table(1, len(mark_sets), *(Offset(coverage(glyphs), 4) for glyphs in mark_sets))
    return table(1, 2, Offset(classes(glyph_classes)), 0, 0, *offsets(classes(mark_classes), sets))


# ---- kern


def kern(*subtables):
    """Of each subtable its format, its flags (1 horizontal, 2 minimum, 4 across the line, 8 in place of others), and its body."""
    rows = [numbers(0, 6 + len(body), form << 8 | flags) + body for form, flags, body in subtables]
    return numbers(0, len(rows)) + b"".join(rows)


def kern_pairs(pairs):
    """Format 0."""
    power = len(pairs).bit_length() - 1
    search = numbers(len(pairs), 6 << power, power, 6 * len(pairs) - (6 << power))
    return search + numbers(*(number for pair, value in sorted(pairs.items()) for number in (*pair, value)))


def kern_classes(first, second, values):
    """Format 2: classes of both glyphs, and a row of values for each class of the first. Offsets count from the subtable's start."""
    width, start = 2 * len(values[0]), 14
    lists = [range(min(of), max(of) + 1) for of in (first, second)]
    places = [start, start + 4 + 2 * len(lists[0])]
    array = places[1] + 4 + 2 * len(lists[1])
    rows = [array + width * first.get(glyph, 0) for glyph in lists[0]]
    columns = [2 * second.get(glyph, 0) for glyph in lists[1]]
    return numbers(width, *places, array, lists[0][0], len(rows), *rows, lists[1][0], len(columns), *columns,
                   *(value for row in values for value in row))
