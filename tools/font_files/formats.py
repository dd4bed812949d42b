"""A small font whose lookups have subtables of formats that there are none of, each before one of a format that there is, and
extensions of several types in one lookup."""

from . import layout as lay
from .opentype import numbers
from .special import PLACE, X_ADVANCE, each, g, lookups_by_name, whole


def with_format(subtable, number):
    return numbers(number) + subtable[2:]


def unknown(kind, format_count, made):
    """A lookup of a subtable in unknown formats: 0, the next one, and 7. Then the next glyphs by a known format."""
    first, last = made
    return lay.lookup(kind, 0, *(with_format(first, number) for number in (0, format_count + 1, 7)), last)


def both(make):
    return make("a", "b"), make("c", "d")


def one(left, right):
    return lay.by_list({PLACE[left]: PLACE[right]})


def mixed(kind, *rows):
    """Extensions, of which some lie about their types."""
    return lay.lookup(kind, 0, *(lay.extension(*row) for row in rows))


def substitutions():
    order = ["sin1", "mult", "alte", "liga", "con1", "con2", "con3", "cha1", "cha2", "cha3", "exte", "mixe", "revt", "reve", "_a_to_b", "_c_to_d"]

    def calls(name):
        return [(0, order.index(name))]

    def by_glyph(rule):
        return lambda left, right: lay.context_of_glyphs({PLACE[left]: [rule(calls(f"_{left}_to_{right}"))]})

    def by_class(rule, **around):
        return lambda left, right: lay.context_of_classes(g(left), {PLACE[left]: 1}, {1: [rule(calls(f"_{left}_to_{right}"))]}, **around)

    around = {"before": {PLACE["z"]: 1}, "after": {PLACE["z"]: 1}}
    made = {
        "sin1": unknown(1, 2, both(one)),
        "mult": unknown(2, 1, both(lambda left, right: lay.sequences({PLACE[left]: g(f"{right} {right}")}))),
        "alte": unknown(3, 1, both(lambda left, right: lay.sequences({PLACE[left]: g(right)}))),
        "liga": unknown(4, 1, both(lambda left, right: lay.ligatures({PLACE[left]: [(g("e"), PLACE[right])]}))),
        "con1": unknown(5, 3, both(by_glyph(lambda actions: lay.rule([], actions)))),
        "con2": unknown(5, 3, both(by_class(lambda actions: lay.rule([], actions)))),
        "con3": unknown(5, 3, both(lambda left, right: lay.context_of_coverage([g(left)], calls(f"_{left}_to_{right}")))),
        "cha1": unknown(6, 3, both(by_glyph(lambda actions: lay.chained_rule([], [], [], actions)))),
        "cha2": unknown(6, 3, both(by_class(lambda actions: lay.chained_rule([], [], [], actions), **around))),
        "cha3": unknown(6, 3, both(lambda left, right: lay.chained_of_coverage([], [g(left)], [], calls(f"_{left}_to_{right}")))),
        "exte": lay.lookup(7, 0, lay.extension(1, with_format(one("a", "b"), 3)), lay.extension(1, one("c", "d"))),
        "mixe": mixed(7, (1, one("a", "b")), (2, lay.sequences({PLACE["c"]: g("d d")}))),
        "revt": lay.lookup(7, 0, with_format(lay.extension(1, one("a", "b")), 2), with_format(lay.extension(1, one("c", "d")), 2)),
        "reve": unknown(8, 1, both(lambda left, right: lay.reverse_chained([], {PLACE[left]: PLACE[right]}, []))),
        "_a_to_b": lay.lookup(1, 0, one("a", "b")), "_c_to_d": lay.lookup(1, 0, one("c", "d")),
    }
    features = lookups_by_name(order)
    return lay.layout({"DFLT": {"dflt": (None, sorted(features))}}, features, {name: made[name] for name in order})


def positions():
    marks = {PLACE["acute"]: (0, lay.anchor(0, 500))}
    order = ["val1", "pair", "curs", "mark", "mkli", "mkmk", "pcn1", "pcn3", "pch1", "pch3", "pext", "pmix", "_a", "_c"]

    def calls(left):
        return [(0, order.index(f"_{left}"))]

    def wider(left, _right):
        return lay.one_value(g(left), X_ADVANCE, [30])

    made = {
        "val1": unknown(1, 2, both(wider)),
        "pair": unknown(2, 2, both(lambda left, right: lay.pairs_of_glyphs({PLACE[left]: {PLACE["e"]: [40]}}, X_ADVANCE))),
        "curs": unknown(3, 1, both(lambda left, right: lay.cursive({PLACE[left]: (None, lay.anchor(300, 25)), PLACE["e"]: (lay.anchor(5, 45), None)}))),
        "mark": unknown(4, 1, both(lambda left, right: lay.marks_on(marks, {PLACE[left]: [lay.anchor(150, 640)]}))),
        "mkli": unknown(5, 1, both(lambda left, right: lay.marks_on_ligatures(marks, {PLACE[{"a": "A", "c": "B"}[left]]: [[lay.anchor(150, 640)]]}))),
        "mkmk": unknown(6, 1, both(lambda left, right: lay.marks_on(marks, {PLACE[{"a": "grave", "c": "below"}[left]]: [lay.anchor(150, 640)]}))),
        "pcn1": unknown(7, 3, both(lambda left, right: lay.context_of_glyphs({PLACE[left]: [lay.rule([], calls(left))]}))),
        "pcn3": unknown(7, 3, both(lambda left, right: lay.context_of_coverage([g(left)], calls(left)))),
        "pch1": unknown(8, 3, both(lambda left, right: lay.context_of_glyphs({PLACE[left]: [lay.chained_rule([], [], [], calls(left))]}))),
        "pch3": unknown(8, 3, both(lambda left, right: lay.chained_of_coverage([], [g(left)], [], calls(left)))),
        "pext": lay.lookup(9, 0, lay.extension(1, with_format(wider("a", ""), 3)), lay.extension(1, wider("c", ""))),
        "pmix": mixed(9, (1, wider("a", "")), (2, lay.pairs_of_glyphs({PLACE["c"]: {PLACE["e"]: [40]}}, X_ADVANCE))),
        "_a": lay.lookup(1, 0, wider("a", "")), "_c": lay.lookup(1, 0, wider("c", "")),
    }
    features = lookups_by_name(order)
    return lay.layout({"DFLT": {"dflt": (None, sorted(features))}}, features, {name: made[name] for name in order})


def formats():
    codes = {0x41: PLACE["A"], 0x42: PLACE["B"]}
    return whole("Vukhaso Formats", {"GSUB": substitutions(), "GPOS": positions()}, codes)


FONTS = {"formats.ttf": formats}
