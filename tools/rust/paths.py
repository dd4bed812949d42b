"""Paths of Rattle's crates and of its std, as they are in a package of plain Rust."""

CORE = {"char", "cmp", "convert", "fmt", "hash", "iter", "marker", "mem", "num", "ops", "slice", "str"}

# What is not there in plain Rust, or has no use there: an allocator that is passed, a runtime that is passed, the
# trait of models, and the derive of `thiserror`, in place of which its implementations are written.
GONE = {
    "std::alloc::Global", "std::marker::Model", "std::process::Abort", "std::fmt::Write", "thiserror::Error",
    "std::io::Print", "std::io::Eprint", "std::alloc::AllocFailed",
}


# Modules of std in whose place those of the runtime stand, and names of it that need no import in Rattle.
OF_HOST = {"env", "fs", "io", "rt"}
KNOWN_OF_HOST = {"AllocGlobal", "Input", "Print", "Eprint"}


# Conversions that Rust writes by `as`, and Rattle's std by a name.
CONVERSIONS = ("nearest_", "saturating_")


class Paths:
    """Where each crate stands, as `crate::glyph` for `rb_glyph`, and the crate that is read."""

    def __init__(self, modules, own, memory, has_std, fail=None, host=None):
        self.modules, self.own, self.memory, self.has_std, self.fail = modules, own, memory, has_std, fail
        self.numbers = "crate::numbers" if memory == "crate::memory" else "vukhaso::internals::numbers"
        self.host = host  # where the runtime of a program is, if it is passed on

    def start(self, names):
        """The path that stands for the first names of a path, and the names that are left. None where it is not known."""
        while len(names) > 2 and names[0] in self.modules and names[1] in self.modules:
            names = names[1:]  # a crate that another one passes on
        first = names[0]
        if first == "crate":
            return self.modules[self.own], names[1:]
        if first in self.modules:
            return self.modules[first], names[1:]
        if first == "std" and len(names) > 1:
            return self.of_std(names[1:])
        return None

    def of_std(self, names):
        if names[0] in ("alloc", "collections"):
            return self.memory, names[1:]
        if names[0] == "num" and names[1:2] and names[1].startswith(CONVERSIONS):
            return self.numbers, names[1:]
        if names[:2] == ["test", "Fail"] and self.fail:
            return self.fail, []
        if self.host and (names[0] in OF_HOST or names == ["convert", "AsStr"]):
            return self.host, names[1:] if names[0] in ("rt", "convert") else names
        if self.has_std:
            return "std", names
        return ("core", names) if names[0] in CORE else None


def use_leaves(source, first, last):
    """The leaves of a tree of imports, between these places: names, alias, and the place of each."""
    leaves = []

    def walk(start, end, before):
        for piece, stop in source.split(start, end):
            names, at, alias = list(before), piece, None
            while at < stop:
                text = source.at(at)
                if text == "{":
                    walk(source.after(at), source.closing(at), names)
                    names = None
                    break
                if text == "as":
                    alias = source.at(source.after(at))
                    break
                if text != "::":
                    names.append(text)
                at = source.after(at)
            if names is not None:
                leaves.append((names, alias, piece))

    walk(first, last, [])
    return leaves


def grouped(leaves):
    """The imports of some paths, as `use` has them: those of one parent in one tree."""
    by_parent = {}
    for path, alias in leaves:
        parent, _, name = path.rpartition("::")
        by_parent.setdefault(parent, []).append(f"{name} as {alias}" if alias else name)
    for parent, names in by_parent.items():
        whole = names[0] if len(names) == 1 else "{" + ", ".join(names) + "}"
        if whole == "self":
            whole = "{self}"
        yield f"{parent}::{whole}" if parent else whole
