"""Takes what only Rattle has out of its source: contracts, models, tactics, laws, and the allocator that is passed.

What is left is plain Rust. A word that is not known to either is `Refused`, with its file and line.
"""

import re

import contracts
from bodies import CHUNKED, FOR_PROOFS, Bodies
from paths import GONE, KNOWN_OF_HOST, grouped, use_leaves

# Methods of std that core does not have, and the trait of the package that has them.
BEYOND_CORE = {"round": "Round", "floor": "Round", "ceil": "Round"}

# What C sees as it is laid out, as in rustybuzz.
SEEN_BY_C = {"hb_glyph_info_t", "GlyphPosition"}

# Errors, and values that name calls: more may come, so that a match of a user's has an arm for them.
OPEN_ENDED = {"Call", "LanguageError", "RenderFault", "ShapeError", "VerifyError"}

# Types for which the package has a `Debug` of its own, in `facade.rs`.
SHOWN_BY_HAND = {"UnicodeBuffer", "GlyphBuffer"}

# Types whose public fields are for the package's own modules, and no part of its interface.
OF_MODULES = {"Face"}

# How many words the body of a public function has at most that may be inlined into other crates, as the compiler of
# Rattle inlines it.
SHORT = 150

# Types of parameters that are not there in plain Rust: the allocator, and what a program of Rattle's is given to act.
NOT_PASSED = {"Global", "HostRuntime", "&impl Abort", "&impl Print", "&E"}

# Functions of types that have another name in the package, which has one of its own by that name.
RENAMED = {("Face", "parse"): "parse_if_there"}

KNOWN_ATTRIBUTES = {"inline", "cfg", "test", "must_use", "cold", "allow", "should_panic", "repr", "non_exhaustive"}


def is_law(source, item):
    """An empty function that only says something: it has no code."""
    if item.kind != "fn" or not item.ensures or not item.body:
        return False
    return item.parameters[0] == item.parameters[1] and source.after(item.body[0]) == item.body[1]


def has_code(source, items):
    """Whether anything is left of these items."""
    return any(item.kind not in ("ghost", "use", "inner attribute") and not is_law(source, item) for item in items)


def laws(source, items):
    return {item.name for item in items if is_law(source, item)}


class Erased(Bodies):
    """A source file, from which is taken what only Rattle has."""

    def __init__(self, path, text, paths, takers):
        super().__init__(path, text)
        self.paths, self.takers = paths, takers
        self.of_memory, self.of_numbers = set(), set()
        self.modules = {item.name for item in self.reader.items if item.kind == "mod"}
        self.models = {
            item.name: contracts.ghosts(self, item)
            for item in self.reader.items
            if item.kind == "impl" and item.trait == "Model"
        }

    def erased(self, dropped, laws):
        """The text as plain Rust, without the modules and functions that are dropped, and without laws."""
        self.dropped, self.laws = dropped, laws
        for item in self.reader.items:
            self.erase_item(item, None)
        for attribute in self.reader.inner_attributes:
            if attribute.name not in FOR_PROOFS:
                self.source.refuse(attribute.first, f"the attribute `{attribute.name}` is not known")
            self.cut(attribute.first, attribute.last)
        self.erase_bodies()
        self.rename_calls()
        self.rewrite_docs()
        return self.finished()

    def erase_item(self, item, parent):
        if item.kind in ("ghost", "inner attribute"):
            return self.cut_item(item)
        if item.kind == "impl" and item.trait in ("Model", "std::marker::Model"):
            return self.cut_item(item)
        if is_law(self.source, item) or item.kind in ("mod", "fn") and parent is None and item.name in self.dropped:
            return self.cut_item(item)
        if item.kind == "impl" and "AllocFailed" in item.trait:
            if any(other.trait == "From<AllocError>" and other.name == item.name for other in self.reader.items):
                return self.cut_item(item)  # growth answers `AllocError` alone
            self.take_alloc_error(item)
        for attribute in item.attributes:
            self.erase_attribute(item, attribute)
        if item.kind == "use":
            return self.rewrite_use(item)
        if item.kind == "fn":
            self.rename(item, parent)
            contracts.document_function(self, item, parent)
            self.erase_function(item, parent)
        if item.kind == "struct" and item.name in CHUNKED:
            self.hold_chunk_types(item)
        if item.kind == "struct" and item.name in SEEN_BY_C:
            self.prefix[item.start] = "#[repr(C)]\n"
        if item.kind == "enum" and item.name in OPEN_ENDED:
            self.prefix[item.start] = "#[non_exhaustive]\n"
        if item.kind == "struct" and any(other.trait == "Flags" and other.name == item.name for other in self.reader.items):
            self.open_bits(item)
        if item.kind in ("struct", "enum", "trait", "impl"):
            contracts.document_type(self, item, parent)
            self.erase_drop_bounds(item)
        for inner in item.items:
            if inner.kind == "field":
                for attribute in inner.attributes:
                    self.erase_attribute(inner, attribute)
                if self.source.text(inner.start, inner.last).rstrip(",").endswith("alloc: Global"):
                    self.cut_item(inner)
                elif item.name in OF_MODULES and inner.is_public:
                    self.prefix[inner.start] = "#[doc(hidden)]\n"
            elif inner.kind == "ghost" and item.kind in ("struct", "enum"):
                self.cut_item(inner)
            else:
                self.erase_item(inner, item)

    def rename(self, item, parent):
        """Gives a function the name that it has in the package, and leaves it out of the documentation."""
        name = RENAMED.get((parent.name if parent is not None else "", item.name))
        if name:
            place = next(at for at in self.bare(item.start, item.last) if self.texts[at] == item.name)
            self.put(place, name)
            self.prefix[item.start] = "#[doc(hidden)]\n" + self.prefix.get(item.start, "")

    def open_bits(self, item):
        """The bits of a set of flags are seen in the package, which gives the set methods of its own beside those of `Flags`."""
        opening = next(at for at in self.bare(item.start, item.last) if self.texts[at] == "(")
        self.put(opening, "(pub(crate) ")

    def take_alloc_error(self, item):
        """Makes the conversion of what was not pushed one of the error alone."""
        head = self.bare(item.start, item.last)
        generics = self.source.after(item.start)
        self.cut(generics, self.source.closing_angle(generics) + 1)
        for at in head:
            if self.texts[at] == "AllocFailed":
                self.put(at, "AllocError")
                opening = self.source.after(at)
                self.cut(opening, self.source.closing_angle(opening) + 1)
                self.of_memory.add("AllocError")

    def erase_attribute(self, item, attribute):
        if attribute.name == "inline" and self.source.text(attribute.first, attribute.last) == "#[inline]":
            # rustc follows the hint less often than the compiler of Rattle.
            self.cut(attribute.first, attribute.last)
            return self.put(attribute.first, "#[inline(always)]")
        if attribute.name in FOR_PROOFS or attribute.name == "error":
            return self.cut_line(attribute.first, attribute.last)
        if attribute.name == "derive":
            return self.erase_derive(item, attribute)
        if attribute.name not in KNOWN_ATTRIBUTES:
            self.source.refuse(attribute.first, f"the attribute `{attribute.name}` is not known")

    def erase_derive(self, item, attribute):
        names = re.findall(r"\w+", self.source.text(attribute.first, attribute.last))[1:]
        known = {"Clone", "Copy", "PartialEq", "Eq", "PartialOrd", "Ord", "Default", "Hash", "Debug", "Drop", "Error"}
        for name in names:
            if name not in known:
                self.source.refuse(attribute.first, f"the derive of `{name}` is not known")
        if "Error" in names:
            self.write_error(item)
        kept = [name for name in names if name not in ("Drop", "Error", "Debug", "Default")]
        if item.name not in SHOWN_BY_HAND:
            # (most types of Rattle derive no `Debug`, which costs them a proof)
            kept.append("Debug")
        kept += [name for name in names if name == "Default"]
        if kept:
            self.cut(attribute.first, attribute.last)
            self.put(attribute.first, f"#[derive({', '.join(kept)})]")
        else:
            self.cut_line(attribute.first, attribute.last)

    def write_error(self, item):
        """What the derive of `thiserror` writes: the text of each variant."""
        arms = []
        for variant in item.items:
            said = [self.source.text(a.first, a.last) for a in variant.attributes if a.name == "error"]
            text = re.fullmatch(r'#\[error\(\s*("(?:\\.|[^"\\])*")\s*,?\s*\)\]', said[0], re.S) if said else None
            if not text:
                self.source.refuse(variant.first, f"the text of the error `{variant.name}` is not known")
            fields = re.findall(r"\{(\w+)[}:]", text[1])
            named = [field for field in fields if not field.isdigit()]
            shape = self.source.text(variant.start, variant.last)
            pattern = f" {{ {', '.join([*dict.fromkeys(named), '..'])} }}" if "{" in shape else ""
            if "(" in shape:
                count = len(self.source.split(self.source.after(variant.start, 2), variant.last - 1)) or 1
                pattern = f"({', '.join(f'n{i}' if str(i) in fields else '_' for i in range(count))})"
            message = re.sub(r"\{(\d+)", r"{n\1", text[1])
            arms.append(f"Self::{variant.name}{pattern} => write!(f, {message}),")
        name = item.name + item.generics
        self.added[item.last] = (
            f"\n\nimpl{item.generics} core::fmt::Display for {name} {{\n"
            "    fn fmt(&self, f: &mut core::fmt::Formatter<'_>) -> core::fmt::Result {\n"
            f"        match self {{ {' '.join(arms)} }}\n    }}\n}}\n\n"
            f"impl{item.generics} core::error::Error for {name} {{}}\n"
        )

    def erase_drop_bounds(self, item):
        head = next((at for at in self.bare(item.start, item.last) if self.texts[at] == "{"), item.last)
        self.cut_drop(item.start, head)
        if item.kind == "trait":
            for inner in item.items:
                if inner.kind == "type":
                    self.cut_drop(inner.start, inner.last)

    def cut_drop(self, first, last):
        """In Rattle `Drop` is a bound on what may be dropped; in Rust all may."""
        places = self.bare(first, last)
        for i, at in enumerate(places):
            if self.texts[at] != "Drop" or i == 0:
                continue
            before, behind = places[i - 1], places[i + 1] if i + 1 < len(places) else at
            if self.texts[before] == "+":
                self.cut(before, at + 1)
            elif self.texts[before] == ":" and self.texts[behind] == "+":
                self.cut(at, behind + 1)
            elif self.texts[before] == ":":
                self.cut(before, at + 1)
            else:
                self.source.refuse(at, "`Drop` is known as a bound alone")

    def erase_function(self, item, parent):
        if item.body and item.is_public and not any(a.name == "inline" for a in item.attributes):
            if len(self.bare(*item.body)) <= SHORT:
                self.prefix[item.start] = self.prefix.get(item.start, "") + "#[inline]\n"
        for clause in item.clauses:
            self.cut(clause.first, clause.last)
        self.cut_drop(item.start, item.signature_end)
        first, last = item.parameters
        for start, end in self.source.split(first, last):
            kind = self.source.text(start, end).partition(":")[2].strip()
            if kind == "Global" or kind in NOT_PASSED and not self.paths.host:
                following = self.source.at(end)
                self.cut(start, end + 1 if following == "," else end)
        self.close_list(first, last)

    def close_list(self, first, last):
        """Takes the comma away that no element follows, where one was taken out."""
        places = self.bare(first, last)
        if places and self.texts[places[-1]] == ",":
            self.cut(places[-1], places[-1] + 1)

    # Imports.

    def rewrite_use(self, item):
        first = self.source.after(item.start, 2 if item.visibility else 1)
        if item.visibility and self.source.at(self.source.after(item.start)) == "(":
            first = self.source.after(self.source.closing(self.source.after(item.start)), 2)
        kept = []
        for names, alias, place in use_leaves(self.source, first, item.last - 1):
            path = self.imported(names, alias, place, item)
            if path:
                kept.append((path, alias))
        if not kept:
            return self.cut_item(item)
        head = f"{item.visibility} use " if item.visibility else "use "
        self.cut(item.start, item.last)
        self.put(item.start, "\n".join(f"{head}{tree};" for tree in grouped(kept)))

    def imported(self, names, alias, place, item):
        """The path that is imported, or nothing where nothing is left to import."""
        if "::".join(names) in GONE or names[-1] in self.laws.names or self.is_dropped(names):
            return None
        if not item.visibility and names[-1] == "Flags" and not self.stands_alone("Flags"):
            return None  # each set has its methods by itself
        if not item.visibility and names[-1].isupper() and not self.is_named(names[-1]):
            return None  # a constant that clauses alone name
        if names[-1] == "from_utf8_unchecked":
            names = [*names[:-1], "from_utf8"]
        if {*names} <= self.paths.modules.keys() and (item.visibility or len({*names}) == 2):
            return None  # a crate that another one passes on
        if names[0] in ("super", "self") or names[0] in self.modules and names[0] not in self.paths.modules:
            return "::".join(names)
        started = self.paths.start(names)
        if started is None:
            if names[0][0].isupper():
                return "::".join(names)
            self.source.refuse(place, f"`{'::'.join(names)}` is not known")
        head, rest = started
        return "::".join([head, *rest])

    def is_dropped(self, names):
        """Whether a path goes into a module in which nothing is left."""
        crate = self.paths.own if names[0] == "crate" else names[0]
        return names[0] in self.laws.modules and names[0] not in self.paths.modules or (
            len(names) > 1 and names[1] in self.laws.modules.get(crate, ()))

    def is_named(self, name):
        """Whether a word that is left has this name, in imports or elsewhere more than once."""
        return sum(self.texts[at] == name for at in self.bare()) > 1

    def stands_alone(self, name):
        """Whether a word that is left has this name outside of imports and of other names' parts."""
        imports = [(item.start, item.last) for item in self.reader.items if item.kind == "use"]
        places = self.bare()
        return any(
            self.texts[at] == name and self.texts[places[i - 1]] != "::" and not any(a <= at < b for a, b in imports)
            for i, at in enumerate(places))

    def rename_calls(self):
        places = self.bare()
        for i, at in enumerate(places[:-2]):
            name = RENAMED.get((self.texts[at], self.texts[places[i + 2]]))
            if name and self.texts[places[i + 1]] == "::":
                self.put(places[i + 2], name)

    def rewrite_docs(self):
        """Paths in the links of documentation."""
        own = self.paths.modules[self.paths.own]
        for at, word in enumerate(self.source.words):
            if word.kind in ("doc", "inner") and self.live[at]:
                self.texts[at] = self.linked(self.texts[at], own)

    def linked(self, text, own):
        return re.sub(r"\[`crate::", f"[`{own}::", text)

    # The end.

    def finished(self):
        # A space at the end of a line is part of a text, and of nothing else.
        texts = [
            text.replace(" \n", "\0\n") if word.kind == "text" else text
            for word, text in zip(self.source.words, self.texts, strict=True)
        ]
        pieces = [self.prefix.get(at, "") + text + self.added.get(at + 1, "") for at, text in enumerate(texts)]
        text = re.sub(r"[ \t]+\n", "\n", "".join(pieces))
        return re.sub(r"\n{3,}", "\n\n", text).replace("\0", " ")

    def imports(self):
        """What the file names of the package's own modules, by the modules."""
        found = {self.paths.memory: self.names_of_memory(), self.paths.numbers: sorted(self.of_numbers)}
        if self.paths.host:
            places = self.bare()
            bounds = {self.texts[at] for i, at in enumerate(places) if i and self.texts[places[i - 1]] in (":", "+")}
            found[self.paths.host] = sorted(KNOWN_OF_HOST & bounds)
        return found

    def traits_of_numbers(self):
        if self.paths.has_std:
            return []
        places = self.bare()
        called = {self.texts[at] for i, at in enumerate(places) if i and self.texts[places[i - 1]] == "."}
        return sorted({BEYOND_CORE[name] for name in called & BEYOND_CORE.keys()})

    def names_of_memory(self):
        """Which of `Vec` and `String` the file names, by names that stand alone."""
        places = self.bare()
        found = set(self.of_memory)
        for i, at in enumerate(places):
            for name in re.findall(r"\b(?:Vec|String)\b", self.texts[at]) if self.source.words[at].kind == "name" else []:
                if i == 0 or self.texts[places[i - 1]] not in ("::", "."):
                    found.add(name)
        return sorted(found)
