"""The words of signatures, types and bodies, as plain Rust has them."""

from edited import Edited
from rattle_source import CLOSING

# Calls of std that are given an allocator in Rattle, and then may answer that there is no memory.
TWINS = {
    "to_ascii_lowercase": ("try_to_ascii_lowercase", "TryText"),
    "repeat": ("try_repeat", "TryText"),
    "collect": ("try_into_vec", "TryIterator"),
    "to_string": ("try_to_string", "TryDisplay"),
}

# Macros whose first argument is what they print or end by.
WITH_RUNTIME = {"assert", "assert_eq", "assert_ne", "panic"}

KNOWN_MACROS = {
    "matches", "unreachable", "write", "writeln", "debug_assert", "assert", "assert_eq", "assert_ne", "format_args",
    "anyhow", "bail",
}

PROOFS = {"prove": "debug_assert", "prove_eq": "debug_assert_eq", "prove_ne": "debug_assert_ne"}

# Methods of std that are newer than the oldest compiler that the package is built with, and the trait and the method of the
# package in their place.
NEWER = {"cast_signed": ("ToSigned", "to_signed"), "cast_unsigned": ("ToUnsigned", "to_unsigned")}

# Types that hold the chunks of a slice.
CHUNKED = {"Numbers16", "Ranges"}

# Attributes that say how something is proved or laid out.
FOR_PROOFS = {"tactic", "cycle", "rattlefmt"}


class Bodies(Edited):
    """What the words of bodies become. The names `laws`, `takers`, `paths` and `modules` are those of `Erased`."""

    def erase_bodies(self):
        self.erase_inner_attributes()
        self.erase_calls_of_laws()
        self.erase_unsafe()
        self.erase_macros()
        self.erase_arguments()
        self.name_older_calls()
        self.nest_conditions()
        self.rewrite_paths()
        for at in self.bare():
            text, kind = self.texts[at], self.source.words[at].kind
            if kind == "name" and text in ("Global", "alloc", "HostRuntime", "ghost", "requires", "ensures", "Model"):
                self.source.refuse(at, f"`{text}` is left")
            if kind == "name" and text == "rt" and not self.paths.has_std:
                self.source.refuse(at, "`rt` is left")
            if not text.isascii() and kind in ("name", "sign"):
                self.source.refuse(at, f"`{text}` is left, a word of contracts")

    def erase_inner_attributes(self):
        """Those of statements and arms."""
        for at in self.bare():
            following = self.source.after(at)
            if self.texts[at] == "#" and self.source.at(following) == "[" and self.live[following]:
                if self.source.at(self.source.after(following)) in FOR_PROOFS:
                    self.cut_line(at, self.source.closing(following) + 1)

    def erase_calls_of_laws(self):
        places = self.bare()
        for i, at in enumerate(places[:-3]):
            if self.texts[at] in self.laws.names and [self.texts[p] for p in places[i + 1 : i + 4]] == ["(", ")", ";"]:
                first = i
                while first and self.texts[places[first - 1]] == "::":
                    first -= 2
                self.cut(places[first], places[i + 3] + 1)

    def erase_unsafe(self):
        """Bytes that are proved to be text are taken for text by the safe call."""
        places = self.bare()
        for i, at in enumerate(places):
            if self.texts[at] != "unsafe":
                continue
            opening, name, first = places[i + 1 : i + 4]
            last, end = self.source.closing(first), self.source.closing(opening)
            if self.texts[name] != "from_utf8_unchecked" or self.source.after(last) != end:
                self.source.refuse(at, "this `unsafe` is not known")
            self.cut(at, name)
            self.put(name, "from_utf8")
            self.put(last, ").unwrap_or_default()")
            self.cut(last + 1, end + 1)

    def erase_macros(self):
        places = self.bare()
        for i, at in enumerate(places[:-3]):
            name, mark, opening = (self.texts[places[i + k]] for k in range(3))
            if mark != "!" or opening not in ("(", "[") or self.source.words[at].kind != "name":
                continue
            self.erase_macro(at, places[i + 1], places[i + 2], name)

    def erase_macro(self, at, mark, opening, name):
        end = self.source.closing(opening)
        inner = self.source.after(opening)
        if name in PROOFS:
            return self.put(at, PROOFS[name])
        if self.texts[inner] == "in":
            semicolon = next(p for p in self.bare(inner, end) if self.texts[p] == ";")
            self.cut(inner, semicolon + 1)
            if name == "format":
                self.put(at, "String::format")
                self.put(mark, "(")
                self.put(opening, "format_args!(")
                self.put(end, "))")
            elif name == "vec":
                rest = next((p for p in self.bare(semicolon, end) if self.texts[p] == ";"), None)
                if rest is None:
                    self.source.refuse(at, "`vec!` of a list is not known")
                for place, text in ((at, "Vec::from_elem"), (mark, ""), (opening, "("), (rest, ","), (end, ")")):
                    self.put(place, text)
            else:
                self.source.refuse(at, f"`{name}!` with an allocator is not known")
        elif name == "eprintln" and self.paths.host and self.texts[self.source.after(inner)] == ";":
            # The runtime prints it.
            self.put(at, f"{self.texts[inner]}.eprint_line")
            self.cut(mark, mark + 1)
            self.cut(inner, self.source.after(inner) + 1)
            self.put(opening, "(format_args!(")
            self.put(end, "))")
        elif self.texts[inner] in ("rt", "error") and self.texts[self.source.after(inner)] == ";":
            if name not in WITH_RUNTIME:
                return None
            self.cut(inner, self.source.after(inner) + 1)
        elif name not in KNOWN_MACROS:
            self.source.refuse(at, f"`{name}!` is not known")
        return None

    def erase_arguments(self):
        """Takes `alloc` and `rt` out of the lists of arguments."""
        self.erase_names_of_alloc()
        for first, last in self.passed():
            before = self.before(first)
            behind = self.behind(last)
            if self.texts[before] not in ("(", ",", "{") or self.texts[behind] not in (")", ",", "}"):
                continue
            opening = before if self.texts[before] == "(" else None
            if opening is not None:
                self.name_twin(opening)
            if self.texts[behind] == ",":
                self.cut(first, behind + 1)
            elif self.texts[before] == ",":
                self.cut(before, last)
            else:
                self.cut(first, last)

    def erase_names_of_alloc(self):
        """The statement `let alloc = rt.alloc();`."""
        places = self.bare()
        for i, at in enumerate(places):
            if [self.texts[p] for p in places[i : i + 9]] == ["let", "alloc", "=", "rt", ".", "alloc", "(", ")", ";"]:
                self.cut_line(at, places[i + 8] + 1)

    def passed(self):
        """What is passed on and is not there in plain Rust: `alloc`, also as a field, `rt.alloc()`, `rt` and `&rt`."""
        found = []
        places = self.bare()
        for i, at in enumerate(places):
            texts = [self.texts[p] for p in places[i : i + 5]]
            if texts[:5] == ["rt", ".", "alloc", "(", ")"]:
                found.append((at, places[i + 4] + 1))
            elif self.source.words[at].kind == "name" and texts[1:3] == [".", "alloc"] and texts[3] in (",", ")"):
                found.append((at, places[i + 2] + 1))
            elif texts[0] == "alloc" and (i == 0 or self.texts[places[i - 1]] != "."):
                found.append((at, at + 1))
            elif self.paths.host:
                continue  # the runtime is passed there
            elif texts[:2] == ["&", "rt"] and self.paths.has_std:
                found.append((at, places[i + 1] + 1))
            elif texts[0] == "rt" and self.paths.has_std and texts[1] in (",", ")"):
                found.append((at, at + 1))
        return found

    def name_twin(self, opening):
        """A method of std that was given an allocator has another name without it."""
        name = self.before(opening)
        if self.texts[self.before(name)] != "." or self.texts[name] in self.takers:
            return
        if self.texts[name] not in TWINS:
            self.source.refuse(name, f"`{self.texts[name]}` with an allocator is not known")
        self.texts[name], trait = TWINS[self.texts[name]]
        self.of_memory.add(trait)

    # What the oldest compiler does not know.

    def name_older_calls(self):
        places = self.bare()
        for before, at in zip(places, places[1:]):
            if self.texts[before] == "." and self.texts[at] in NEWER:
                trait, self.texts[at] = NEWER[self.texts[at]]
                self.of_numbers.add(trait)
            elif self.texts[before] == "." and self.texts[at] == "as_chunks":
                self.hold_chunks(at)

    def hold_chunks(self, at):
        """`X.as_chunks::<N>()`, of which the first part alone is taken."""
        start = at
        while self.texts[start] != "=":
            start = self.before(start)
        self.of_numbers.add("Chunks")
        opening = next(place for place in self.bare(at) if self.texts[place] == "(")
        size = "".join(self.texts[place] for place in self.bare(at + 1, opening))
        self.put(self.behind(start + 1), f"Chunks{size}::split(" + self.texts[self.behind(start + 1)])
        self.cut(self.before(at), opening)
        self.put(opening, "")

    def hold_chunk_types(self, item):
        """The type `&'a [[u8; N]]` of a struct."""
        places = self.bare(item.start, item.last)
        for i, at in enumerate(places[:-8]):
            if [self.texts[place] for place in places[i : i + 6 : 2]] == ["&", "[", "u8"] and self.texts[places[i + 3]] == "[":
                lifetime, count = self.texts[places[i + 1]], self.texts[places[i + 6]]
                self.cut(at, self.source.closing(places[i + 2]) + 1)
                self.put(at, f"Chunks<{lifetime}, {count}>")
                self.live[at] = True
                self.of_numbers.add("Chunks")

    def nest_conditions(self):
        """Conditions of which one is a `let`: one in the other. Where there is an `else`, the block is left at the end."""
        for at in self.bare():
            if self.texts[at] not in ("if", "while") or self.source.words[at].kind != "name":
                continue
            opening, joints = self.condition(at)
            if not joints:
                continue
            if self.texts[at] == "while":
                self.source.refuse(at, "a `let` beside another condition of `while` is not known")
            closing = self.source.closing(opening)
            for joint in joints:
                self.put(joint, "{ if")
                self.cut(self.source.after(joint), self.source.after(joint) + 1)
            ends = "}" * (len(joints) + 1)
            otherwise = self.source.after(closing)
            if self.source.at(otherwise) != "else":
                self.put(closing, ends)
                continue
            if self.texts[self.before(closing)] != ";":
                self.source.refuse(at, "the value of an `if` with a `let` beside another condition is not known")
            self.put(at, "'chained: { if")
            self.put(closing, "break 'chained;" + ends)
            self.cut(otherwise, otherwise + 1)
            last = self.source.after(otherwise)
            if self.source.at(last) != "{":
                self.source.refuse(otherwise, "an `else if` behind a `let` beside another condition is not known")
            last = self.source.closing(last)
            self.put(last, self.texts[last] + "}")

    def condition(self, at):
        """Where the block of an `if` begins, and the `&&` beside a `let` in its condition."""
        place, signs, lets = self.source.after(at), [], set()
        while self.source.at(place) != "{" and place < len(self.texts):
            text, following = self.source.at(place), self.source.after(place)
            if text in CLOSING:
                place = self.source.closing(place)
            elif text == "=" and self.source.at(following) == ">":
                return None, []  # a guard
            elif text == "let":
                lets.add(len(signs))
            elif text == "&" and self.source.at(following) == "&" and following == place + 1:
                signs.append(place)
                place = following
            place = self.source.after(place)
        return place, [sign for i, sign in enumerate(signs) if {i, i + 1} & lets]

    def rewrite_paths(self):
        imports = [(item.start, item.last) for item in self.reader.items if item.kind == "use"]
        places = self.bare()
        for i, at in enumerate(places[:-1]):
            if self.source.words[at].kind != "name" or self.texts[places[i + 1]] != "::":
                continue
            if i and self.texts[places[i - 1]] in ("::", "."):
                continue
            if any(first <= at < last for first, last in imports):
                continue
            names = [self.texts[at], self.texts[places[i + 2]]]
            if set(names) <= self.paths.modules.keys() and names[0] != names[1]:
                self.cut(at, places[i + 2])  # a crate that another one passes on
                continue
            if names[0] in ("super", "self", "Self") or names[0] in self.modules:
                continue
            started = self.paths.start(names)
            if started is None:
                if names[0] == "std":
                    self.source.refuse(at, f"`{'::'.join(names)}` is not known")
                continue
            head, rest = started
            self.put(at, head)
            if names[0] == "std":
                self.put(places[i + 2], rest[0] if rest else "")
