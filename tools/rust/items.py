"""The public items of the package, by rustdoc's JSON: what users can name, and so what may not change between versions."""

import difflib
import json
import os
import re
import subprocess
from pathlib import Path

PACKAGE = Path(__file__).resolve().parent.parent.parent / "rust/vukhaso"
LIST = PACKAGE / "public-items.txt"

# Where what is read is built, so that it waits for no other build of the package.
BUILT = PACKAGE.parent / "target/read"

HEAD = "# Written by tools/plain_rust items: what users of the package can name, with default features. Do not edit.\n"

# Traits that the compiler gives by itself.
OF_ITSELF = {"StructuralPartialEq", "TrivialClone"}


class Items:
    """The items of the package, by their numbers, and the text of its files."""

    def __init__(self):
        words = ["cargo", "rustdoc", "--offline", "--quiet", "--lib", "--", "-Z", "unstable-options", "--document-hidden-items", "--output-format", "json"]
        # The JSON is there in each compiler, behind this switch.
        environment = {**os.environ, "RUSTC_BOOTSTRAP": "1", "CARGO_TARGET_DIR": str(BUILT)}
        subprocess.run(words, cwd=PACKAGE, check=True, capture_output=True, env=environment)
        self.said = json.loads((BUILT / "doc/vukhaso.json").read_text())
        self.files, self.lines, self.seen = {}, {}, {}
        self.named = {}

    def item(self, number):
        return self.said["index"].get(str(number))

    def note_types(self, node, name):
        """Keeps the types of the package that an item names."""
        if isinstance(node, dict):
            if "resolved_path" in node:
                self.named.setdefault(node["resolved_path"]["id"], name)
            node = list(node.values())
        for part in node if isinstance(node, list) else []:
            self.note_types(part, name)

    def unseen(self):
        """The types of the package that stand in its interface and have no name there, a line each."""
        for number, name in self.named.items():
            item = self.item(number)
            if item and item["crate_id"] == 0 and number not in self.seen:
                yield f"users cannot name {item['name']}, of {name}"

    def text(self, item):
        """The declaration as it stands in its file: a function without its body. One that a macro writes is its name."""
        span = item["span"]
        file = self.files.setdefault(span["filename"], (PACKAGE.parent / span["filename"]).read_text().splitlines())
        (first, start), (last, end) = span["begin"], span["end"]
        lines = [*file[first - 1 : last - 1], file[last - 1][: end - 1]] if last > first else [file[first - 1][: end - 1]]
        text = re.sub(r"^(\s*(///[^\n]*|#\[[^\n]*\])\n)*", "", "\n".join([lines[0][start - 1 :], *lines[1:]]))
        if item["name"] and not re.search(rf"\b{item['name']}\b", text):
            return f"pub fn {item['name']}, of a macro"
        if "function" in item["inner"]:
            text = text.split("{")[0].rstrip(" ;\n")
        return re.sub(r", ?([)}])", r"\1", " ".join(re.sub(r"//[^\n]*", "", text).split()).replace("( ", "(")).rstrip(",;")

    def walk(self, item, path):
        if "hidden" in str(item["attrs"]):
            return
        inner = item["inner"].get("use")
        if inner and inner["is_glob"]:
            self.walk_all(self.item(inner["id"])["inner"]["module"]["items"], path)
        elif inner:
            self.add(self.item(inner["id"]), f"{path}::{inner['name']}")
        elif item["name"]:
            self.add(item, f"{path}::{item['name']}")

    def walk_all(self, numbers, path):
        """Those of a module, and first those that it names from elsewhere."""
        items = [item for item in map(self.item, numbers) if item]
        for item in sorted(items, key=lambda item: "use" not in item["inner"]):
            self.walk(item, path)
        constants = sorted(item["name"] for item in items if "constant" in item["inner"])
        if constants:
            self.lines[f"{path}::"] = [f"consts of {path}: {' '.join(constants)}"]

    def add(self, item, path):
        kind = next(iter(item["inner"]))
        inner = item["inner"][kind]
        before = self.seen.setdefault(item["id"], path)
        self.note_types({name: part for name, part in inner.items() if name != "impls"}, path)
        if before != path:
            self.lines[path] = [f"{path} is {before}"]
        elif kind == "module":
            self.lines[path] = [f"mod {path}"]
            self.walk_all(inner["items"], path)
        elif kind in ("function", "static", "type_alias"):
            self.lines[path] = [f"{path}: {self.text(item)}"]
        elif kind != "constant":
            open_ended = " (non_exhaustive)" if "non_exhaustive" in str(item["attrs"]) else ""
            self.lines[path] = [f"{kind} {path}{open_ended}", *sorted({*self.members(item, kind)})]

    def members(self, item, kind):
        """The fields, variants and methods of a type, and the traits that it has."""
        inner = item["inner"][kind]
        parts = inner["variants"] if kind == "enum" else inner["items"] if kind == "trait" else []
        if kind == "struct":
            shape = inner["kind"]
            parts = shape.get("plain", {}).get("fields", shape.get("tuple", [])) if isinstance(shape, dict) else []
        for number in parts:
            if number is not None and (part := self.item(number)):
                if (kind != "struct" or part["visibility"] == "public") and "hidden" not in str(part["attrs"]):
                    self.note_types(part["inner"], item["name"])
                    yield f"    {self.text(part)}"
        traits = set()
        for number in inner.get("impls", []):
            found = self.item(number)
            made = found and found["inner"]["impl"]
            if not made or made["is_synthetic"] or made["blanket_impl"]:
                continue
            if made["trait"]:
                traits.add(made["trait"]["path"].rsplit("::", 1)[-1])
            else:
                for method in map(self.item, made["items"]):
                    if method and method["visibility"] == "public" and "hidden" not in str(method["attrs"]):
                        self.note_types(method["inner"], item["name"])
                        yield f"    {self.text(method)}"
        if traits - OF_ITSELF:
            yield f"    : {' + '.join(sorted(traits - OF_ITSELF))}"

    def listed(self):
        self.walk_all(self.item(self.said["root"])["inner"]["module"]["items"], "vukhaso")
        return HEAD + "".join(f"{line}\n" for path in sorted(self.lines) for line in self.lines[path])


def listed():
    return Items().listed()


def difference():
    """The lines of the list that are not as they would be written, and the types that have no name there."""
    items = Items()
    ours, theirs = LIST.read_text().splitlines(), items.listed().splitlines()
    differing = difflib.unified_diff(ours, theirs, "public-items.txt", "the package", lineterm="", n=0)
    return "\n".join([*differing, *items.unseen()])
