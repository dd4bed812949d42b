"""Wrong bodies, planted in a copy of the package: its tests have to notice each."""

import os
import shutil
import subprocess
import tempfile
from pathlib import Path

from package_tests import PACKAGE

# The file, a text that stands once in it, what takes its place, and what would go wrong for a user.
PLANTS = (
    ("src/memory/vec.rs", "Ok(self.0.try_reserve(additional)?)", "self.0.reserve(additional);\nOk(())",
     "where memory runs out, the program ends"),
    ("src/memory/string.rs", "Ok(self.0.try_reserve(additional)?)", "self.0.try_reserve(additional).unwrap();\nOk(())",
     "where memory runs out, a text panics"),
    ("src/internals/glyph_sides/sides/cursor.rs", "self.gap = gap + read - 1;", "self.gap = gap + read;", "a glyph that is put out is lost"),
    ("src/internals/glyph_lists/glyph_flags.rs", "while start > 1 &&", "while start > 2 &&", "a place is said to be safe to break"),
    ("src/internals/glyph_lists/clusters.rs", "(info.mask & !glyph_flag::DEFINED) |", "info.mask |", "a merge keeps break flags"),
    ("src/internals/buffer/buffer/moving.rs", "left > self.max_len - count", "left > self.max_len", "a rewind grows past the limit"),
    ("src/internals/glyph_text/serialize.rs", "if position.y_advance == 0 {", "if position.x_advance == 0 {", "vertical advances are lost"),
    ("src/internals/text/tags.rs", "if tag != Tag::from_bytes(b\"mym2\") {", "if true {", "Myanmar gets a tag that there is not"),
    ("src/internals/script_shapers/features.rs", "builder.disable_feature(Tag::from_bytes(b\"calt\"))", "Ok(())",
     "jamo have contextual alternates"),
    ("src/internals/script_joining/arabic/features.rs", "if !builder.has_feature(", "if builder.has_feature(",
     "ligatures of Arabic are made together with contextual alternates"),
    ("src/internals/arrayvec.rs", "&self.items[..self.len]", "&self.items[..]", "elements are read that are not there"),
    ("src/ucd_normal.rs", "} else if last < code {", "} else if last <= code {", "marks lose their class"),
)


def is_noticed(room, file, old, new):
    """Whether the tests notice a wrong body, and what they printed. The copy stands beside the fonts, as the package does."""
    copy = room / "rust/vukhaso"
    shutil.rmtree(copy, ignore_errors=True)
    if not (fonts := room / "fonts").exists():
        fonts.symlink_to(PACKAGE.parent.parent / "fonts")
    shutil.copytree(PACKAGE, copy, ignore=shutil.ignore_patterns("target"))
    text = (copy / file).read_text()
    if text.count(old) != 1:
        return False, f"`{old}` does not stand once in {file}"
    (copy / file).write_text(text.replace(old, new))
    environment = {**os.environ, "CARGO_TARGET_DIR": str(room / "target")}
    built = subprocess.run(
        ["cargo", "test", "--offline", "--quiet", "--no-run"], cwd=copy, capture_output=True, text=True, env=environment)
    if built.returncode:
        return False, f"it is not built:\n{built.stderr}"
    ran = subprocess.run(["cargo", "test", "--offline", "--quiet"], cwd=copy, capture_output=True, text=True, env=environment)
    return ran.returncode != 0, "no test fails"


def plant_all(tally):
    with tempfile.TemporaryDirectory(prefix="planted-") as folder:
        for file, old, new, why in PLANTS:
            noticed, fault = is_noticed(Path(folder), file, old, new)
            tally.note(f"{file}: {why}", "" if noticed else fault)
