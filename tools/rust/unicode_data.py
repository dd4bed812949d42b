"""Tables of Unicode, from the rows of the kit's crates."""

import re
import shutil
from pathlib import Path

HEAD = "// Written by tools/plain_rust from the rows of the kit's crate {} (Unicode {}). Do not edit."

# Unicode's short names of general categories.
SHORT = {
    "UppercaseLetter": "Lu", "LowercaseLetter": "Ll", "TitlecaseLetter": "Lt", "ModifierLetter": "Lm",
    "OtherLetter": "Lo", "NonspacingMark": "Mn", "SpacingMark": "Mc", "EnclosingMark": "Me", "DecimalNumber": "Nd",
    "LetterNumber": "Nl", "OtherNumber": "No", "ConnectorPunctuation": "Pc", "DashPunctuation": "Pd",
    "OpenPunctuation": "Ps", "ClosePunctuation": "Pe", "InitialPunctuation": "Pi", "FinalPunctuation": "Pf",
    "OtherPunctuation": "Po", "MathSymbol": "Sm", "CurrencySymbol": "Sc", "ModifierSymbol": "Sk", "OtherSymbol": "So",
    "SpaceSeparator": "Zs", "LineSeparator": "Zl", "ParagraphSeparator": "Zp", "Control": "Cc", "Format": "Cf",
    "Surrogate": "Cs", "PrivateUse": "Co", "Unassigned": "Cn",
}

ROW = re.compile(r"\(0x([0-9A-F]+), 0x([0-9A-F]+), (.*)\)$", re.M)


def kit():
    """The folder of the kit's crates."""
    return Path(shutil.which("rt")).resolve().parent.parent / "rattle"


def rows_of(crate, file):
    """The rows of a file of definitions: the first code point, the last one, and the value."""
    text = (kit() / crate / "specs" / f"{file}.antt").read_text()
    return [(int(first, 16), int(last, 16), value) for first, last, value in ROW.findall(text)]


def version():
    text = (kit() / "ucd_table/src/version.rt").read_text()
    return ".".join(re.search(r"\((\d+), (\d+), (\d+)\)", text).groups())


def variants_of(crate, name):
    """The variants of an enum of the kit, in order."""
    text = (kit() / crate / "src/lib.rt").read_text()
    body = re.search(rf"pub enum {name} \{{(.*?)\}}", text, re.S)[1]
    return re.findall(r"^ +(\w+)\b", re.sub(r"//.*", "", body), re.M)


def enum_file(crate, name, doc, file, default):
    """A property with values: its enum, and its runs, each from a code point up to the next run."""
    runs, end = [], 0
    for first, last, value in rows_of(crate, file):
        if first > end:
            runs.append((end, default))
        runs.append((first, value))
        end = last + 1
    if end < 0x110000:
        runs.append((end, default))
    joined = [run for i, run in enumerate(runs) if i == 0 or runs[i - 1][1] != run[1]]
    variants = variants_of(crate, name)
    upper = re.sub(r"(?<=[a-z])(?=[A-Z])", "_", name).upper()
    return (
        f"{HEAD.format(crate, version())}\n\n/// {doc}\n#[derive(Clone, Copy, Debug, PartialEq, Eq, Hash)]\n"
        f"pub enum {name} {{\n" + "".join(f"    /// `{variant}`.\n    {variant},\n" for variant in variants) + "}\n\n"
        f"use {name}::{{{', '.join(f'{v} as {SHORT[v]}' if v in SHORT else v for v in variants)}}};\n\n/// The first code point of each run, and the value of all in it.\n#[rustfmt::skip]\n"
        f"pub(super) static {upper}_RUNS: [(u32, {name}); {len(joined)}] = [\n"
        + in_lines(f"(0x{first:X}, {SHORT.get(value, value)})" for first, value in joined) + "];\n"
    )


def in_lines(pieces, width=116):
    lines, line = [], "   "
    for piece in pieces:
        if len(line) + len(piece) + 2 > width:
            lines.append(line)
            line = "   "
        line += f" {piece},"
    return "\n".join([*lines, line]) + "\n"


def char(code):
    return f"'\\u{{{code:x}}}'"


def canonical_mappings():
    """The canonical mapping of each code point that has one."""
    mappings = {}
    for first, last, value in rows_of("ucd_normal", "DecompositionRows"):
        tag, _, string = value.strip("()").partition(", ")
        if tag == "canonical":
            for code in range(first, last + 1):
                mappings[code] = [int(part, 16) for part in re.findall(r"0x([0-9A-F]+)", string)]
    return mappings


def full(mappings, code):
    return [part for first in mappings.get(code, [code]) for part in (full(mappings, first) if first != code else [code])]


def normal_file():
    """The data of normalization: classes, full decompositions, and what pairs compose to."""
    classes = [(first, last, int(value)) for first, last, value in rows_of("ucd_normal", "CanonicalCombiningClassRows")
               if int(value)]
    mappings = canonical_mappings()
    decompositions = [(code, full(mappings, code)) for code in sorted(mappings)]
    pairs = []
    for first, _, value in rows_of("ucd_normal", "Compositions"):
        numbers = [int(part, 16) for part in re.findall(r"0x([0-9A-F]+)", value)]
        pairs += [((first, second), whole) for second, whole in zip(numbers[::2], numbers[1::2])]
    tables = (
        ("The classes that are not 0: the first code point, the last one, and the class.", "CLASSES", "(u32, u32, u8)",
         [f"(0x{first:X}, 0x{last:X}, {value})" for first, last, value in classes]),
        ("The full canonical decomposition of each character that has one.", "DECOMPOSITIONS", "(char, &[char])",
         [f"({char(code)}, &[{', '.join(map(char, parts))}])" for code, parts in decompositions]),
        ("The pairs that compose, and what they compose to.", "COMPOSITIONS", "((char, char), char)",
         [f"(({char(a)}, {char(b)}), {char(whole)})" for (a, b), whole in sorted(pairs)]),
    )
    text = HEAD.format("ucd_normal", version()) + "\n"
    for doc, name, kind, rows in tables:
        text += f"\n/// {doc}\n#[rustfmt::skip]\npub(super) static {name}: [{kind}; {len(rows)}] = [\n{in_lines(rows)}];\n"
    return text


def files():
    """The files of tables, by their places in the package."""
    return {
        Path("src/unicode/script.rs"): enum_file(
            "ucd_script", "Script", "The values of the property `Script`.", "ScriptRows", "Unknown"),
        Path("src/unicode/general_category.rs"): enum_file(
            "ucd_category", "GeneralCategory", "The values of the property `General_Category`.",
            "GeneralCategoryRows", "Unassigned"),
        Path("src/ucd_normal/tables.rs"): normal_file(),
    }
