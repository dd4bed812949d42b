"""Tests of what `tools/plain_rust` writes, and of what it refuses.

They look at the package with no help of the tool's reader, so that a fault of the reader does not hide itself.
"""

import importlib.util
import re
import sys
import unittest
from importlib.machinery import SourceFileLoader
from pathlib import Path
from unittest import mock

ROOT = Path(__file__).resolve().parent.parent.parent
sys.path[:0] = [str(ROOT / "tools"), str(ROOT / "tools/rust")]


def loaded(path):
    loader = SourceFileLoader(path.name, str(path))
    module = importlib.util.module_from_spec(importlib.util.spec_from_loader(path.name, loader))
    loader.exec_module(module)
    return module


plain_rust = loaded(ROOT / "tools/plain_rust")

import contracts  # noqa: E402
import erase  # noqa: E402
from checks import Clauses  # noqa: E402
from paths import Paths  # noqa: E402
from rattle_source import Refused  # noqa: E402

SAMPLE = '''//! A sample.
#![tactic(auto)]
ghost use Rattle.std.specs.Prelude.{◌≡◌};

use std::alloc::{AllocError, Global};
use std::mem;

/// Adds one. Requires room. `Err(AllocError)` where memory ran out: then nothing changed.
#[tactic(auto, using(crate::proofs::Lemmas::adds))]
pub fn add(alloc: Global, list: &mut Vec<u32>, n: usize) -> Result<String, AllocError>
    requires room { n < length list.old }
    requires even { is_even n }
    ensures added { list.new.items ≡ list.old.items ++ n ∷ [] }
{
    prove!(n < 5);
    list.push(1)?;
    mem::swap(&mut list[0], &mut 3);
    format!(in alloc; "{n} {}", '}')
}
'''


def erased(text, outside=False, host=None):
    paths = Paths({"sample": "crate::sample"}, "sample", "crate::memory", outside or bool(host), "crate::Fail", host)
    laws = type("Laws", (), {"names": set(), "modules": {}})
    return erase.Erased("sample.rt", text, paths, {"add"}).erased(set(), laws)


def code_of(text):
    """A text of Rust without comments, texts and characters."""
    text = re.sub(r"//[^\n]*", "", text)
    return re.sub(r'"(?:\\.|[^"\\])*"|\'(?:\\u\{\w+\}|\\.|[^\\\'])\'', '""', text)


def left_standing(files):
    """Words of contracts in the code of what is written."""
    for place, text in files.items():
        if place.suffix == ".rs":
            for word in re.findall(r"\b(?:requires|ensures|ghost|tactic|prove|Model|Global|Rattle)\b|[^\x00-\x7f]", code_of(text)):
                yield f"{place}: {word}"


def clauses_of(word):
    """The clauses of the library's functions as they stand in the source, without those of laws."""
    for crate in [*plain_rust.LIBRARY, *plain_rust.PROGRAMS]:
        for path in sorted((ROOT / "crates" / crate / "src").rglob("*.rt")):
            text = re.sub(r"(?m)^ *//[^\n]*\n", "", path.read_text())
            text = re.sub(r"(?ms)^pub fn \w+\(\)\n(?: +[^\n]*\n)+\{\}\n", "", text)
            for match in re.finditer(rf"(?m)^ +{word}\*?( \w+)? \{{", text):
                depth, at = 1, match.end()
                while depth:
                    depth += {"{": 1, "}": -1}.get(text[at], 0)
                    at += 1
                yield path, " ".join(text[match.end() : at - 1].split())


def library():
    """The modules of the library as they are written."""
    crates = [*plain_rust.LIBRARY, *plain_rust.PROGRAMS]
    laws = plain_rust.Laws([*crates, *plain_rust.WITHOUT_CODE])
    return dict(plain_rust.library_files(plain_rust.takers_of(crates), laws))


def documented(files):
    """All documentation of what is written, with single spaces."""
    text = "\n".join(text for place, text in files.items() if place.suffix == ".rs" and place.parts[0] == "src")
    return " ".join(re.sub(r"(?m)^ *///", "", "\n".join(re.findall(r"(?m)^ *///.*$", text))).split())


class Package(unittest.TestCase):
    @classmethod
    def setUpClass(cls):
        cls.files = plain_rust.written()

    def test_no_clause_is_left_standing(self):
        self.assertEqual([], list(left_standing(self.files)))

    def test_a_clause_that_is_left_standing_is_noticed(self):
        with mock.patch.object(erase.Erased, "erase_function", lambda *_: None):
            with self.assertRaises(Refused):
                library()
        self.assertTrue(list(left_standing({Path("src/x.rs"): "fn f()\n    ensures { result == 1 }\n{}"})))

    def test_each_requires_is_documented(self):
        docs, found = documented(self.files), list(clauses_of("requires"))
        self.assertGreater(len(found), 100)
        self.assertEqual([], [f"{path}: {text}" for path, text in found if text not in docs])

    def test_a_requires_that_is_lost_is_noticed(self):
        with mock.patch.object(contracts, "bullets", lambda clauses: []):
            docs = documented(library())
        self.assertTrue([text for _, text in clauses_of("requires") if text not in docs])

    def test_the_files_are_the_same_each_time(self):
        self.assertEqual(self.files, plain_rust.written())

    def test_sections_are_there(self):
        text = self.files[Path("src/internals/buffer/buffer/cursor.rs")]
        function = text[text.index("/// Moves `n` glyphs") : text.index("pub fn next_glyphs")]
        for line in ("# Requires", "# Errors", "# Proved", "- `n ≤ lookahead_len self.old`", "`Ok(false)` where"):
            self.assertIn(line, function)
        self.assertIn("ensures meets { Meets (step.next_glyphs n self.old) self.old result self.new }", function)
        self.assertIn("debug_assert!(n <= self.lookahead_len());", text)


class Erasure(unittest.TestCase):
    def test_what_only_rattle_has_goes(self):
        text = re.sub(r"\( ", "(", erased(SAMPLE))
        self.assertIn("pub fn add(list: &mut Vec<u32>, n: usize) -> Result<String, AllocError>", text)
        self.assertIn("use crate::memory::AllocError;", text)
        self.assertIn("use core::mem;", text)
        self.assertIn("debug_assert!(n < list.len());", text)
        self.assertIn('String::format(format_args!("{n} {}", \'}\'))', " ".join(text.split()))
        self.assertIn("/// - `even: is_even n`", text)
        self.assertNotIn("Global", text)

    def test_what_is_not_known_is_refused_with_its_line(self):
        for wrong, line in (
            ("macro_rules! x { () => {} }\n", 1),
            ("fn f() {\n    ghost let x = 1;\n}\n", 2),
            ("fn f() {\n    unsafe { g() }\n}\n", 2),
            ("use std::net::TcpStream;\n", 1),
            ("fn f() -> u32 {\n    let alloc = 1;\n    alloc\n}\n", 2),
            ("fn f(x: &str) {\n    x.to_uppercase(alloc);\n}\n", 2),
            ("#[link(name)]\nstruct X;\n", 1),
            ("#[derive(Ord, Model)]\nstruct X;\n", 1),
            ("fn f()\n    requires { x\n{}\n", 2),
            ("fn f() {\n    let x = 'a;\n    x ≡ 1\n}\n", 3),
            ("fn f() {\n    dbg!(1);\n}\n", 2),
        ):
            with self.subTest(wrong), self.assertRaisesRegex(Refused, rf"sample\.rt:{line}: "):
                erased(wrong)

    def test_brackets_in_texts_and_characters_are_none(self):
        text = erased("fn f() -> usize\n    ensures { result ≡ 2 }\n{\n    let _ = (b'{', '\\u{7d}', \"}\", 'x');\n    2\n}\n")
        self.assertIn("(b'{', '\\u{7d}', \"}\", 'x')", text)
        self.assertNotIn("ensures", code_of(text))

    def test_conditions_beside_a_let_are_nested(self):
        for given, told in (
            ("if a && let Some(b) = c && d { e(); }", "if a { if let Some(b) = c { if d { e(); }}}"),
            ("if let Some(b) = c { d(); } else if a && b { e() }", "if let Some(b) = c { d(); } else if a && b { e() }"),
            ("if a && b && let Some(c) = d { e(); } else { f(); }",
             "'chained: { if a && b { if let Some(c) = d { e(); break 'chained;}} { f(); }}"),
        ):
            with self.subTest(given):
                self.assertIn(told, " ".join(erased(f"fn f() {{\n    {given}\n}}\n").split()))
        for wrong in ("while a && let Some(b) = c { d(); }", "if a && let Some(b) = c { 1 } else { 2 }"):
            with self.subTest(wrong), self.assertRaisesRegex(Refused, r"sample\.rt:2: "):
                erased(f"fn f() {{\n    {wrong}\n}}\n")

    def test_chunks_and_casts_are_those_of_the_package(self):
        text = erased("pub struct Ranges<'a>(&'a [[u8; 6]]);\n\nfn f(t: &[u8]) -> i16 {\n    let (ranges, _) = tail(t, 4).as_chunks::<6>();\n"
                      "    g(&Ranges(ranges)).cast_signed()\n}\n")
        for line in ("pub struct Ranges<'a>(Chunks<'a, 6>);", "let (ranges, _) = Chunks::<6>::split(tail(t, 4));", ".to_signed()"):
            self.assertIn(line, text)

    def test_bounds_of_drop_go(self):
        text = erased("pub fn f<T: Drop, U: Copy + Drop, V: Drop + Copy>(t: T, u: U, v: V) {}\n")
        self.assertIn("fn f<T, U: Copy, V: Copy>", " ".join(text.replace(" ,", ",").split()))

    def test_errors_are_written_as_thiserror_writes_them(self):
        text = erased(
            'use thiserror::Error;\n\n#[derive(Debug, Error)]\npub enum E {\n    #[error("at {at}")]\n    A { at: u8, to: u8 },\n'
            '    #[error("{0} of {1}")]\n    B(u8, u8),\n}\n')
        self.assertIn('Self::A { at, .. } => write!(f, "at {at}"),', text)
        self.assertIn('Self::B(n0, n1) => write!(f, "{n0} of {n1}"),', text)


    def test_a_runtime_is_passed_on_to_its_stand_in(self):
        text = erased(
            "use std::io::{self, Write};\nuse std::rt::Files;\n\npub fn f<F: Files + AllocGlobal>(rt: &F) -> io::Result<u32> {\n"
            '    let alloc = rt.alloc();\n    eprintln!(rt; "{}", 1)?;\n    add(rt.alloc(), rt)\n}\n', host="crate::host")
        for line in ("use crate::host::io::{self, Write};", "use crate::host::Files;", "pub fn f<F: Files + AllocGlobal>(rt: &F) "):
            self.assertIn(line, text)
        self.assertIn('{\n    rt.eprint_line(format_args!("{}", 1))?;\n    add(rt)\n}', text.replace("( ", "("))


class Tests(unittest.TestCase):
    def test_of_clauses(self):
        reader = Clauses({"self": "hb_buffer_t", "n": "usize", "c": "char", "list": "[u32]", "b": "bool"})
        for clause, test in (
            ("n ≤ lookahead_len self.old", "n <= self.lookahead_len()"),
            ("self.old.have_output ≡ false", "!self.have_output()"),
            ("0 < length list.now", "!list.is_empty()"),
            ("n ≤ length list.old - 1", "n <= list.len().saturating_sub(1)"),
            ("self.old.have_output ≡ true → self.old.idx ≤ n", "!self.have_output() || self.idx() <= n"),
            ("c < 128", "u32::from(c) < 128"),
            ("IsSome self.old.positions", "self.have_positions()"),
            ("self.old.positions ≡ None", "!self.have_positions()"),
            ("HasPositions self.old", "!self.have_output() && self.have_positions()"),
            ("HasCurrent self.old", "self.have_output() && !self.info().is_empty()"),
            ("n ≤ step.last_place self.old", "n <= self.backtrack_len() + self.lookahead_len()"),
            ("AreCharacters self.old.input", "self.info().iter().all(|glyph| char::from_u32(glyph.glyph_id).is_some())"),
        ):
            self.assertEqual(test, reader.test_of(clause)[0])
        for clause in ("AreGlyphs list.now", "b < n", "n ≡ true", "length self.now.other ≤ n", "(i : ℕ) → i < n"):
            self.assertIsNone(reader.test_of(clause))


if __name__ == "__main__":
    unittest.main()
