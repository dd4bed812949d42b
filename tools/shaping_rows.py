"""Rows of shaping, in the format of HarfBuzz's own tests, and programs that answer them as `hb-shape --batch` does.

A row is a line `font;options;code points;[glyphs]`: the font by its path from the row's file, options parted by spaces, code points
as `U+0061,U+0062`, and the answer. Where the answer is `*`, any will do. Empty lines are passed over, and those that begin with `#`.
"""

import os
import select
import shlex
import shutil
import subprocess
import threading
from dataclasses import dataclass
from pathlib import Path

ROOT = Path(__file__).resolve().parent.parent
PROVED = ROOT / "crates/vukhaso_shape/out/vukhaso_shape"
PACKAGE = ROOT / "rust/vukhaso"
OF_PACKAGE = "vukhaso_shape"

# What HarfBuzz's runner adds to each of HarfBuzz's lines whose answer it knows. Rows of our own say themselves what is tested:
# `--verify` of HarfBuzz 10.2 tests nothing, and that of ours finds fonts whose flags HarfBuzz gets wrong.
TESTED = ("--verify", "--unsafe-to-concat")

# A program that says nothing for these seconds has failed, and is started anew.
SECONDS = 10

ANY = "*"


@dataclass(frozen=True)
class Row:
    """A row: where it stands, its font, its options, its code points and its answer."""

    place: str
    font: Path
    options: tuple
    text: str
    answer: str
    is_tested: bool

    def line(self, *more):
        """The line of a batch that asks for the answer, under more options."""
        tested = TESTED if self.is_tested and self.answer != ANY else TESTED[1:]
        font = os.path.normpath(self.font)
        return ";".join([font, "--font-funcs=ot", "--shaper=ot", *tested, "--unicodes", self.text, *self.options, *more])


def row_of(path, number, line, is_tested):
    font, options, text, answer = line.strip().split(";")
    return Row(f"{path.parent.parent.name}/{path.stem}:{number}", path.parent / font, tuple(options.split()), text, answer, is_tested)


def is_row(line):
    return bool(line.strip()) and not line.startswith("#")


def rows_of(path, is_tested=False):
    """The rows of a file; those of HarfBuzz are tested as its runner does."""
    return [row_of(path, number, line, is_tested) for number, line in enumerate(path.read_text().split("\n"), 1) if is_row(line)]


class Program:
    """A program that answers line by line. Where it ends or hangs, that line has no answer, and the next are put to a new run."""

    def __init__(self, path, environment=None):
        self.path, self.environment = path, {**os.environ, "LC_ALL": "C", **(environment or {})}

    def answers(self, lines):
        """The answers to some lines; none to those at which it ended or hung."""
        found = []
        while len(found) < len(lines):
            found += self.run(lines[len(found):])
            if len(found) < len(lines):
                found.append(None)
        return found

    def run(self, lines):
        """The answers that one run gives."""
        given = "".join(line + "\n" for line in lines).encode()
        process = subprocess.Popen([self.path, "--batch"], stdin=subprocess.PIPE, stdout=subprocess.PIPE,
                                   stderr=subprocess.DEVNULL, env=self.environment)
        feeder = threading.Thread(target=fed, args=(process.stdin, given), daemon=True)
        feeder.start()
        said = b"".join(read(process.stdout.fileno()))
        process.kill()
        process.wait()
        feeder.join()
        process.stdout.close()
        whole = said[:said.rfind(b"\n") + 1].decode(errors="replace")
        return [line.strip() for line in whole.split("\n")[:-1]]


def fed(pipe, given):
    """Writes all into a pipe and closes it."""
    try:
        pipe.write(given)
        pipe.close()
    except BrokenPipeError:
        pass


def read(file):
    """What is said, until the end or until nothing is for too long."""
    while select.select([file], [], [], SECONDS)[0]:
        said = os.read(file, 1 << 16)
        if not said:
            return
        yield said


def programs(named=None):
    """The programs of ours that shape lines, or the one that is named: that which `rt ci` leaves, and the package's, where cargo builds it."""
    if named:
        return [named]
    found = [PROVED] if PROVED.is_file() else []
    if any((PACKAGE / "src" / main).exists() for main in ("main.rs", "bin")) and shutil.which("cargo"):
        subprocess.run(["cargo", "build", "--release", "--offline", "--quiet", "--bins"], cwd=PACKAGE, check=True)
        found += sorted(path for path in (PACKAGE.parent / "target/release").iterdir() if path.is_file() and path.name == OF_PACKAGE)
    return found


def compared(program, rows, wanted, *more):
    """The rows that a program answers otherwise than is wanted, each with the line that asked and the answer."""
    lines = [row.line(*more) for row in rows]
    said = Program(program).answers(lines)
    return [(row, line, answer, given) for row, line, answer, given in zip(rows, lines, wanted, said) if answer not in (ANY, given)]


def shown(program, line):
    """A line of a batch as a command."""
    return shlex.join([str(program), *line.split(";")])
