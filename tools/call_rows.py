"""Rows of calls: lines for `shaping_cli`, each with its answer, as `next_glyph -> done`.

Lines that begin with `#` say what the next ones are about; empty lines are passed over. A file is one run of the program, from its first
line to its last.
"""

import subprocess
from dataclasses import dataclass
from pathlib import Path

ROOT = Path(__file__).resolve().parent.parent
ROWS = ROOT / "rows/calls"
PROVED = ROOT / "crates/shaping_cli/out/shaping_cli"

ARROW = " -> "

# A run that takes longer than these seconds has failed.
SECONDS = 60


@dataclass(frozen=True)
class Row:
    """A row: where it stands, the line, and its answer."""

    place: str
    line: str
    answer: str


def row_of(path, number, text):
    line, arrow, answer = text.rpartition(ARROW)
    if not arrow:
        raise SystemExit(f"{path.name}:{number}: no `{ARROW.strip()}` in `{text}`")
    return Row(f"{path.relative_to(ROOT)}:{number}", line, answer)


def rows_of(path):
    """The rows of a file."""
    lines = enumerate(path.read_text().split("\n"), 1)
    return [row_of(path, number, line) for number, line in lines if line and not line.startswith("#")]


def answers(program, rows):
    """What a program answers to the rows; fewer lines where it ends or hangs."""
    given = "".join(row.line + "\n" for row in rows).encode()
    try:
        said = subprocess.run([program], input=given, stdout=subprocess.PIPE, stderr=subprocess.DEVNULL, timeout=SECONDS).stdout
    except subprocess.TimeoutExpired as expired:
        said = expired.stdout or b""
    return said.decode(errors="replace").split("\n")[:-1]


def counts(files, program):
    """How many rows of the files a program answers as is written, and how many otherwise, which are printed."""
    passed = failed = 0
    for file in files:
        rows = rows_of(file)
        said = answers(program, rows)
        said += ["no answer"] * (len(rows) - len(said))
        wrong = [(row, given) for row, given in zip(rows, said) if given != row.answer]
        for row, given in wrong:
            print(f"{row.place}: {row.line}\n    Actual:   {given}\n    Expected: {row.answer}")
        passed, failed = passed + len(rows) - len(wrong), failed + len(wrong)
    return passed, failed
