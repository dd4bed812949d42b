"""The tests of `--jobs` of the package's program: on several threads it prints and says what it does on one, and ends with the same status."""

import random
import subprocess
import sys
from pathlib import Path

ROOT = Path(__file__).resolve().parent.parent.parent
sys.path.append(str(ROOT / "tools"))

from font_files import slow  # noqa: E402
from shaping_rows import is_row, row_of  # noqa: E402

# Fonts of `fonts`, each with options.
FONTS = {
    "letters.ttf": ["--features=-liga,kern[1:3]=0", "--show-extents"],
    "arabic.ttf": ["--show-flags", "--unsafe-to-concat", "--no-glyph-names"],
    "devanagari.ttf": ["--utf8-clusters", "--verify"],
    "myanmar.ttf": ["--cluster-level=1", "--text-before=x", "--text-after=y", "--ned"],
    "variable.ttf": ["--variations=wght=600", "--font-size=20"],
    "apple-insertion.ttf": [],
}
LINES = 3_000
JOBS = (1, 2, 3, 4, 16)

# A line that is no UTF-8, an empty one, one that is longer than the piece of a thread, and lines that C's strings cut.
ODD = [b"ab\xffc\xc3", b"", b"office " * 4_000, b"ab\0cd", b"\0", b"\0" + b"office " * 2_000]

# Words that come to nothing, each behind a font.
REFUSED = [["--text-file=/"], ["--text-file=/nowhere"], ["--face-index=9", "ab"], ["--nothing"], ["--text=a", "--unicodes=61"], ["--help"]]
# Words that `--jobs` is refused with.
OF_ONE_TEXT = [["--svg", "ab"], ["--single-par", "ab"]]
NUMBERS = ["0", "-1", "x", "257", ""]


def texts_of(font):
    """The texts of the rows of a font."""
    for path in sorted((ROOT / "rows/shaping").glob("*.tests")):
        for line in filter(is_row, path.read_text().split("\n")):
            row = row_of(path, 0, line, False)
            if row.font.name == font and "," in row.text:
                yield "".join(chr(int(code[2:], 16)) for code in row.text.split(",")).replace("\n", " ").encode(errors="replace")


def corpus(texts, odd):
    """Lines drawn of some texts, with odd ones between them, the last without its line feed."""
    drawn = random.Random(1)
    lines = [b" ".join(drawn.choices(texts, k=drawn.randint(1, 6))) for _ in range(LINES)]
    for at, line in enumerate(odd):
        lines.insert(LINES // 2 + 7 * at, line)
    return b"\n".join(lines)


def failing():
    """Fonts with lines that fail: the text becomes too long, or its shaping is given up."""
    for name in ("grows", "many_calls"):
        font, line, _ = slow.FONTS[name]()
        yield name, font, corpus([b"bcd", b"office", b"xyz"], [line.encode()])


def told(program, words, text, output=subprocess.PIPE):
    """What the program prints and says, and its status."""
    done = subprocess.run([program, *map(str, words)], input=text, stdout=output, stderr=subprocess.PIPE)
    return done.stdout, done.stderr, done.returncode


def difference(program, words, text):
    """The first number of threads with which something else is told than without `--jobs`."""
    one = told(program, words, text)
    for jobs in JOBS:
        if told(program, [f"--jobs={jobs}", *words], text) != one:
            return f"{' '.join(map(str, words))} is answered otherwise with --jobs={jobs}"
    return ""


def of_fonts(program, room):
    for name, options in FONTS.items():
        text = corpus(list(texts_of(name)), ODD)
        file = room / f"{name}.txt"
        file.write_bytes(text)
        font = ROOT / "fonts" / name
        yield difference(program, [font, *options], text)
        yield difference(program, [font, *options, f"--text-file={file}"], b"")
        yield difference(program, [font, *options, text[:2_000].decode(errors="ignore").replace("\0", "")], b"")
    for name, font, text in failing():
        path = room / f"{name}.ttf"
        path.write_bytes(font)
        fault = difference(program, [path], text)
        is_told = told(program, ["--jobs=4", path], text)[2] == 1
        yield fault or ("" if is_told else f"{name}: no line failed")


def of_words(program):
    font = ROOT / "fonts/letters.ttf"
    for words in [*REFUSED, ["-"]]:
        yield difference(program, [font, *words], b"abc\n")
    for words in OF_ONE_TEXT:
        printed, said, status = told(program, [font, *words, "--jobs", "2"], b"")
        yield "" if (printed, status) == (b"", 1) and b"--jobs shares out" in said else f"{words} with --jobs: {said}"
    for number in NUMBERS:
        printed, said, status = told(program, [font, f"--jobs={number}", "ab"], b"")
        yield "" if (printed, status) == (b"", 1) and b"--jobs" in said else f"--jobs={number}: {said}"
    with Path("/dev/full").open("wb") as full:
        one, four = (told(program, [*words, font], b"abc\n" * 50_000, full) for words in ([], ["--jobs=4"]))
        yield "" if one == four and one[2] == 1 else f"on a full disk: {one} and {four}"


def faults(program, room):
    """The lines that say what differs."""
    return "\n".join(filter(None, [*of_fonts(program, room), *of_words(program)]))
