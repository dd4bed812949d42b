"""Lines of text put through a program of ours and through HarfBuzz's `hb-shape`, and what both say compared line by line."""

import argparse
import multiprocessing
import shlex
import subprocess
import sys
from collections import Counter
from dataclasses import dataclass
from pathlib import Path

import debian
from sources import CRATES, reference

SHOWN = 5

# A batch that takes longer hangs.
SECONDS = 300


@dataclass(frozen=True)
class Batch:
    """Lines that a font shapes with some options."""

    font: debian.Font
    options: tuple
    lines: list

    def command(self, program):
        return [str(program), *self.font.words(), *self.options]


@dataclass(frozen=True)
class Difference:
    """A line with both answers, or with no line how both programs ended."""

    batch: Batch
    line: str
    ours: str
    theirs: str

    def show(self, programs=(), file=sys.stdout):
        """Prints it, and the command that shows it with some programs."""
        unicodes = ",".join(f"U+{ord(character):04X}" for character in self.line)
        print(f"{self.batch.font.name}, {unicodes or 'a run'}\n    ours   {self.ours}\n    theirs {self.theirs}", file=file)
        for program in programs:
            print(f"    {shlex.join([*self.batch.command(program), '--unicodes', unicodes])}", file=file)


def answers(program, batch):
    """What a program says to each line of the batch, its status, and its message."""
    text = "".join(line + "\n" for line in batch.lines).encode()
    try:
        words = [*batch.command(program), "--text-file=-"]
        done = subprocess.run(words, input=text, capture_output=True, timeout=SECONDS)
        said, status, message = done.stdout, done.returncode, done.stderr.decode(errors="replace").strip()
    except subprocess.TimeoutExpired as ran:
        said, status, message = ran.stdout or b"", "none", f"no end after {SECONDS} seconds"
    return said.decode(errors="replace").split("\n")[:-1], status, message


def compare(work):
    """The font, how many lines there are, and those that differ. Those after a line at which a program ended are not compared."""
    batch, *programs = work
    (ours, *our_end), (theirs, *their_end) = (answers(program, batch) for program in programs)
    differ = [Difference(batch, *row) for row in zip(batch.lines, ours, theirs) if row[1] != row[2]]
    if (len(ours), our_end[0]) != (len(theirs), their_end[0]):
        ends = (f"{len(said)} lines, status {status} {why}" for said, (status, why) in ((ours, our_end), (theirs, their_end)))
        differ.insert(0, Difference(batch, "", *ends))
    return batch.font.name, len(batch.lines), differ


def batches(font, options, lines, size):
    for start in range(0, len(lines), size):
        yield Batch(font, tuple(options), lines[start:start + size])


def compare_all(made, options, kind=None):
    """Compares batches, and prints for each font how many lines differ, and the first of them. Whether any does.

    With `kind`, a function of a difference, it is counted too how many there are of each kind.
    """
    programs = options.ours, options.theirs or reference()
    compared, differ, kinds = Counter(), Counter(), Counter()
    with multiprocessing.Pool(options.jobs) as pool:
        for name, count, found in pool.imap(compare, ((batch, *programs) for batch in made)):
            for difference in found[:max(0, options.show - differ[name])]:
                difference.show(programs if difference is found[0] and not differ[name] else ())
            compared[name] += count
            differ[name] += len(found)
            kinds.update((name, kind(difference) if difference.line else "runs") for difference in found if kind)
    for name, count in compared.items():
        of_kind = sorted((f"{which} {n}" for (font, which), n in kinds.items() if font == name), key=lambda it: it.split()[0])
        print(f"{name}: {count} lines, {differ[name]} differ{': ' * bool(of_kind)}{', '.join(of_kind)}")
    print(f"{compared.total()} lines compared, {differ.total()} differ")
    return bool(differ.total())


def flags(options):
    """The options that have flags shown, and those that are handed on."""
    more = [] if options.breaks else ["--unsafe-to-concat", "--safe-to-insert-tatweel"]
    return ["--show-flags", *more, *options.options]


def arguments(description):
    """What all of these tools take."""
    words = argparse.ArgumentParser(description=description, formatter_class=argparse.RawDescriptionHelpFormatter)
    words.add_argument("fonts", nargs="*", metavar="FONT")
    words.add_argument("--ours", type=Path, default=CRATES / "vukhaso_shape/out/vukhaso_shape")
    words.add_argument("--theirs", type=Path)
    words.add_argument("--options", default="", help="more options for both programs, as `--options=--features=-liga`")
    words.add_argument("--breaks", action="store_true", help="of the flags, only unsafe_to_break")
    words.add_argument("--show", type=int, default=SHOWN, help="how many differences are printed of each font")
    words.add_argument("--jobs", type=int, default=2)
    return words


def read(words):
    options = words.parse_args()
    if not options.ours.is_file():
        sys.exit(f"{options.ours} is not there: `rt run` makes it in its crate")
    options.options = shlex.split(options.options)
    return options
