"""The time of shaping, by the package's example `shape_lines` and by HarfBuzz, which run in turns over the same texts."""

import subprocess

import debian
from sources import FETCHED, HERE, built, fetched_sources

# The fonts, and the language of the texts that are shaped with each: those of HarfBuzz's own measures.
FONTS = [("DejaVuSans", "en"), ("Roboto", "en"), ("NotoSans", "en"), ("Amiri", "fa")]
WORDS = 10_000

# So many lines of a book are one line, of some 1,500 characters.
JOINED = 20


def texts(language):
    """Words, and long lines of a book."""
    folder = fetched_sources().parent / "perf/texts"
    words = (folder / f"{language}-words.txt").read_text().split("\n")[:WORDS]
    book = [line for line in (folder / f"{language}-thelittleprince.txt").read_text().split("\n") if line.strip()]
    lines = [" ".join(book[at:at + JOINED]) for at in range(0, len(book), JOINED)]
    for name, rows in (("words", words), ("lines", lines)):
        file = FETCHED / f"{language}-{name}.txt"
        file.write_text("".join(row + "\n" for row in rows))
        yield name, file


def measured(program, font, text):
    """The least time of a few rounds in microseconds, and what was shaped."""
    done = subprocess.run([program, font, text, "3"], check=True, capture_output=True, text=True)
    time, *answer = done.stdout.split()
    return int(time), answer


def compare(example, rounds):
    """Prints the time of each, of which the least counts, and fails where they shape otherwise."""
    theirs = built("shaping", [f"-I{fetched_sources()}", HERE / "shaping.cc", "-lpthread"], [HERE / "shaping.cc"])
    differs = False
    print(f"{'font':12} {'text':6} {'glyphs':>8} {'ours':>7} {'HarfBuzz':>9}  ratio   (microseconds)")
    for name, language in FONTS:
        [font] = debian.named_fonts([name])
        for kind, text in texts(language):
            runs = [(measured(example, font.path, text), measured(theirs, font.path, text)) for _ in range(rounds)]
            answer = runs[0][0][1]
            differs |= any(run[1] != answer for both in runs for run in both)
            ours, other = (min(both[side][0] for both in runs) for side in (0, 1))
            print(f"{name:12} {kind:6} {answer[0]:>8} {ours:7} {other:9}  {ours / other:.2f}", flush=True)
    if differs:
        print("glyphs or advances differ")
    return differs
