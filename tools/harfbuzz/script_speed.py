"""How long shaping takes in each script: by the package's example `shape_lines`, by HarfBuzz 10.2 and, where it is asked for, by the newest HarfBuzz of
Debian, over the same texts, in turns. A font of each script, words of Debian's word lists and translations, or for scripts that have
neither words of random letters and marks; as words, and as one line."""

import random
import re
import subprocess
import unicodedata
from dataclasses import dataclass
from pathlib import Path

import debian
from sources import FETCHED, HERE, built, fetched_sources, newest_sources

# So many words are shaped.
WORDS = 300

# Scripts that SCRIPTS.md names, and fonts that are not the script's first.
SCRIPTS = (
    "Latin Greek Cyrillic Armenian Georgian Ethiopic Arabic Syriac Hebrew Hangul Thai Lao Devanagari Bengali Gurmukhi Gujarati Oriya "
    "Tamil Telugu Kannada Malayalam Sinhala Khmer Myanmar Tibetan Javanese Balinese Grantha Mongolian Tai_Tham Nko Adlam "
    "Hanifi_Rohingya Mandaic Cham Newa Sundanese Limbu Buginese Egyptian_Hieroglyphs"
).split()
MORE = {"Arabic": [("NotoNastaliqUrdu", "fonts-noto-core", "NotoNastaliqUrdu-Regular.ttf", 0)]}

# The most that a font may take of HarfBuzz's instructions.
MOST = 1.1


@dataclass(frozen=True)
class Cost:
    """What a program took for a text: the least microseconds of a round, and what was shaped; instructions of a round where asked for."""

    time: int
    answer: tuple
    instructions: int = 0


@dataclass(frozen=True)
class Text:
    """A text of a script in a file, a line of which is shaped at a time. Of faces, a face is made for each round."""

    kind: str
    file: Path

    @property
    def words(self):
        return [self.file, "faces"] if self.kind == "face" else [self.file]


def rows(scripts):
    """A script and a font of it, for each script and font."""
    for script in scripts or SCRIPTS:
        yield script, debian.fonts_of(script)[0]
        for font in debian.fonts(MORE[script]) if script in MORE else []:
            yield script, font


def words_of(script):
    """Some words of a script."""
    rng = random.Random(script)
    if script in debian.DICTIONARIES:
        words = next(debian.words_of(script))
    elif script in debian.TRANSLATIONS:
        words = [word for text in debian.translations_of(script) for word in text.split()]
    else:
        words = [made_word(rng, script) for _ in range(WORDS)]
    return rng.sample(words, min(WORDS, len(words)))


def made_word(rng, script):
    """A word of two to five letters, each with up to two marks."""
    by_kind = {kind: [code for code in debian.scripts()[script] if unicodedata.category(chr(code))[0] == kind] for kind in "LM"}
    marks = lambda: rng.choices(by_kind["M"], k=rng.choice([0, 0, 1, 1, 2])) if by_kind["M"] else []
    return "".join(chr(code) for _ in range(rng.randint(2, 5)) for code in [rng.choice(by_kind["L"]), *marks()])


def texts(script):
    """The same words one by one, as one line, and the first of them with a face for each round."""
    words = words_of(script)
    for kind, lines in (("words", words), ("line", [" ".join(words)]), ("face", words[:1])):
        file = FETCHED / f"{script}-{kind}.txt"
        file.write_text("".join(line + "\n" for line in lines))
        yield Text(kind, file)


def measured(program, font, text, rounds=3):
    """What a program takes in one of a few rounds."""
    done = subprocess.run([program, font.path, text.file, str(rounds), *text.words[1:]], check=True, capture_output=True, text=True)
    time, *answer = done.stdout.split()
    return Cost(int(time), tuple(answer))


def instructions(program, font, text):
    """The instructions of a round after the first, by callgrind: what one more round takes."""
    counts = []
    for rounds in (2, 3):
        words = ["valgrind", "--tool=callgrind", "--callgrind-out-file=/dev/null", program, font.path, text.file, str(rounds), *text.words[1:]]
        done = subprocess.run(words, check=True, capture_output=True, text=True)
        counts.append(int(re.search(r"Collected : (\d+)", done.stderr)[1]))
    return counts[1] - counts[0]


def best(runs):
    """The run that took the least time."""
    return min(runs, key=lambda run: run.time)


def harfbuzz(folder, name):
    """The program that shapes by a HarfBuzz whose sources are in a folder."""
    return built(name, [f"-I{folder}", HERE / "shaping.cc", "-lpthread"], [HERE / "shaping.cc"])


def compare(example, rounds, scripts=(), counts=False, newest=False):
    """Prints the time of each, of which the least counts, and with `counts` the share of HarfBuzz's instructions. It fails where they shape
    otherwise than HarfBuzz 10.2, or where a font takes more of its instructions than it may."""
    programs = {"ours": example, "10.2": harfbuzz(fetched_sources(), "shaping")}
    if newest:
        folder = newest_sources()
        programs[folder.parent.name.removeprefix("harfbuzz-")] = harfbuzz(folder, f"shaping-{folder.parent.name}")
    others = list(programs)[1:]
    print(f"{'font':24} {'text':6}{'glyphs':>7}  microseconds: {'ours':>8}" + "".join(f"{name:>9} ratio" for name in others) + "  instructions" * counts)
    failed = []
    for script, font in rows(scripts):
        for text in texts(script):
            runs = [{name: measured(program, font, text) for name, program in programs.items()} for _ in range(rounds)]
            least = {name: best([run[name] for run in runs]) for name in programs}
            if least["ours"].answer != least["10.2"].answer:
                failed.append(f"{font.name}, {text.kind}: shaped otherwise")
            line = f"{font.name:24} {text.kind:6}{least['ours'].answer[0]:>7}  {least['ours'].time:>22}"
            line += "".join(f"{least[name].time:>9} {least['ours'].time / max(least[name].time, 1):5.2f}" for name in others)
            if counts:
                share = instructions(example, font, text) / instructions(programs["10.2"], font, text)
                line += f"{share:>14.2f}"
                if share > MOST and text.kind != "face":
                    failed.append(f"{font.name}, {text.kind}: {share:.2f} of HarfBuzz's instructions")
            print(line, flush=True)
    print("".join(it + "\n" for it in failed), end="")
    return bool(failed)
