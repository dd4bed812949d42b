"""Fonts, word lists, translations and Unicode's files of Debian's packages, which are fetched where they are missing and installed nowhere."""

import functools
import gettext
import re
import tempfile
import unicodedata
from dataclasses import dataclass
from pathlib import Path

from sources import unpacked

# The version of Unicode that the kit's tables have, and with them all tables, and the suites of Debian that may have its files.
UNICODE_VERSION = "18.0.0"
SUITES = "experimental sid"

PACKAGES = Path(tempfile.gettempdir()) / "vukhaso-fonts"

# Name, package, file, index of the face.
FONTS = [
    ("DejaVuSans", "fonts-dejavu-core", "DejaVuSans.ttf", 0),
    ("DejaVuSerif", "fonts-dejavu-core", "DejaVuSerif.ttf", 0),
    ("LiberationSans", "fonts-liberation", "LiberationSans-Regular.ttf", 0),
    ("NotoSans", "fonts-noto-core", "NotoSans-Regular.ttf", 0),
    ("NotoSerif", "fonts-noto-core", "NotoSerif-Regular.ttf", 0),
    ("Roboto", "fonts-roboto-unhinted", "Roboto-Regular.ttf", 0),
    ("Amiri", "fonts-hosny-amiri", "Amiri-Regular.ttf", 0),
    ("LinLibertine", "fonts-linuxlibertine", "LinLibertine_R.otf", 0),
    ("MicroHei", "fonts-wqy-microhei", "wqy-microhei.ttc", 0),
    ("MicroHeiMono", "fonts-wqy-microhei", "wqy-microhei.ttc", 1),
]

# Fonts of scripts that have no font called `NotoSansSCRIPT-Regular`, or more than that.
SCRIPT_FONTS = {
    "Arabic": [FONTS[6], FONTS[0], ("NotoNaskhArabic", "fonts-noto-core", "NotoNaskhArabic-Regular.ttf", 0)],
    "Hangul": [("NanumGothic", "fonts-nanum", "NanumGothic.ttf", 0), FONTS[8]],
    "Hebrew": [("NotoSansHebrew", "fonts-noto-core", "NotoSansHebrew-Regular.ttf", 0), FONTS[0], FONTS[7]],
    **dict.fromkeys(["Latin", "Greek", "Cyrillic"], FONTS),
}

DICTIONARIES = {
    "Latin": [("wamerican", "american-english"), ("hunspell-vi", "vi_VN.dic")],
    "Greek": [("hunspell-el", "el_GR.dic")],
    "Cyrillic": [("hunspell-ru", "ru_RU.dic")],
    "Arabic": [("hunspell-ar", "ar.dic")],
    "Hebrew": [("hunspell-he", "he_IL.dic")],
    "Hangul": [("hunspell-ko", "ko.dic")],
    "Thai": [("hunspell-th", "th_TH.dic")],
    "Lao": [("hunspell-lo", "lo_LA.dic")],
}

# The languages of a script into which names of countries, languages and scripts are translated, as Debian's `iso-codes` has them.
TRANSLATIONS = {
    "Arabic": ["ar", "fa", "ug"],
    "Hebrew": ["he"],
    "Hangul": ["ko"],
    "Thai": ["th"],
    "Lao": ["lo"],
    "Devanagari": ["hi", "mr", "ne"],
    "Bengali": ["bn", "as"],
    "Gujarati": ["gu"],
    "Gurmukhi": ["pa"],
    "Kannada": ["kn"],
    "Malayalam": ["ml"],
    "Oriya": ["or"],
    "Tamil": ["ta"],
    "Telugu": ["te"],
    "Sinhala": ["si"],
    "Khmer": ["km"],
    "Tibetan": ["dz"],
    "Ethiopic": ["am", "ti"],
    "Georgian": ["ka"],
    "Armenian": ["hy"],
    "Latin": ["vi", "tr", "pl"],
    "Greek": ["el"],
    "Cyrillic": ["ru", "sr", "mn"],
}


@dataclass(frozen=True)
class Font:
    name: str
    path: Path
    index: int = 0

    def words(self):
        """The words that name it to a program."""
        return [str(self.path), *([f"--face-index={self.index}"] if self.index else [])]


def found(package, name):
    [folder] = unpacked([package], PACKAGES)
    files = sorted(file for file in folder.rglob(name) if not file.is_symlink())
    if not files:
        raise FileNotFoundError(f"{package} has no {name}")
    return files[0]


def unicode_file(name):
    """The text of one of Unicode's files, of the version that the kit's tables have."""
    [folder] = unpacked(["unicode-data"], PACKAGES / f"unicode-{UNICODE_VERSION}", SUITES, f"{UNICODE_VERSION}-*")
    return next(file for file in sorted(folder.rglob(name)) if not file.is_symlink()).read_text()


def newer_characters():
    """The code points that were assigned after Unicode 16, which HarfBuzz 10 has."""
    rows = re.findall(r"^(\w+)(?:\.\.(\w+))? *; (\d+)\.\d", unicode_file("DerivedAge.txt"), re.MULTILINE)
    return {code for first, last, age in rows if int(age) > 16 for code in range(int(first, 16), int(last or first, 16) + 1)}


def fonts(rows=FONTS):
    unpacked(list(dict.fromkeys(package for _, package, _, _ in rows)), PACKAGES)
    return [Font(name, found(package, file), index) for name, package, file, index in rows]


def noto_font(script):
    """Noto's font of a script: that without serifs, if there is one."""
    [folder] = unpacked(["fonts-noto-core"], PACKAGES)
    files = {file.name.lower(): file for file in folder.rglob("*-Regular.ttf")}
    for kind in ("Sans", "Serif"):
        file = files.get(f"noto{kind}{script.replace('_', '')}-Regular.ttf".lower())
        if file:
            return Font(file.name.removesuffix("-Regular.ttf"), file)
    raise FileNotFoundError(f"fonts-noto-core has no font of {script}")


def fonts_of(script):
    return fonts(SCRIPT_FONTS[script]) if script in SCRIPT_FONTS else [noto_font(script)]


def named_fonts(names):
    """The fonts of some names, which may be paths too, with the index of a face as in `fonts.ttc:1`; all where there are none."""
    rows = {row[0]: row for row in [*FONTS, *(row for rows in SCRIPT_FONTS.values() for row in rows)]}
    chosen = []
    for name in names:
        path, _, index = name.partition(":")
        chosen += fonts([rows[name]]) if name in rows else [Font(name, Path(path).resolve(strict=True), int(index or 0))]
    return chosen or fonts()


def words_of(script):
    """The words of each of a script's word lists."""
    for package, name in DICTIONARIES[script]:
        file = found(package, name)
        affixes = file.with_suffix(".aff")
        coding = re.search(rb"^SET\s+(\S+)", affixes.read_bytes(), re.MULTILINE)[1].decode() if affixes.exists() else "utf-8"
        lines = file.read_bytes().decode(coding, errors="ignore").splitlines()
        yield [unicodedata.normalize("NFC", re.split(r"[/\t ]", line)[0]) for line in lines if line[:1].isalpha()]


def translations_of(script):
    """Texts of a script: translations of the names of countries, languages and scripts."""
    [folder] = unpacked(["iso-codes"], PACKAGES)
    texts = []
    for language in TRANSLATIONS[script]:
        for file in sorted(folder.rglob(f"locale/{language}/LC_MESSAGES/*.mo")):
            with file.open("rb") as stream:
                catalog = gettext.GNUTranslations(stream)._catalog
            texts += [text for key, text in catalog.items() if key and "\n" not in text]
    return list(dict.fromkeys(texts))


@functools.cache
def scripts():
    """The code points of each script, by Unicode's Scripts.txt."""
    by_script = {}
    text = unicode_file("Scripts.txt")
    for first, last, script in re.findall(r"^(\w+)(?:\.\.(\w+))? *; (\w+)", text, re.MULTILINE):
        by_script.setdefault(script, []).extend(range(int(first, 16), int(last or first, 16) + 1))
    return by_script
