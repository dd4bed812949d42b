"""Every font of some packages of Debian: one package after the other is fetched, unpacked, handed out and removed, and none installed."""

import contextlib
import fnmatch
import functools
import shutil
import struct
import subprocess
import tempfile
from collections import Counter
from dataclasses import dataclass
from pathlib import Path

import debian
from sources import unpacked

FOLDER = Path(tempfile.gettempdir()) / "vukhaso-all-fonts"
KINDS = {".ttf", ".otf", ".ttc", ".otc", ".dfont"}

# Fonts of scripts that shaping has rules for, first those of families that have many.
PATTERNS = ["fonts-noto-core", "fonts-sil-*", "fonts-lohit-*", "fonts-noto-*", "fonts-*", "culmus*"]

# A script counts from so many characters on, and a font has texts of so many scripts at most.
FEWEST_CHARACTERS, MOST_SCRIPTS = 8, 6
NO_SCRIPTS = {"Common", "Inherited"}


@dataclass(frozen=True)
class FoundFont:
    """A font of a package, with the tables that it has and the scripts that it has characters of, most of them first."""

    package: str
    font: debian.Font
    tables: frozenset
    scripts: tuple


def packages(patterns):
    """The names of Debian's packages that fit a pattern, in the order of the patterns."""
    said = subprocess.run(["apt-cache", "search", "--names-only", "^(fonts-|culmus)"], capture_output=True, text=True, check=True).stdout
    names = sorted(line.split()[0] for line in said.splitlines())
    return list(dict.fromkeys(name for pattern in patterns or PATTERNS for name in names if fnmatch.fnmatch(name, pattern)))


@contextlib.contextmanager
def fonts_of_package(package):
    """The fonts of a package, each once, which are removed at the end."""
    try:
        [folder] = unpacked([package], FOLDER)
        files = [file for file in sorted(folder.rglob("*")) if file.suffix.lower() in KINDS and not file.is_symlink()]
        once = {file.read_bytes(): file for file in reversed(files)}
        yield [face for data, file in reversed(once.items()) for face in faces(package, file, data)]
    finally:
        shutil.rmtree(FOLDER / package, ignore_errors=True)


def faces(package, file, data):
    """The faces of a file."""
    offsets = [0]
    if data[:4] == b"ttcf":
        offsets = struct.unpack_from(f">{struct.unpack_from('>I', data, 8)[0]}I", data, 12)
    for index, offset in enumerate(offsets):
        try:
            tables = directory(data, offset)
            codes = characters(data[tables["cmap"]:]) if "cmap" in tables else set()
        except (struct.error, IndexError):
            tables, codes = {}, set()
        name = file.name + (f":{index}" if index else "")
        yield FoundFont(package, debian.Font(name, file, index), frozenset(tables), scripts_of(codes))


def directory(data, offset):
    """Where the tables of a face begin."""
    count = struct.unpack_from(">H", data, offset + 4)[0]
    rows = (struct.unpack_from(">4sIII", data, offset + 12 + 16 * at) for at in range(count))
    return {tag.decode(errors="replace"): start for tag, _, start, _ in rows}


def characters(table):
    """The characters of the segments and groups of a table `cmap`."""
    found = set()
    for at in range(struct.unpack_from(">H", table, 2)[0]):
        subtable = table[struct.unpack_from(">I", table, 8 + 8 * at)[0]:]
        kind = struct.unpack_from(">H", subtable)[0]
        if kind == 4:
            half = struct.unpack_from(">H", subtable, 6)[0] // 2
            ends = struct.unpack_from(f">{half}H", subtable, 14)
            starts = struct.unpack_from(f">{half}H", subtable, 16 + 2 * half)
            rows = zip(starts, ends)
        elif kind == 12:
            count = struct.unpack_from(">I", subtable, 12)[0]
            rows = (struct.unpack_from(">II", subtable, 16 + 12 * row) for row in range(count))
        else:
            continue
        found.update(code for start, end in rows for code in range(start, min(end, 0x10FFFF) + 1))
    return found


@functools.cache
def by_code():
    return {code: script for script, codes in debian.scripts().items() if script not in NO_SCRIPTS for code in codes}


def scripts_of(codes):
    """The scripts that some characters are of."""
    counts = Counter(by_code()[code] for code in codes if code in by_code())
    return tuple(script for script, count in counts.most_common(MOST_SCRIPTS) if count >= FEWEST_CHARACTERS)
