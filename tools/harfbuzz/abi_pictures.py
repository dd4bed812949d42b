"""Texts that unchanged programs of Debian draw, with one library of HarfBuzz and with another.

Each program has a function that says what to run for each of its pictures: words, an environment beside the common one, and the file
that the picture is in. Packages are unpacked beside HarfBuzz's source, and nothing is installed.
"""

import atexit
import contextlib
import functools
import os
import subprocess
import tarfile
from collections.abc import Callable
from dataclasses import dataclass, field
from pathlib import Path

from abi_office import converted, installed, office_page, without_order
from abi_texts import ASS_LINES, GTK_TEXTS, HB_VIEW_TEXTS, PANGO_TEXTS, PIL_TEXTS, QT_TEXTS
from sources import FETCHED, SOURCES, apt, unpacked, with_lists

KEPT = FETCHED / "abi"
PACKAGES = FETCHED / "packages"
PARTS = Path(__file__).resolve().parent / "abi_programs"
LIBRARIES = "usr/lib/x86_64-linux-gnu"
MODULES = "usr/lib/python3/dist-packages"
PYTHON = "/usr/bin/python3"
FONTS = ["fonts-hosny-amiri", "fonts-noto-core"]

FONTCONFIG = """<?xml version="1.0"?><!DOCTYPE fontconfig SYSTEM "fonts.dtd">
<fontconfig><dir>/usr/share/fonts</dir>{}<cachedir>{}</cachedir></fontconfig>
"""


@dataclass
class Picture:
    """What is run for a picture, what it is called, and which of its bytes count."""

    name: str
    words: list
    environment: dict = field(default_factory=dict)
    counting: Callable = bytes


@functools.cache
def needed(package):
    """The folders of a package and of all that it needs and this machine has not."""
    # Beside the machine's own archives, since those that are there are not named.
    none = PACKAGES / "none"
    (none / "partial").mkdir(parents=True, exist_ok=True)
    apt_get = [*with_lists(PACKAGES / "lists"), "-o", f"Dir::Cache::Archives={none}"]
    words = [*apt_get, "--no-install-recommends", "--print-uris", "install", package]
    said = subprocess.run(words, check=True, capture_output=True, text=True).stdout
    names = [line.split()[1].split("_")[0] for line in said.splitlines() if line.startswith("'")]
    return unpacked(names, PACKAGES)


def folders(packages, place):
    """The folders of packages at a place, as a variable of the environment lists them."""
    return ":".join(str(package / place) for package in packages if (package / place).is_dir())


def libraries(packages):
    return ":".join(found for found in (folders(packages, LIBRARIES), folders(packages, LIBRARIES.removeprefix("usr/"))) if found)


def font_path(name):
    places = [Path("/usr/share/fonts"), *unpacked(FONTS, PACKAGES)]
    return next(path for place in places for path in place.rglob(Path(name).name))


def pango_view(out):
    program, *_ = packages = unpacked(["pango1.0-tools", "libharfbuzz-gobject0", "libpangoxft-1.0-0"], PACKAGES)
    for line in PANGO_TEXTS:
        font, options, text = line.split("|")[:3]
        words = [program / "usr/bin/pango-view", "-q", f"--font={font}", *options.split(), "-t", text, "-o", out]
        yield Picture(line, words, {"LD_LIBRARY_PATH": libraries(packages)})


def pil(out):
    packages = unpacked(["python3-pil", "libraqm0", "libopenjp2-7", "libimagequant0"], PACKAGES)
    environment = {"LD_LIBRARY_PATH": libraries(packages), "PYTHONPATH": folders(packages, MODULES)}
    for line in PIL_TEXTS:
        font, language, feature, text = line.split("|")
        yield Picture(line, [PYTHON, PARTS / "with_pil.py", font_path(font), text, language, feature, out], environment)


@functools.cache
def resvg_tests():
    """The folder of resvg's tests, of Debian's source."""
    room = KEPT / "resvg"
    if not room.exists():
        sources, lists = KEPT / "resvg.sources", KEPT / "resvg-lists"
        lists.mkdir(parents=True, exist_ok=True)
        sources.write_text(SOURCES)
        words = apt(lists, ("Dir::Etc::sourcelist", sources), ("Dir::Etc::sourceparts", "-"))
        subprocess.run([*words, "update"], check=True)
        subprocess.run([*words, "source", "--download-only", "--tar-only", "resvg"], cwd=lists, check=True)
        with tarfile.open(next(lists.glob("resvg_*.orig.tar.*"))) as archive:
            archive.extractall(room.with_suffix(".new"), filter="data")
        os.replace(room.with_suffix(".new"), room)
    return next(room.glob("*/crates/resvg/tests"))


def rsvg_convert(out):
    packages = needed("librsvg2-bin")
    tests = resvg_tests()
    program = PACKAGES / "librsvg2-bin/usr/bin/rsvg-convert"
    for path in sorted((tests / "tests/text").rglob("*.svg")):
        yield Picture(str(path.relative_to(tests)), [program, path, "-o", out], {"LD_LIBRARY_PATH": libraries(packages)})


def libass(out):
    packages = needed("libass9")
    for line in ASS_LINES:
        yield Picture(line, [PYTHON, PARTS / "with_libass.py", line, out], {"LD_LIBRARY_PATH": libraries(packages)})


def hb_view(out):
    packages = needed("libharfbuzz-bin")
    program = PACKAGES / "libharfbuzz-bin/usr/bin/hb-view"
    for line in HB_VIEW_TEXTS:
        font, options, text = line.split("|")
        words = [program, f"--font-file={font_path(font)}", "--output-format=png", f"--output-file={out}", *options.split(), text]
        yield Picture(line, words, {"LD_LIBRARY_PATH": libraries(packages)})


def qt(out):
    packages = needed("python3-pyqt6")
    environment = {
        "LD_LIBRARY_PATH": libraries(packages), "PYTHONPATH": folders(packages, MODULES), "QT_QPA_PLATFORM": "offscreen",
        "QT_PLUGIN_PATH": folders(packages, f"{LIBRARIES}/qt6/plugins"),
    }
    for line in QT_TEXTS:
        yield Picture(line, [PYTHON, PARTS / "with_qt.py", *line.split("|"), out], environment)


@functools.cache
def display():
    """The name of a screen of Xvfb's, which ends with this program. It looks for `xkbcomp` in `/usr/bin` alone: so it sees a folder of its
    own there, which only root may do."""
    packages = needed("xvfb")
    program, compiler = (next(package for package in packages if package.name == name) for name in ("xvfb", "x11-xkb-utils"))
    mount = f"mount -t overlay overlay -o lowerdir={compiler}/usr/bin:/usr/bin /usr/bin"
    words = ["unshare", "-m", "sh", "-c", f"{mount} && exec {program}/usr/bin/Xvfb -displayfd 1 -nolisten tcp -screen 0 1000x800x24"]
    environment = {**os.environ, "LD_LIBRARY_PATH": libraries(packages)}
    screen = subprocess.Popen(words, env=environment, stdout=subprocess.PIPE, stderr=subprocess.DEVNULL, text=True)
    atexit.register(screen.terminate)
    return f":{screen.stdout.readline().strip()}"


def windowed(packages):
    """The environment of a program of GTK's, with a screen."""
    data = f"{folders(packages, 'usr/share')}:/usr/share"
    return {"LD_LIBRARY_PATH": libraries(packages), "DISPLAY": display(), "GDK_BACKEND": "x11", "XDG_DATA_DIRS": data}


def gtk(out):
    packages = [*needed("gir1.2-gtk-3.0"), *needed("python3-gi")]
    modules = {"PYTHONPATH": folders(packages, MODULES), "GI_TYPELIB_PATH": folders(packages, f"{LIBRARIES}/girepository-1.0")}
    for line in GTK_TEXTS:
        yield Picture(line, [PYTHON, PARTS / "with_gtk.py", *line.split("|"), out], windowed(packages) | modules)


def gtk4(out):
    packages = needed("libgtk-4-1")
    for line in GTK_TEXTS:
        yield Picture(line, [PYTHON, PARTS / "with_gtk4.py", *line.split("|"), out], windowed(packages) | {"GSK_RENDERER": "cairo"})


def libreoffice(out):
    tree, room = installed(needed("libreoffice-writer"), KEPT / "office"), KEPT / "office-room"
    room.mkdir(exist_ok=True)
    (room / "page.fodt").write_text(office_page(QT_TEXTS))
    yield Picture("a page", converted(tree, room, out), {"HOME": str(room)}, without_order)


PROGRAMS = {
    "pango-view": pango_view, "PIL": pil, "rsvg-convert": rsvg_convert, "libass": libass, "hb-view": hb_view, "Qt": qt,
    "GTK": gtk, "GTK-4": gtk4, "LibreOffice": libreoffice,
}


def drawn(picture, library, common, out):
    """The bytes of a picture as it is drawn with a library."""
    with contextlib.suppress(FileNotFoundError):
        out.unlink()
    environment = {**os.environ, **common, **picture.environment}
    environment["LD_LIBRARY_PATH"] = f"{library}:{picture.environment.get('LD_LIBRARY_PATH', '')}"
    ran = subprocess.run(picture.words, env=environment, capture_output=True, text=True, errors="replace", timeout=600)
    if not out.exists():
        return None, ran.stderr.strip()
    return picture.counting(out.read_bytes()), ran.stderr.strip()


def compared(sides, wanted):
    """How many pictures are the same with both libraries, and how many are not."""
    KEPT.mkdir(parents=True, exist_ok=True)
    places = "".join(f"<dir>{folder}</dir>" for folder in unpacked(FONTS, PACKAGES))
    (KEPT / "fonts.conf").write_text(FONTCONFIG.format(places, KEPT / "fonts"))
    common = {"FONTCONFIG_FILE": str(KEPT / "fonts.conf"), "LC_ALL": "C.UTF-8", "SOURCE_DATE_EPOCH": "0"}
    out = KEPT / "picture.png"
    passed = failed = 0
    for name in wanted or PROGRAMS:
        same = count = 0
        for picture in PROGRAMS[name](out):
            (found, fault), (expected, _) = (drawn(picture, folder, common, out) for folder in (sides["ours"], sides["theirs"]))
            is_same = found is not None and found == expected
            same, count = same + is_same, count + 1
            if not is_same:
                print(f"{name} differs: {picture.name}{'' if found else f': {fault}'}", flush=True)
        print(f"{name}: {same} of {count}", flush=True)
        passed, failed = passed + same, failed + count - same
    return passed, failed
