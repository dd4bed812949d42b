"""What the tools of this folder share: HarfBuzz 10's source and what is built of it, and packages of Debian.

All is kept in the folder `vukhaso-harfbuzz` for temporary files, and fetched where it is missing. Packages are fetched with
package lists of their own and unpacked there: the machine's lists stay as they are, and nothing is installed.
"""

import contextlib
import fcntl
import functools
import os
import subprocess
import sys
import tempfile
from pathlib import Path

HERE = Path(__file__).resolve().parent
CRATES = HERE.parent.parent / "crates"
FETCHED = Path(tempfile.gettempdir()) / "vukhaso-harfbuzz"

SOURCES = """Types: deb-src
URIs: http://deb.debian.org/debian
Suites: trixie
Components: main
Signed-By: /usr/share/keyrings/debian-archive-keyring.gpg
"""

# The glib of this machine's Debian, as a static library: so what is built needs no package at all.
GLIB = ["libglib2.0-dev", "libpcre2-dev"]

CONFIG = """#define HAVE_GLIB 1
#define PACKAGE_NAME "HarfBuzz"
#define PACKAGE_VERSION HB_VERSION_STRING
"""

FEATURES = """#ifndef HB_FEATURES_H
#define HB_FEATURES_H
#define HB_HAS_GLIB 1
#endif
"""


def apt(lists, *more):
    """The words of `apt-get` with lists of its own in a folder."""
    (lists / "partial").mkdir(parents=True, exist_ok=True)
    options = {"Dir::State::Lists": lists, "APT::Sandbox::User": "root", **dict(more)}
    return ["apt-get", "-qq", *(word for name, value in options.items() for word in ("-o", f"{name}={value}"))]


@functools.cache
def with_lists(lists, *more):
    """The same, once the lists are fetched."""
    words = apt(lists, *more)
    subprocess.run([*words, "update"], check=True)
    return words


@contextlib.contextmanager
def alone():
    """Held by the run that fetches or builds: one beside it waits, and then finds what was made."""
    FETCHED.mkdir(parents=True, exist_ok=True)
    with (FETCHED / "lock").open("w") as held:
        fcntl.flock(held, fcntl.LOCK_EX)
        yield


def source_of(suite, folder, pattern):
    """The folder of HarfBuzz's sources of a suite of Debian, which are fetched where they are missing."""
    found = sorted(folder.glob(f"harfbuzz-{pattern}/src"))
    if not found:
        folder.mkdir(parents=True, exist_ok=True)
        (folder / "harfbuzz.sources").write_text(SOURCES.replace("trixie", suite))
        sources = {"Dir::Etc::sourcelist": folder / "harfbuzz.sources", "Dir::Etc::sourceparts": "-"}
        words = apt(folder / "lists", *sources.items())
        subprocess.run([*words, "update"], check=True)
        subprocess.run([*words, "source", "--download-only", "harfbuzz"], cwd=folder, check=True)
        subprocess.run(["tar", "xf", *folder.glob(f"harfbuzz_{pattern}.orig.tar.xz")], cwd=folder, check=True)
        found = sorted(folder.glob(f"harfbuzz-{pattern}/src"))
    return found[-1]


def fetched_sources():
    """The folder of HarfBuzz 10's sources."""
    with alone():
        return source_of("trixie", FETCHED, "10*")


def newest_sources():
    """The folder of the sources of the newest HarfBuzz in Debian."""
    return source_of("sid", FETCHED / "newest", "*")


def unpacked(packages, folder, suites=None, versions=None):
    """Fetches those packages that a folder lacks, of this machine's Debian or of some of its suites, and unpacks them there, each below
    its name. `versions` is a pattern."""
    missing = [package for package in packages if not (folder / package).exists()]
    if missing:
        folder.mkdir(parents=True, exist_ok=True)
        words = with_lists(folder / "lists", *(of_suites(suites, folder).items() if suites else []))
        wanted = [f"{package}={versions}" if versions else package for package in missing]
        subprocess.run([*words, "download", *wanted], cwd=folder, check=True)
    for package in missing:
        file = next(folder.glob(f"{package}_*.deb"))
        subprocess.run(["dpkg", "-x", file, folder / f"{package}.new"], check=True)
        os.replace(folder / f"{package}.new", folder / package)
        file.unlink()
    return [folder / package for package in packages]


def of_suites(suites, folder):
    """What `apt-get` is told for packages of these suites alone."""
    listed = folder / "suites.sources"
    listed.write_text(SOURCES.replace("deb-src", "deb").replace("trixie", suites))
    caches = {f"Dir::Cache::{name}": folder / f"{name}.bin" for name in ("pkgcache", "srcpkgcache")}
    return {"Dir::Etc::sourcelist": listed, "Dir::Etc::sourceparts": "-", **caches}


def built(name, words, sources=()):
    """A program that g++ makes of some words, where it is missing or one of its own sources is newer."""
    program = FETCHED / name
    if not program.exists() or any(file.stat().st_mtime > program.stat().st_mtime for file in sources):
        print(f"building {name} ..", file=sys.stderr)
        made = FETCHED / f"{name}.new"
        subprocess.run(["g++", "-O2", "-std=c++17", "-DNDEBUG", "-o", made, *words], check=True)
        os.replace(made, program)
    return program


def configured():
    """The folder of the two headers that HarfBuzz's own build would write."""
    folder = FETCHED / "configured"
    folder.mkdir(exist_ok=True)
    (folder / "config.h").write_text(CONFIG)
    (folder / "hb-features.h").write_text(FEATURES)
    return folder


def reference():
    """HarfBuzz's own `hb-shape`."""
    program = FETCHED / "hb-shape"
    if not program.exists():
        words = reference_words()
        with alone():
            built("hb-shape", words)
    return program


def reference_words():
    source = fetched_sources()
    with alone():
        glib, regular = (folder / "usr" for folder in unpacked(GLIB, FETCHED / "packages"))
    includes = [configured(), source, source.parent / "util", glib / "include/glib-2.0",
                *glib.glob("lib/*/glib-2.0/include")]
    libraries = [*glib.glob("lib/*/libglib-2.0.a"), *regular.glob("lib/*/libpcre2-8.a")]
    return ["-DHAVE_CONFIG_H", *(f"-I{folder}" for folder in includes), source.parent / "util/hb-shape.cc",
            source / "harfbuzz.cc", *libraries, "-lpthread"]
