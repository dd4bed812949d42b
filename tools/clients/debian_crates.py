"""Crates of Debian's trixie, and of sid where they are newer there, in a folder that cargo takes for crates.io.

Packages are fetched with package lists of their own and unpacked in the folder `vukhaso-clients` for temporary files: the
machine's lists stay as they are, and nothing is installed.
"""

import subprocess
import sys
import tempfile
from pathlib import Path
from urllib.parse import unquote

ROOT = Path(__file__).resolve().parent.parent.parent
sys.path.append(str(ROOT / "tools/harfbuzz"))

from sources import apt  # noqa: E402

FETCHED = Path(tempfile.gettempdir()) / "vukhaso-clients"

SOURCES = """Types: deb deb-src
URIs: http://deb.debian.org/debian
Suites: {}
Components: main
Signed-By: /usr/share/keyrings/debian-archive-keyring.gpg
"""


def words_of(suite, tool="apt-get"):
    """The words of `apt-get` with the lists of a suite, as a machine on which nothing is installed."""
    lists = FETCHED / suite
    lists.mkdir(parents=True, exist_ok=True)
    (lists / "debian.sources").write_text(SOURCES.format(suite))
    # A package that the machine has fetched before is not named.
    (lists / "archives/partial").mkdir(parents=True, exist_ok=True)
    options = {
        "Dir::Cache::archives": lists / "archives",
        "Dir::Etc::sourcelist": lists / "debian.sources", "Dir::Etc::sourceparts": "-", "Dir::State::status": "/dev/null",
        "Dir::Cache::pkgcache": lists / "packages.bin", "Dir::Cache::srcpkgcache": lists / "sources.bin",
    }
    return [tool, *apt(lists / "lists", *options.items())[1:]]


def updated(suite):
    words = words_of(suite)
    if not any((FETCHED / suite / "lists").glob("*_Packages*")):
        subprocess.run([*words, "update"], check=True)
    return words


def needed(suite, packages, kind="librust-"):
    """The packages with all that they need, as far as these are of a kind: crates."""
    words = [*updated(suite), "--no-install-recommends", "--print-uris", "install", *packages]
    said = subprocess.run(words, check=True, capture_output=True, text=True).stdout
    files = [unquote(line.split("'")[1]).rsplit("/", 1)[1] for line in said.splitlines() if line.startswith("'")]
    return sorted({file.split("_")[0] for file in files if file.startswith(kind)})


def unpacked(suite, packages, room):
    """Fetches packages of a suite and unpacks them in the room."""
    downloads = FETCHED / suite / "packages"
    downloads.mkdir(parents=True, exist_ok=True)
    missing = [package for package in packages if not any(downloads.glob(f"{package}_*.deb"))]
    if missing:
        subprocess.run([*updated(suite), "download", *missing], cwd=downloads, check=True)
    for package in packages:
        subprocess.run(["dpkg", "-x", next(downloads.glob(f"{package}_*.deb")), room], check=True)


def registry(name, packages, of_sid=()):
    """The folder of crates with all that these packages need, those of sid in the place of trixie's."""
    room = FETCHED / name
    if not (room / "whole").exists():
        room.mkdir(parents=True, exist_ok=True)
        unpacked("trixie", needed("trixie", packages), room)
        if of_sid:
            unpacked("sid", of_sid, room)
        (room / "whole").touch()
    return room / "usr/share/cargo/registry"


def offline(folder):
    """The words with which cargo takes a folder for crates.io."""
    return ["--offline", "--config", 'source.crates-io.replace-with="debian"', "--config", f'source.debian.directory="{folder}"']
