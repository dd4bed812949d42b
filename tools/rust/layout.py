"""The layout of Rust source: by `rustfmt` where it is there, and else compared word by word."""

import re
import shutil
import subprocess
from concurrent.futures import ThreadPoolExecutor

from rattle_source import Refused, Source

RUSTFMT = ["rustfmt", "--edition", "2024", "--emit", "stdout", "--quiet"]


def has_rustfmt():
    found = shutil.which("rustfmt")
    return bool(found) and subprocess.run(["rustfmt", "--version"], capture_output=True).returncode == 0


def one(pair):
    place, text = pair
    if place.suffix != ".rs":
        return place, text
    done = subprocess.run(RUSTFMT, input=text, capture_output=True, text=True)
    if done.returncode or not done.stdout:
        raise Refused(f"{place}: rustfmt does not lay this out: {done.stderr.strip()}")
    return place, done.stdout


def laid_out(files):
    with ThreadPoolExecutor(2) as pool:
        return dict(pool.map(one, files.items()))


def words_of(text):
    """The words of a text, without what a layout may change: spaces, commas, braces, the order of imports."""
    texts = [word.text for word in Source("", text).words if word.kind not in ("space", "doc", "inner", "comment")]
    return sorted(re.sub(r"[,{}()]", "", word) for word in texts)


def same_words(place, ours, theirs):
    if place.suffix != ".rs":
        return ours == theirs
    docs = [sorted(" ".join(line.split()) for line in re.findall(r"^ *//.*", text, re.M)) for text in (ours, theirs)]
    kept = [[word for word in words_of(text) if word] for text in (ours, theirs)]
    return docs[0] == docs[1] and kept[0] == kept[1]
