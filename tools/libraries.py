"""Checks of functions of a crate over the libraries that an earlier command left in out/rlib, so that nothing below is proved again.

`rt ci` leaves the libraries that it proved, and `rt check` those that it built. Where one is lacking, or some are of the one and some of
the other, `rt check` builds them.
"""

import re
import shutil
import tempfile
from functools import cached_property
from pathlib import Path

from scratch import LEAST_NEED, PARTS, ROOT, copy_if_there, likely_need, libraries, run, with_below

# How many crates one check reads as sources at most.
CRATES = 4


class Libraries:
    """The libraries below some crates."""

    def __init__(self, names):
        self.crates = libraries()
        self.names = sorted(set(names) & self.crates.keys())
        self.below = {name: sorted(with_below([name], self.crates) - {name}) for name in self.names}
        # What goes before a check's own words.
        self.before = []

    def __enter__(self):
        self.room = Path(tempfile.mkdtemp(prefix="vukhaso-bodies-"))
        return self

    def __exit__(self, *_):
        shutil.rmtree(self.room, ignore_errors=True)

    @cached_property
    def kit(self):
        return Path(run(["rt", "doc"], ROOT).stdout.strip()).parent

    def is_of_the_kit(self, name):
        return (self.kit / f"rlibs/{name}.rlib").is_dir()

    def is_ready(self, name):
        """Whether the libraries below a crate are there, and of one command: `rt check` stamps those that it builds."""
        folders = [ROOT / "crates" / it / "out/rlib" for it in self.below[name]]
        is_there = all((it / f"{it.parent.parent.name}.rlib").is_dir() for it in folders)
        return is_there and len({(it / "stamp").exists() for it in folders}) < 2

    def prove(self, names=None):
        """Has the libraries built that lack, of some crates or of all. Returns the crates for which that fails, and what was said."""
        open_crates, said = [], ""
        for name in self.names if names is None else names:
            if not self.is_ready(name):
                print(f"the libraries below {name}, by rt check", flush=True)
                said += run(["rt", "check", "--only", ""], ROOT / "crates" / name).stdout
                open_crates += [] if self.is_ready(name) else [name]
        return open_crates, said

    def needs(self, names):
        """The memory that a check of these crates takes: of the libraries below it loads only what they state."""
        own = [likely_need(ROOT / "crates" / name, []) for name in names]
        return sum(own) - (len(own) - 1) * LEAST_NEED

    def groups(self, names):
        """These crates in lists which one check may read: what stands between two of a list stands in it too."""
        found = []
        for name in (it for it in self.crates if it in names):
            last = {*found[-1]} if found else set()
            between = with_below([name], self.crates) - {name} - last
            if last and len(last) < CRATES and not any(with_below([it], self.crates) & last for it in between):
                found[-1].append(name)
            else:
                found.append([name])
        return found

    def words(self, names):
        """What a check of these crates is called with: their libraries, and the logic."""
        own = lambda it: ROOT / "crates" / it / f"out/rlib/{it}.rlib"
        named = sorted({"std", *(it for name in names for it in self.crates[name][1])} - {*names})
        below = sorted({it for name in names for it in self.below[name]} - {*names})
        words = [word for it in named for word in ("--extern", f"{it}={own(it) if it in self.crates else f'{self.kit}/rlibs/{it}.rlib'}")]
        words += ["-L", f"dependency={self.kit}/rlibs"]
        words += [word for it in below for word in ("-L", f"dependency={own(it).parent}")]
        return [*words, "--antt-project", f"{self.kit}/rattle/logic/antt-project.json", "--logic-built", f"{self.kit}/logic_built"]

    def tried(self, texts, words):
        """Whether these functions of some crates, or all of one, are proved with these texts in them, and what is printed: a place in a
        file begins with the name of its crate. The texts stand by crates, and then by their paths in the crate; None stands for a file that is to
        go. The uppermost crate is checked, and the others are sources of it."""
        top = Path(tempfile.mkdtemp(dir=self.room))
        *others, name = [it for it in self.crates if it in texts]
        try:
            for it in (*others, name):
                lay_out(ROOT / "crates" / it, top / it, texts[it])
            root = "src/main.rt" if (top / name / "src/main.rt").exists() else "src/lib.rt"
            sources = [word for it in others for word in ("--lib", f"{it}:{','.join(('std', *self.crates[it][1]))}={top / it}/src/lib.rt")]
            words = [*self.words([*others, name]), *sources, *words]
            ran = run([*self.before, f"{self.kit}/bin/rattle", "check", "--crate-name", name, root, *words], top / name)
            of_sources = ran.stdout.replace(f"{top}/", "").splitlines()
            return ran.returncode == 0, [re.sub(r"^(note: )?(?:\./)?(src|proofs)/", rf"\g<1>{name}/\2/", line) for line in of_sources]
        finally:
            shutil.rmtree(top, ignore_errors=True)


def lay_out(crate, folder, texts):
    """Copies a crate into a folder, with these texts in it."""
    for part in PARTS:
        copy_if_there(crate / part, folder / part, shutil.copyfile)
    for path, text in texts.items():
        if text is None:
            (folder / path).unlink()
            continue
        (folder / path).parent.mkdir(parents=True, exist_ok=True)
        (folder / path).write_text(text)
