"""Copies of crates in which other texts are tried, so that the files of the checkout stay as they are.

`Scratch` is a copy of some crates and of those that they stand on, with what `rt check` kept of them. `rt all check` proves
it as it stands, in seconds where all is kept. Each text is then tried in a copy of that copy, so tries may run side by side.
"""

import fcntl
import hashlib
import itertools
import os
import re
import shutil
import signal
import subprocess
import tempfile
import time
from concurrent.futures import FIRST_COMPLETED, ThreadPoolExecutor, wait
from pathlib import Path

ROOT = Path(__file__).resolve().parent.parent
PARTS = ("src", "specs", "proofs", "c")

# The share of the free memory that tries may take.
MEMORY = 0.85

# The bytes that a try takes at least.
LEAST_NEED = 7e8


def libraries():
    """The crates of crates.txt, each with its line and those that it names."""
    found = {}
    for line in (ROOT / "crates.txt").read_text().splitlines():
        name, colon, named = line.partition("#")[0].partition(":")
        if colon:
            found[name.split()[0]] = line, named.split()
    return found


def with_below(names, found):
    """These crates and all that they stand on."""
    todo, seen = [*names], set()
    while todo:
        name = todo.pop()
        if name in found and name not in seen:
            seen.add(name)
            todo += found[name][1]
    return seen


def link(one, other):
    try:
        os.link(one, other)
    except OSError:
        shutil.copy2(one, other)


def link_if_replaced(one, other):
    """A check replaces what it proved, and writes into other files of its kept work."""
    (link if one.endswith(".oantt") else shutil.copy2)(one, other)


def copy_if_there(folder, to, copy):
    if folder.is_dir():
        shutil.copytree(folder, to, symlinks=True, copy_function=copy)


def copy_kept(folder, to, copy):
    """Copies what a check kept, which another one may be writing: then it is done without."""
    try:
        copy_if_there(folder, to, copy)
    except (OSError, shutil.Error):
        shutil.rmtree(to, ignore_errors=True)


def count_of_lines(crate, ending):
    return sum(path.read_bytes().count(b"\n") for part in PARTS[:3] for path in (crate / part).rglob(f"*{ending}"))


def likely_need(crate, below):
    """The memory in bytes that a try in this crate is likely to take: what `rt ci` reckons with, over kept work."""
    of_libraries = sum(count_of_lines(it, ".rt") for it in below)
    return LEAST_NEED + 0.7 * (1e6 * count_of_lines(crate, ".rt") + 2e5 * count_of_lines(crate, ".antt") + 8e4 * of_libraries)


def free_memory():
    found = re.search(r"MemAvailable:\s+(\d+)", Path("/proc/meminfo").read_text())
    return 1024 * int(found[1])


class Scratch:
    """A copy of crates, made anew below one place of this checkout, which one run at a time has to itself."""

    def __init__(self, names):
        place = hashlib.sha256(str(ROOT).encode()).hexdigest()[:12]
        self.room = Path(tempfile.gettempdir(), f"vukhaso-tries-{place}")
        self.crates = libraries()
        self.names = sorted(with_below(names, self.crates))
        self.numbers = {name: itertools.count(1) for name in self.names}

    def __enter__(self):
        self.held = open(f"{self.room}.lock", "w")
        try:
            fcntl.flock(self.held, fcntl.LOCK_EX | fcntl.LOCK_NB)
        except BlockingIOError:
            print("waiting for another run of tools/edits in this checkout to end", flush=True)
            fcntl.flock(self.held, fcntl.LOCK_EX)
        shutil.rmtree(self.room, ignore_errors=True)
        self.base = self.begin("base", self.names)
        for name in self.names:
            own, to = ROOT / "crates" / name, self.base / "crates" / name
            for part in PARTS:
                copy_if_there(own / part, to / part, shutil.copyfile)
            copy_kept(own / "out/rlib", to / "out/rlib", link)
            copy_kept(own / "out/incremental", to / "out/incremental", link_if_replaced)
        return self

    def __exit__(self, *_):
        shutil.rmtree(self.room, ignore_errors=True)
        self.held.close()

    def begin(self, label, names):
        """A folder that is the top of a repository of these crates."""
        top = self.room / label
        (top / "crates").mkdir(parents=True)
        (top / ".git").mkdir()
        (top / "crates.txt").write_text("".join(f"{self.crates[name][0]}\n" for name in sorted(names)))
        shutil.copyfile(ROOT / "HANDLES", top / "HANDLES")
        return top

    def prove(self):
        """Proves the copy as it stands. Returns the crates that are not proved, and what was said."""
        ran = run(["rt", "all", "check", "--jobs", str(processors())], self.base, tells=True)
        return re.findall(r"^(\w+): (?:failed|not run)", ran.stdout, re.M) or ["?"] * (ran.returncode != 0), ran.stdout

    def needs(self, name):
        below = with_below([name], self.crates) - {name}
        return likely_need(self.base / "crates" / name, [self.base / "crates" / it for it in below])

    def tried(self, name, texts, words):
        """Whether `rt check` proves this crate with these texts in it, by their paths in the crate, and the lines that it prints."""
        names = with_below([name], self.crates)
        top = self.begin(f"{name}-{next(self.numbers[name])}", names)
        try:
            for it in names:
                own, to = self.base / "crates" / it, top / "crates" / it
                for part in PARTS:
                    copy_if_there(own / part, to / part, link)
                copy_if_there(own / "out/rlib", to / "out/rlib", link)
            crate = top / "crates" / name
            copy_if_there(self.base / "crates" / name / "out/incremental", crate / "out/incremental", link_if_replaced)
            for path, text in texts.items():
                (crate / path).unlink()
                (crate / path).write_text(text)
            ran = run(["rt", "check", *words], crate)
            if ran.returncode == -signal.SIGKILL:
                # (most likely for memory)
                ran = run(["rt", "check", *words, *([] if "--jobs" in words else ["--jobs", "1"])], crate)
            return ran.returncode == 0, ran.stdout.splitlines()
        finally:
            shutil.rmtree(top, ignore_errors=True)


# What runs, so that it can be ended where this process is.
STARTED = set()


def run(words, folder, tells=False):
    """Runs a command, and tells as it goes of which crate something is said, where that is asked for."""
    how = {"stdin": subprocess.DEVNULL, "stdout": subprocess.PIPE, "stderr": subprocess.STDOUT, "text": True, "errors": "replace"}
    said, begun = [], time.monotonic()
    with subprocess.Popen(words, cwd=folder, **how) as started:
        STARTED.add(started)
        try:
            for line in started.stdout:
                said.append(f"{line[:-1]}, at {time.monotonic() - begun:.1f} s\n" if line.startswith("checked ") else line)
                if tells and line.startswith("== ") and line != "== summary\n":
                    print(f"[{time.monotonic() - begun:.0f} s] {line[3:-1]}", flush=True)
        finally:
            STARTED.discard(started)
    return subprocess.CompletedProcess(words, started.returncode, "".join(said))


def processors():
    """How many checks may run side by side: as `rt ci` asks it, by RT_JOBS or by the machine."""
    asked = os.environ.get("RT_JOBS", "")
    return int(asked) if asked.isdigit() and int(asked) else len(os.sched_getaffinity(0))


class Waiting:
    """Tasks that wait for what another command does. While it runs, few of them run beside it."""

    # How many run at once.
    FEW = 3

    is_open = False

    def taken(self):
        """The tasks that need wait no longer."""
        return []


def side_by_side(tasks, waiting=Waiting()):
    """Runs calls, each beside as many others as there are processors and memory for, and gives what each returned as it ends.
    A task is the memory in bytes that it takes, and a call. The largest ones begin first, also among those that had to wait."""
    left, running, memory = [*tasks], {}, MEMORY * free_memory()
    with ThreadPoolExecutor(processors()) as pool:
        try:
            while True:
                # (asked before what waits is taken, so nothing that still comes is lost)
                is_beside = waiting.is_open
                left = sorted([*left, *waiting.taken()], key=lambda task: -task[0])
                if not (left or running or is_beside):
                    return
                lanes = min(Waiting.FEW, processors()) if is_beside else processors()
                for task in [*left]:
                    taken = sum(running.values())
                    if not running or len(running) < lanes and taken + task[0] <= memory:
                        left.remove(task)
                        running[pool.submit(task[1])] = task[0]
                if not running:
                    time.sleep(1)
                    continue
                for done in wait(running, timeout=1 if is_beside else None, return_when=FIRST_COMPLETED).done:
                    del running[done]
                    yield done.result()
        finally:
            # (none runs any more but where this is stopped)
            for it in [*STARTED]:
                it.terminate()
