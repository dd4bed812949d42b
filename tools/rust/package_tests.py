"""The tests of the package: its own, and those beside the proved program."""

import os
import re
import shutil
import subprocess
import sys
import tempfile
import threading
from concurrent.futures import ThreadPoolExecutor
from pathlib import Path

ROOT = Path(__file__).resolve().parent.parent.parent
PACKAGE = ROOT / "rust/vukhaso"
PROVED = ROOT / "crates/shaping_cli/out/shaping_cli"
PROGRAMS, SEED = 20_000, 1

# The most KiB of the package as it is published.
LARGEST = 600

sys.path.append(str(ROOT / "tools/harfbuzz"))

import items  # noqa: E402
import jobs_tests  # noqa: E402
import programs  # noqa: E402


def is_here(*words):
    """Whether a command is on this machine."""
    return bool(shutil.which(words[0])) and not subprocess.run(words, capture_output=True).returncode


class Tally:
    """How many checks passed and failed, each with a line; of one that failed also what it printed."""

    def __init__(self):
        self.passed = self.failed = 0
        self.alone = threading.Lock()

    def note(self, what, fault=""):
        with self.alone:
            self.passed += not fault
            self.failed += bool(fault)
            print(f"FAILED  {what}\n{fault}" if fault else f"passed  {what}", flush=True)

    def run(self, what, words, **more):
        environment = {**os.environ, **more.pop("environment", {})}
        done = subprocess.run(
            words, cwd=PACKAGE, stdout=subprocess.PIPE, stderr=subprocess.STDOUT, text=True, errors="replace",
            env=environment, **more)
        self.note(what, f"{done.stdout}status {done.returncode}" if done.returncode else "")
        return done


def proved_answers(room):
    """Random programs, and what the proved program answers to them: the names of both files by their variables."""
    made = programs.programs(SEED, PROGRAMS)
    lines, answers = room / "lines", room / "answers"
    lines.write_text("".join(f"{line}\n" for program in made for line in program))
    with lines.open() as given, answers.open("w") as taken:
        subprocess.run([PROVED], stdin=given, stdout=taken, check=True)
    return {"VUKHASO_LINES": str(lines), "VUKHASO_ANSWERS": str(answers)}


def test_rust(tally, room):
    beside = {}
    if PROVED.is_file():
        beside = proved_answers(room)
        what = f"cargo test, {PROGRAMS} programs beside the proved one among them"
    else:
        what = "cargo test, with no program beside the proved one, which `rt ci` links"
    tally.run(what, ["cargo", "test", "--offline", "--quiet"], environment=beside)


def test_text(tally, room):
    """What cargo's other commands say of the text. They build in a folder of their own, and wait for no test."""
    apart = {"CARGO_TARGET_DIR": str(items.BUILT)}
    tally.note("public-items.txt is what users can name", items.difference())
    tally.run("cargo doc with no warning", ["cargo", "doc", "--offline", "--quiet"], environment={**apart, "RUSTDOCFLAGS": "-D warnings"})
    words = ["cargo", "check", "--offline", "--quiet", "--lib", "--no-default-features", "--features", "alloc"]
    tally.run("cargo check with no std", words, environment=apart)
    if is_here("cargo", "clippy", "--version"):
        words = ["cargo", "clippy", "--offline", "--quiet", "--all-targets", "--", "-D", "warnings"]
        tally.run("cargo clippy with no warning", words, environment=apart)
    if is_here("cargo", "fmt", "--version"):
        tally.run("cargo fmt finds nothing to lay out", ["cargo", "fmt", "--check"])


def test_program(tally, room):
    """The program of the package: it installs with no network, and answers the stored run of the proved program."""
    words = ["cargo", "install", "--offline", "--quiet", "--path", ".", "--root", str(room / "installed"), "--no-track"]
    if tally.run("cargo install makes vukhaso_shape", words).returncode:
        return
    stored, program = ROOT / "crates/vukhaso_shape", room / "installed/bin/vukhaso_shape"
    with (stored / "stdin").open() as lines:
        ran = subprocess.run(
            [program, *(stored / "args").read_text().split()], cwd=stored / "data", stdin=lines, capture_output=True, text=True)
    told, steps, status = (stored / "stdout").read_text(), (stored / "stderr").read_text(), int((stored / "status").read_text())
    fault = "" if (ran.stdout, ran.stderr, ran.returncode) == (told, steps, status) else f"status {ran.returncode}\n{ran.stderr}{ran.stdout}"
    tally.note("its stored run, which is the proved program's", fault)
    tally.note("on several threads it answers as on one", jobs_tests.faults(program, room))


def test_size(tally, room):
    """What `cargo publish` would send."""
    if tally.run("cargo package", ["cargo", "package", "--offline", "--quiet", "--no-verify", "--allow-dirty"]).returncode:
        return
    size = max((PACKAGE.parent / "target/package").glob("*.crate"), key=lambda file: file.stat().st_mtime).stat().st_size
    tally.note(f"it is under {LARGEST} KiB", "" if size < LARGEST << 10 else f"{size} bytes")


def test_front(tally, room):
    """The package with rustybuzz's names, where the crate that it needs can be had."""
    words = [sys.executable, str(ROOT / "tools/clients/rustybuzz")]
    done = tally.run("the tests of rust/rustybuzz", words)
    if "skipped" in done.stdout:
        print(done.stdout, end="")


def test_readme(tally, room):
    """The lines of README in a new package, which print what it says, and again in the package's own README."""
    text = (ROOT / "README.md").read_text()
    found = re.search(r"```rust\n(use vukhaso::.*?)```\n\nIt prints `(.*?)`", text, re.S)
    if not found:
        return tally.note("the lines of README", "they are not there")
    lines, printed = found.groups()
    (room / "fit/src").mkdir(parents=True)
    (room / "fit/src/main.rs").write_text(lines)
    manifest = '[package]\nname = "fit"\nedition = "2024"\n\n[dependencies]\nvukhaso = {{ path = "{}" }}\n\n[workspace]\n'
    (room / "fit/Cargo.toml").write_text(manifest.format(PACKAGE))
    words = ["cargo", "run", "--offline", "--quiet", "--manifest-path", str(room / "fit/Cargo.toml")]
    done = subprocess.run(words, capture_output=True, text=True)
    fault = "" if done.stdout == printed + "\n" and not done.stderr else f"{done.stdout}{done.stderr}, and not {printed}"
    tally.note("the lines of README in a new package", fault)
    own = (PACKAGE / "README.md").read_text()
    bare = [re.sub(r" *//.*", "", line) for line in lines.splitlines()]
    missing = [line for line in bare if line not in own.splitlines()]
    tally.note("the lines of README in the package's own", "\n".join(missing))


def test_all(tally, others):
    """Tests the package, and runs these other calls, all side by side where one does not stand on what another makes."""
    with tempfile.TemporaryDirectory(prefix="plain-rust-") as folder, ThreadPoolExecutor() as pool:
        chains = [others, [test_rust], [test_text], [test_program, test_size, test_readme], [test_front]]
        for done in [pool.submit(lambda chain=chain: [test(tally, Path(folder)) for test in chain]) for chain in chains]:
            done.result()
