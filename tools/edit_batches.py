"""Plants many wrong bodies of a crate at once, so that one check tells of all of them.

Most are planted as copies (`edit_copies`). The others are planted in their place, in batches: a batch has wrong bodies of functions of which none calls
another, by itself or through others, so what is refused of a function is refused for its own body. What they call goes by its contract
(`edit_contracts`). Calls are read from the text: by a name and where it stands, of all functions that it may
be, and an operator or a loop as a call of each that a type of the crate has for one. So some count as calls that are
none, and none is missed.
"""

import hashlib
import json
import queue
import re
import threading
import time
from collections import defaultdict
from dataclasses import dataclass, field
from functools import lru_cache

import edit_contracts
import edit_copies
from libraries import CRATES
from rattle_source import every
from scratch import PARTS, ROOT, Waiting, libraries, run, side_by_side, with_below
from wrong_bodies import changed_functions, functions_of, is_named, is_of_a_goal, left_open, readers_of, speaks_of, texts_with

# What the checks said.
LOG = ROOT / "out/edits.log"

# A name of a function, with what stands before it: a dot, or a path.
CALL = re.compile(r"(?:(?P<dot>\.\s*)|(?:(?P<path>\w+|>)\s*::\s*))?(?P<name>[^\W\d]\w*)(?P<call>\s*(?:\(|::\s*<))?")

# What a text calls without its name.
UNNAMED = set("""next into_iter eq ne cmp partial_cmp lt le gt ge drop deref deref_mut index index_mut from fmt add sub mul div rem neg not
bitand bitor bitxor shl shr add_assign sub_assign mul_assign div_assign rem_assign bitand_assign bitor_assign bitxor_assign""".split())
UNNAMED_TOO = {"parse": "from_str", "unwrap_or_default": "default", "to_string": "fmt", "into": "from", "try_into": "try_from", "collect": "from_iter"}


@lru_cache(maxsize=None)
def traits_of_all():
    texts = (path.read_text() for path in ROOT.glob("crates/*/src/**/*.rt"))
    return {name for text in texts for name in re.findall(r"^pub trait (\w+)", text, re.M)}


class Calls:
    """The functions of a crate, each by its file and its first line, and those that each may reach."""

    def __init__(self, crate):
        self.its, self.by_name, traits = {}, defaultdict(list), set()
        for it in functions_of(crate, with_defaults=True):
            self.its[it.key] = it
            self.by_name[it.name].append(it)
        for reader in readers_of(crate):
            traits |= {item.name for item in every(reader.items) if item.kind == "trait"}
        self.owners = {it.owner for it in self.its.values() if it.owner} - traits
        # What implements a trait of another crate may be called by what that crate has.
        handed = traits_of_all() - traits
        unnamed = {key for key, it in self.its.items() if it.trait and (it.name in UNNAMED or it.trait.split("::")[-1] in handed)}
        direct = {key: unnamed | set(self.named_in(it)) for key, it in self.its.items()}
        self.reached = {key: self.all_from(key, direct) for key in direct}

    def named_in(self, function):
        text = re.sub(r"//[^\n]*", "", "\n".join(function.whole))
        for found in CALL.finditer(text):
            for name in (found["name"], UNNAMED_TOO.get(found["name"])):
                for it in self.by_name.get(name, []):
                    if self.may_be(it, found, function):
                        yield it.key

    def may_be(self, it, found, caller):
        """Whether the name that was found in a caller's text may be this function's."""
        path = found["path"]
        if found["dot"]:
            return it.owner is not None and found["call"] is not None
        if path in self.owners or path == "Self":
            return it.owner == (caller.owner if path == "Self" else path)
        if path is not None and path[0].islower():
            return it.owner is None
        # What stands alone is a free function, or one that is passed on; what stands behind another path may be any method.
        return (it.owner is None) == (path is None)

    def all_from(self, key, direct):
        seen, todo = set(), [*direct[key]]
        while todo:
            other = todo.pop()
            if other not in seen:
                seen.add(other)
                todo += direct[other]
        return seen

    def tie(self, one, other):
        """Whether one of these functions is the other, or may call it by itself or through others."""
        return one == other or one in self.reached[other] or other in self.reached[one]


@dataclass
class Batch:
    """Wrong bodies that are planted at once, with the texts that they make, by their files."""

    edits: list = field(default_factory=list)
    texts: dict = field(default_factory=dict)

    @property
    def crate(self):
        return self.edits[0].crate

    @property
    def functions(self):
        return [it for edit in self.edits for it in tried_functions(edit)]


def apart(edits, calls):
    """Of each edit those that cannot be planted with it: one of a function that calls the other's, or whose text is in the way.
    One that changes no function, as a table, cannot be planted with any."""
    changed = [[it.key for it in changed_functions(edit)] for edit in edits]
    found = [set() for _ in edits]
    for at, one in enumerate(edits):
        alone = texts_with(one, "new", {})
        for other in range(at):
            ties = any(calls.tie(it, that) for it in changed[at] for that in changed[other])
            if ties or not changed[at] or not changed[other] or texts_with(edits[other], "new", alone) is None:
                found[at].add(other)
                found[other].add(at)
    return found


def batches_of(crate, edits):
    """The edits of a crate in few batches: next comes the one that has been kept out of most batches, into the first that takes it."""
    kept_out = apart(edits, Calls(crate))
    batches, placed, left = [], {}, {*range(len(edits))}
    while left:
        at = max(left, key=lambda it: (len({placed[other] for other in kept_out[it] if other in placed}), len(kept_out[it]), -it))
        left.remove(at)
        taken = {placed[other] for other in kept_out[at] if other in placed}
        for number, batch in enumerate(batches):
            texts = texts_with(edits[at], "new", batch.texts)
            if number not in taken and texts is not None:
                break
        else:
            number, batch, texts = len(batches), Batch(), texts_with(edits[at], "new", {})
            batches.append(batch)
        placed[at] = number
        batch.edits.append(edits[at])
        batch.texts = texts
    return batches


def joined(batches, below):
    """These batches in lists for one check each. No crate of a list stands on another, whose functions would be without their proofs."""
    lists = []
    is_apart = lambda one, other: one != other and one not in below[other] and other not in below[one]
    for batch in batches:
        name = batch.crate.name
        fits = lambda it: len(it) < CRATES and all(is_apart(name, other.crate.name) for other in it)
        taken = next(filter(fits, reversed(lists)), None) if batch.functions else None
        if taken is None:
            lists.append([batch])
        else:
            taken.append(batch)
    return lists


# The tries.


def tried_functions(edit):
    """The functions that a check of the edit tries: those that it changes, or those that use the table that it changes."""
    return changed_functions(edit) or users_of_table(edit)


def refused_in(edit, lines):
    """The function of the edit that this check leaves open at a goal of its own, or None."""
    left = [path for path in left_open(lines) if path.startswith(f"{edit.crate.name}::")]
    for it in tried_functions(edit):
        name = it.printed(edit.crate)
        if any(is_named(path, name) for path in left):
            if any(is_of_a_goal(line) and speaks_of(line, it, edit.crate) for line in lines):
                return name
    return None


def verdict_alone(edit, lines):
    """What a check says of the only edit that was planted: whether it is refused, and the words for it."""
    left, goals = left_open(lines), [line for line in lines if is_of_a_goal(line)]
    own = [it.printed(edit.crate) for it in changed_functions(edit)]
    found = next((path for path in left if not own or any(is_named(path, name) for name in own)), None)
    if found and goals:
        return True, f"refused in {found}, alone"
    if left and goals:
        return False, f"NOT REFUSED in its own function, and only in {', '.join(left[:3])}"
    if any(re.match(r"logic=proved|only=(\d+) proved=\1$", line) for line in lines):
        return False, PROVED
    said = next((line for line in lines if re.match(r"rattle: |.*: error", line)), lines[-1] if lines else "nothing")
    return False, f"NOT TRIED: {said[:200]}"


PROVED = "NOT REFUSED: it is proved, so it means the same, or the contract says too little"


def verdict_of_copy(copy, span, lines):
    """What a check says of a copy: whether it is refused, or None where that is not known, and the words for it."""
    named = lambda path: is_named(path, copy.printed())
    if any(map(named, left_open(lines))) and edit_copies.is_refused(copy, span, lines):
        return True, f"refused in {copy.function.printed(copy.edit.crate)}"
    if any(map(named, proved_in(lines))):
        return False, PROVED
    return None, ""


def proved_in(lines):
    """The functions that a check proves, given what those promise that go by their contracts."""
    return [found[1] for line in lines if (found := re.match(r"fn (\S+): (?:no holes|depends on a hole)", line))]


def tried_copies(place, copies):
    """The lines of a check of these copies, and of each the lines on which it stands."""
    texts, spans = edit_copies.planted(copies)
    return tried(place, [it.edit for it in copies], texts, [it.printed() for it in copies], edit_contracts.WORDS), spans


def open_copies(place, copies):
    """The functions whose right body is not proved as a copy."""
    proved = proved_in(tried_copies(place, copies)[0])
    return [it for it in copies if not any(is_named(path, it.printed()) for path in proved)]


def chunks_of(place, edits, is_right=False):
    """The copies that these edits are, in lists for one check each, and the edits that are none."""
    copies, others = edit_copies.copies_of(edits, is_right)
    names = {it.edit.crate.name for it in copies}
    of_groups = [[it for name in group for it in copies if it.edit.crate.name == name] for group in place.groups(names)]
    return [chunk for group in of_groups for chunk in edit_copies.chunks_of(group)], others


def users_of_table(edit):
    """The functions that name the constant or static in which the edit's texts stand."""
    names = set()
    for pair in edit.pairs:
        text = (edit.crate / pair.file).read_text()
        names |= set(re.findall(r"^\s*(?:pub(?:\(crate\))? )?(?:const|static) (\w+)", text.partition(pair.old)[0] + pair.old, re.M)[-1:])
    uses = re.compile(rf"\b(?:{'|'.join(sorted(names))})\b")
    return [it for it in functions_of(edit.crate) if names and uses.search("\n".join(it.whole))]


def printed(functions, crate):
    return [it.printed(crate) for it in functions]


def tried(place, edits, texts, names, words=()):
    """The lines of a check with these texts: of the functions with these names, or of the whole crate where there are none."""
    own = {edit.crate.name: {} for edit in edits}
    for path, text in texts.items():
        crate = next(it.crate for it in edits if path.is_relative_to(it.crate))
        own[crate.name][path.relative_to(crate)] = text
    only = [word for name in names for word in ("--only", name)]
    begun = time.monotonic()
    lines = place.tried(own, ["--jobs", "1", "--progress", *words, *only])[1]
    with LOG.open("a") as log:
        head = f"== {' '.join(edit.label for edit in edits)}, in {time.monotonic() - begun:.0f} seconds"
        log.write("".join(f"{line}\n" for line in (head, *lines)))
    return lines


class Kept:
    """The edits that an earlier run refused, each by a sum of the edit and of all that its check read."""

    def __init__(self, is_anew):
        self.file, self.sums = ROOT / "out/edits.json", {}
        self.crates, self.kit = libraries(), run(["rt", "version"], ROOT).stdout
        self.said = {} if is_anew or not self.file.exists() else json.loads(self.file.read_text())

    def of_crate(self, name):
        if name not in self.sums:
            sum = hashlib.sha256(self.kit.encode())
            for it in sorted(with_below([name], self.crates)):
                files = sorted(path for part in PARTS for path in (ROOT / "crates" / it / part).rglob("*") if path.is_file())
                for path in files:
                    sum.update(repr((str(path.relative_to(ROOT)), path.read_bytes())).encode())
            self.sums[name] = sum.hexdigest()
        return self.sums[name]

    def key(self, edit):
        pairs = [(pair.file, pair.old, pair.new) for pair in edit.pairs]
        return hashlib.sha256(repr((self.of_crate(edit.crate.name), pairs)).encode()).hexdigest()

    def keep(self, edit, said):
        self.said[self.key(edit)] = said
        self.file.with_suffix(".new").write_text(json.dumps(self.said))
        self.file.with_suffix(".new").replace(self.file)


@dataclass
class Task:
    """A try that waits for its turn: the crates that it is of, the memory that it takes, and the call."""

    crates: set
    needs: int
    call: object


class AsProved(Waiting):
    """The tasks, each once the names of all of its crates are read: another command says which crates it has proved, a line each. Meanwhile what is
    tried here gives way to it."""

    GIVES_WAY = ["nice", "-n", "19"]

    def __init__(self, place, tasks, names):
        self.place, self.tasks, self.names, self.read, self.proved, self.is_open = place, tasks, names, queue.SimpleQueue(), set(), True
        place.before = self.GIVES_WAY
        threading.Thread(target=self.listen, daemon=True).start()

    def listen(self):
        for line in self.names:
            self.read.put(line.strip())
        self.place.before, self.is_open = [], False

    def taken(self):
        while not self.read.empty():
            self.proved.add(self.read.get())
        ready = [it for it in self.tasks if it.crates <= self.proved]
        self.tasks = [it for it in self.tasks if it not in ready]
        self.place.prove({name for it in ready for name in it.crates})
        return [(it.needs, it.call) for it in ready]


class Tries:
    """The tries of edits: those of a batch at once, and alone those of which that says nothing. What is refused is kept, and
    where the time is over no other try begins."""

    def __init__(self, place, kept, seconds):
        self.place, self.kept, self.begun = place, kept, time.monotonic()
        self.ends = self.begun + seconds
        self.passed, self.failed, self.left, self.number = 0, 0, 0, 0

    def try_batches(self, batches):
        """The edits of these batches, each with whether it is refused, or None where that is not known, and the words for it. What
        calls the functions that are tried is not checked, and what they call goes by its contract."""
        edits = [edit for batch in batches for edit in batch.edits]
        if time.monotonic() > self.ends:
            self.left += len(edits)
            return []
        if not batches[0].functions:
            return self.try_alone(edits[0])
        texts, names = {}, []
        for batch in batches:
            texts |= edit_contracts.by_contract(batch.crate, batch.texts, {it.key for it in batch.functions})
            names += printed(batch.functions, batch.crate)
        lines = tried(self.place, edits, texts, names, edit_contracts.WORDS)
        names = [(edit, refused_in(edit, lines)) for edit in edits]
        return [(edit, True, f"refused in {name}") if name else (edit, None, "") for edit, name in names]

    def try_copies(self, copies):
        """The edits of these copies, as `try_batch` gives them. A copy that is proved needs no other try."""
        if time.monotonic() > self.ends:
            self.left += len(copies)
            return []
        lines, spans = tried_copies(self.place, copies)
        return [(it.edit, *verdict_of_copy(it, spans[it.name], lines)) for it in copies]

    def try_alone(self, edit):
        """An edit by itself. One that changes a table is tried by the functions that use it, and only then by the whole crate."""
        texts, changed = texts_with(edit, "new", {}), changed_functions(edit)
        functions = printed(changed or users_of_table(edit), edit.crate)
        said = verdict_alone(edit, tried(self.place, [edit], texts, functions)) if functions else (False, "")
        return [(edit, *(said if said[0] or changed else verdict_alone(edit, tried(self.place, [edit], texts, []))))]

    def tasks_of(self, edits):
        """The tasks that try these edits."""
        chunks, others = chunks_of(self.place, edits)
        found = [self.task([it.edit for it in chunk], lambda chunk=chunk: self.try_copies(chunk)) for chunk in chunks]
        of_crate = lambda name: [edit for edit in others if edit.crate.name == name]
        batches = [batch for name in self.place.crates if of_crate(name) for batch in batches_of(ROOT / "crates" / name, of_crate(name))]
        for some in joined(batches, self.place.below):
            edits = [edit for batch in some for edit in batch.edits]
            found.append(self.task(edits, lambda some=some: self.try_batches(some)))
        return found

    def task(self, edits, call):
        names = {edit.crate.name for edit in edits}
        return Task(names, self.place.needs(names), call)

    def run(self, edits, names=None):
        """Tries these edits: all at once, or those of crates from when their names are read."""
        self.passed = sum(self.kept.key(edit) in self.kept.said for edit in edits)
        if self.passed:
            print(f"{self.passed} of {len(edits)} were refused in an earlier run, and nothing that they stand on has changed", flush=True)
        edits = [edit for edit in edits if self.kept.key(edit) not in self.kept.said]
        open_edits, tasks = [], self.tasks_of(edits)
        print(f"{len(edits)} wrong bodies of {len({edit.crate for edit in edits})} crates, in {len(tasks)} batches", flush=True)
        if names is None:
            self.tell([(it.needs, it.call) for it in tasks], len(tasks), open_edits)
        else:
            waiting = AsProved(self.place, tasks, names)
            self.tell([], len(tasks), open_edits, waiting)
            left = {name for it in waiting.tasks for name in it.crates}
            for edit in edits:
                if edit.crate.name in left:
                    self.failed += 1
                    print(f"{edit.label}: NOT TRIED: its crate is not proved", flush=True)
        if open_edits:
            print(f"alone: {len(open_edits)} of which their batch does not tell", flush=True)
            alone = [(self.place.needs([edit.crate.name]), lambda edit=edit: self.try_alone(edit)) for edit in open_edits]
            self.tell(alone, len(tasks) + len(alone), [])

    def tell(self, tasks, count, open_edits, waiting=Waiting()):
        """Runs the tasks, the largest first, and prints what each edit came to as they end."""
        for found in side_by_side(tasks, waiting):
            self.number += 1
            if found:
                print(f"[{time.monotonic() - self.begun:.0f} s, {self.number} of {count}]", flush=True)
            for edit, is_refused, said in found:
                if is_refused is None:
                    open_edits.append(edit)
                    continue
                self.passed += is_refused
                self.failed += not is_refused
                if is_refused:
                    self.kept.keep(edit, said)
                print(f"{edit.label}: {said}", flush=True)


def prove_copies(edits, places):
    """Has the right body proved, as a copy, of each function that an edit changes so, and prints those of which it is not."""
    LOG.parent.mkdir(exist_ok=True)
    LOG.write_text("")
    passed, failed = 0, []
    with places({edit.crate.name for edit in edits}) as place:
        open_crates, said = place.prove()
        if open_crates:
            print(said[-3000:], f"not proved as they stand: {' '.join(open_crates)}", sep="\n")
            return len(edits)
        chunks, _ = chunks_of(place, edits, is_right=True)
        crates_of = lambda chunk: {it.edit.crate.name for it in chunk}
        tasks = [(place.needs(crates_of(chunk)), lambda chunk=chunk: (chunk, open_copies(place, chunk))) for chunk in chunks]
        for chunk, left in side_by_side(tasks):
            passed += len(chunk) - len(left)
            failed += left
            for it in left:
                print(f"{it.function.printed(it.edit.crate)}: NOT PROVED as a copy", flush=True)
    print(f"{passed} passed, {len(failed)} failed")
    return len(failed)


def try_all(edits, places, is_anew=False, seconds=float("inf"), names=None):
    """Plants all these edits in a place of this kind, and prints how many are refused. Returns how many are not. What the checks said
    stands in `LOG`. With names the edits of a crate are tried once its name is read from them."""
    LOG.parent.mkdir(exist_ok=True)
    LOG.write_text("")
    with places({edit.crate.name for edit in edits}) as place:
        open_crates, said = place.prove() if names is None else ([], "")
        if open_crates:
            print(said[-3000:], f"not proved as they stand: {' '.join(open_crates)}", f"0 passed, {len(edits)} failed", sep="\n")
            return len(edits)
        tries = Tries(place, Kept(is_anew), seconds)
        tries.run(edits, names)
    if tries.left:
        print(f"the time is over, and {tries.left} are left for another run")
    print(f"in {time.monotonic() - tries.begun:.0f} seconds", f"{tries.passed} passed, {tries.failed} failed", sep="\n")
    return tries.failed + tries.left
