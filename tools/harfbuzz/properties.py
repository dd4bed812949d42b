"""What the package's example `properties` prints of ours, beside what HarfBuzz prints: values of all code points, pairs, scripts, Hangul, reversals."""

import collections
import subprocess
import sys

UNASSIGNED = 2
CATEGORIES = "Cc Cf Cn Co Cs Ll Lm Lo Lt Lu Mc Me Mn Nd Nl No Pc Pd Pe Pf Pi Po Ps Sc Sk Sm So Zl Zp Zs".split()
DIRECTIONS = {0: "either way", 4: "from left to right", 5: "from right to left"}
NO_CHARACTERS = range(0xD800, 0xE000)
# Syllables of Hangul are compared by a property of their own.
HANGUL = range(0xAC00, 0xD7A4)
PARTS = ["directions", "characters", "hangul", "tables", "reversals"]

# What may differ, by the property and the number that is asked for. docs/DIFFERENCES.md has a line for each.
NEWER = "unassigned in Unicode 16, which HarfBuzz has, and not in Unicode 18, which the kit has"
OF_CHARACTERS = ["category", "script", "combining_class", "modified_class", "first_part", "second_part", "composed"]
TELUGU = "the class of the Telugu length marks"
KNOWN = {
    ("category", 0x295): "a letter of another category in Unicode 18",
    ("direction", 0x47617261): "the direction of Garay",
    ("changed_class", 84): TELUGU,
    ("changed_class", 91): TELUGU,
    ("modified_class", 0xC55): TELUGU,
    ("modified_class", 0xC56): TELUGU,
}


def ranges_of(lines):
    """The ranges of each property: the first number that is asked for, the last, and the answer to all of them."""
    ranges = collections.defaultdict(list)
    for line in lines:
        name, *words = line.split(" ")
        if name in ("reversal", "asked_first", "asked_second"):
            first = last = len(ranges[name])
            words = [" ".join(words)]
        elif name == "direction":
            first = last = int(words[0], 16)
        else:
            first, last = int(words[0], 16), int(words[1], 16)
        ranges[name].append((first, last, words[-1]))
    return ranges


def answers_of(ranges):
    return {number: answer for first, last, answer in ranges for number in range(first, last + 1)}


def differing(left, right):
    """The two answers to each question to which they differ. A range of both sides needs no look."""
    both = set(left) & set(right)
    ours, theirs = (answers_of(it for it in side if it not in both) for side in (left, right))
    pairs = {number: (ours.get(number), theirs.get(number)) for number in ours.keys() | theirs.keys()}
    return {number: pair for number, pair in pairs.items() if pair[0] != pair[1]}


def characters_with(category, ranges):
    return {number for number, value in answers_of(ranges).items() if int(value, 16) == category}


def kind_of(name, number, answers, unassigned):
    """Why an answer differs. A pair's reason is that of the character that it composes to here."""
    character = int(answers[0] or "0", 16) if name == "composed" else number
    return NEWER if name in OF_CHARACTERS and character in unassigned else KNOWN.get((name, number))


def question(name, number, asked):
    if name != "composed":
        return f"{number:x}"
    first, second = divmod(number, len(asked[1]))
    return f"{asked[0][first]:x} {asked[1][second]:x}"


def shown(name, answer):
    """An answer by its name: a category by Unicode's letters, a script by its tag, a direction by its way."""
    if answer is None or name not in ("category", "script", "direction"):
        return answer
    number = int(answer, 16)
    if name == "script":
        return number.to_bytes(4, "big").decode("latin-1")
    return CATEGORIES[number] if name == "category" else DIRECTIONS[number]


def compare_property(name, ours, theirs, unassigned, asked):
    """Prints how many answers were compared, and what differs by its kind. Whether one differs for no known reason."""
    by_kind = collections.defaultdict(list)
    found = differing(ours, theirs)
    for number in sorted(found):
        by_kind[kind_of(name, number, found[number], unassigned)].append(number)
    print(f"{name}: {sum(last + 1 - first for first, last, _ in ours)} compared, {len(found)} differ")
    for kind, numbers in by_kind.items():
        left, right = found[numbers[0]]
        print(f"    {len(numbers)}: {kind or 'for no known reason'}\n"
              f"    first {question(name, numbers[0], asked)}: ours {shown(name, left)}, theirs {shown(name, right)}")
    return None in by_kind


def pairs_of(ranges):
    """The pairs that characters decompose to."""
    firsts, seconds = answers_of(ranges["first_part"]), answers_of(ranges["second_part"])
    taken = [c for c, first in firsts.items() if first != "0" and c not in NO_CHARACTERS and c not in HANGUL]
    return {(int(firsts[c], 16), int(seconds[c], 16)) for c in taken}


def missed_pairs(theirs, asked):
    """Whether HarfBuzz decomposes a character to a pair that was not asked for. The pairs that were asked for are all of ours."""
    firsts, seconds = map(set, asked)
    pairs = pairs_of(theirs)
    missed = [pair for pair in pairs if pair[0] not in firsts or pair[1] not in seconds]
    print(f"{len(pairs)} pairs that HarfBuzz decomposes to, of which {len(missed)} are not among those that were composed")
    return bool(missed)


def compare(example, program):
    lines = subprocess.run([example, *PARTS], stdout=subprocess.PIPE, text=True, check=True).stdout.splitlines()
    words = [line.split()[:2] for line in lines if line.startswith(("direction ", "asked_"))]
    text = "".join(f"{name} {number}\n" for name, number in words)
    done = subprocess.run([program, "properties"], input=text, stdout=subprocess.PIPE, text=True, check=True)
    ours, theirs = ranges_of(lines), ranges_of(done.stdout.splitlines())
    asked = [[int(answer, 16) for _, _, answer in ours.pop(name, [])] for name in ("asked_first", "asked_second")]
    if not ours.keys() == theirs.keys():
        sys.exit("the two programs print other properties")
    unassigned = characters_with(UNASSIGNED, theirs["category"])
    differ = [compare_property(name, ours[name], theirs[name], unassigned, asked) for name in ours]
    return any([*differ, missed_pairs(theirs, asked)])
