"""The table `CFF `, of version 1, written as Adobe's Technical Note 5176 lays it out; charstrings as in 5177."""

import struct

# The number of a glyph's name where the format has one, and of the first that a font adds.
STANDARD = {
    ".notdef": 0, "space": 1, "acute": 125,
    **{chr(65 + at): 34 + at for at in range(26)}, **{chr(97 + at): 66 + at for at in range(26)},
}
FIRST_OWN = 391

OPERATORS = {
    "hstem": 1, "vmoveto": 4, "rlineto": 5, "hlineto": 6, "vlineto": 7, "rrcurveto": 8, "callsubr": 10, "return": 11, "endchar": 14,
    "vstem": 3, "hstemhm": 18, "hintmask": 19, "cntrmask": 20, "vstemhm": 23, "rcurveline": 24, "rlinecurve": 25, "vvcurveto": 26,
    "hhcurveto": 27, "rmoveto": 21, "hmoveto": 22, "callgsubr": 29, "vhcurveto": 30, "hvcurveto": 31,
}


def index(items):
    if not items:
        return struct.pack(">H", 0)
    places = [1]
    for item in items:
        places.append(places[-1] + len(item))
    return struct.pack(">HB", len(items), 2) + struct.pack(f">{len(places)}H", *places) + b"".join(items)


def number(value):
    """A whole number in a charstring, in its shortest form."""
    if -107 <= value <= 107:
        return bytes([value + 139])
    if 108 <= abs(value) <= 1131:
        high, low = divmod(abs(value) - 108, 256)
        return bytes([high + (247 if value > 0 else 251), low])
    return b"\x1c" + struct.pack(">h", value)


# Operators of two bytes, by the second.
ESCAPED = {"hflex": 34, "flex": 35, "hflex1": 36, "flex1": 37}


def charstring(text):
    """A charstring of numbers and operators, as `10 0 rmoveto 50 50 -50 hlineto endchar`; a mask has its bits, as `hintmask:10100000`."""
    made = b""
    for word in text.split():
        word, _, bits = word.partition(":")
        if word in ESCAPED:
            made += bytes([12, ESCAPED[word]])
        else:
            made += bytes([OPERATORS[word]]) if word in OPERATORS else number(int(word))
        made += int(bits + "0" * (-len(bits) % 8), 2).to_bytes(-(-len(bits) // 8), "big") if bits else b""
    return made


def entry(operator, *values):
    """An entry of a dictionary. Each number takes five bytes, so that its size is known before the offsets are."""
    return b"".join(b"\x1d" + struct.pack(">i", value) for value in values) + bytes([operator])


def cff(family, names, charstrings, shared, private, box):
    """The table: glyph names, charstrings, and the subroutines that all fonts of the table share, and those of this one."""
    own = [name for name in names if name not in STANDARD]
    charset = b"\0" + struct.pack(f">{len(names) - 1}H", *(
        STANDARD[name] if name in STANDARD else FIRST_OWN + own.index(name) for name in names[1:]))
    private_entries = entry(20, 500) + entry(21, 400)
    private_entries += entry(19, len(private_entries) + 6)
    strings = [*own, family]
    head = b"\1\0\4\2" + index([family.replace(" ", "").encode()])
    rest = index([text.encode() for text in strings]) + index([charstring(text) for text in shared])
    glyphs = index([charstring(charstrings[name]) for name in names])

    def top(start):
        places = start, start + len(charset), start + len(charset) + len(glyphs)
        return index([entry(3, FIRST_OWN + len(own)) + entry(5, *box) + entry(15, places[0]) + entry(17, places[1])
                      + entry(18, len(private_entries), places[2])])

    start = len(head) + len(top(0)) + len(rest)
    return head + top(start) + rest + charset + glyphs + private_entries + index([charstring(text) for text in private])
