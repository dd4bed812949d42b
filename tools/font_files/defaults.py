"""Small fonts for what is done by default: normalization, marks and spaces in fonts without lookups, fractions, vertical lines."""

from .rules import assigned, code, font
from .scripts import merged, probes

SPACES = [0xA0, *range(0x2000, 0x200B), 0x202F, 0x205F, 0x3000]
COMBINING = [*range(0x300, 0x370), 0x483, 0x484, *range(0x591, 0x5BE), 0x5BF, 0x5C1, 0x5C2, 0x5C4, *range(0x64B, 0x656), 0x670, 0x711,
             0xC55, 0xC56, 0xE38, 0xE39, 0xE48, 0xE49, 0xEB8, 0xEC8, 0xF71, 0xF72, 0xF74, 0xF39, 0x1AB0, 0x1DC2, 0x20D0, 0x20D2, 0x302A, 0x3099,
             0x309A, 0xFE20, 0xFE21, 0x1D165, 0x1D16D]
LETTERS = [*range(0x30, 0x3A), *range(0x41, 0x5B), *range(0x61, 0x7B)]
COMPOSED = [*range(0xC0, 0x100), 0x1E0B, 0x1E0D, 0x1E69, 0x1E63, 0x1EA5, 0x1ED9, 0x212B, 0x2126, 0x3C9]


def plain():
    """No lookups at all: marks are placed by the bounds of glyphs, spaces have widths of their own."""
    codes = [*LETTERS, 0x2D, 0x2E, 0x2F, 0x28, 0x29, 0x3C, 0x3E, 0x5D0, 0x5E9, 0x627, 0x644, 0xE01, 0xE14, 0xF40, 0x2010, 0x2044, 0xB7,
             *COMPOSED, *COMBINING, 0xA0, 0x2003, 0x2212, 0x1F1E6, 0x1F1E7, 0x1F468, 0x1F469, 0x1F3FB, 0x1F3FF, 0x2764, 0x4E00, 0x4E01]
    return font("Vukhaso Plain", codes, [], {}, placed=(), has_gdef=False, outlined=1000)


def signs():
    """Features of fractions, of numbers, of what is mirrored and of vertical lines, and those that any script has."""
    digits = [code(number) for number in range(0x30, 0x3A)]
    rules = merged(
        {"numr": [[f"{digit} > {digit}.numr" for digit in digits]], "dnom": [[f"{digit} > {digit}.dnom" for digit in digits]],
         "frac": [["2044 > slash.frac", "0034.dnom > four.below", "0031.numr > one.above"]], "vert": [["0041 > 0041.vert", "0028 > 0028.vert"]], "rtlm": [["0028 > 0028.rtlm"]],
         "ltrm": [["005B > 005B.ltrm"]], "ltra": [["003C > 003C.ltra"]], "rtla": [["003E > 003E.rtla"]], "rvrn": [["0042 > 0042.rvrn"]],
         "rand": [["0043 > 0043.one / 0043.two / 0043.three / 0043.four"]], "ccmp": [["0069 0307 > i_dot"], ["0044 > 0044 0045"]], "rlig": [["0046 0047 > f_g"]], "liga": [["0066 0069 > f_i"]],
         "clig": [["0063 0074 > c_t"]], "calt": [["0061 [0062] > 0062.calt"]], "rclt": [["0062 [0063] > 0063.rclt"]], "dlig": [["0073 0074 > s_t"]],
         "ss01": [["0061 > 0061.one"]], "smcp": [["0078 > 0078.small"]], "Harf": [["0079 > 0079.Harf"]], "Buzz": [["0079 > 0079.Buzz"]],
         "Khmr": [["0079 > 0079.x"]]},
        probes(["0068", "006A", "006B", "006C"], ["locl", "abvm", "Harf", "Buzz"]))
    codes = [*LETTERS, *range(0x21, 0x30), *range(0x3A, 0x41), *range(0x5B, 0x61), 0x2044, 0x2215, 0xAB, 0xBB, 0x2018, 0x2264, 0x2265, 0x2190, 0x2192,
             0x3001, 0x2208, 0x2013, 0x7B, 0x3008, 0x3009, 0x30A2, 0x3042, 0x4E00, 0xFE35, 0xFE36, 0x2014, 0xFE31, 0x2026, 0xFE19, 0x300, 0x301, 0x307, 0x323, 0x5D0, 0x627, 0x1820]
    return font("Vukhaso Signs", codes, ["DFLT", "latn"], rules, placed=("mark", "mkmk", "kern"), outlined=1000)


FONTS = {"plain.ttf": plain, "signs.ttf": signs}
