"""Damage to a font: bytes, numbers, offsets, whole tables and the file's end. What is done depends on the random numbers alone."""

from . import reading

NUMBERS = [0, 0, 1, 2, 3, 0xFF, 0x100, 0x7FFF, 0x8000, 0xFFFE, 0xFFFF, 0xFFFF]
LONG_NUMBERS = [0, 1, 0xFF, 0xFFFF, 0x10000, 0x7FFFFFFF, 0x80000000, 0xFFFFFFFE, 0xFFFFFFFF]

# Tables that most of the damage is done to.
OF_SHAPING = [tag.ljust(4) for tag in (
    "GSUB GPOS GDEF cmap CFF kern glyf loca hmtx hhea maxp head post vmtx vhea VORG OS/2 fvar morx kerx").split()]


def put(data, at, value, size):
    data[at:at + size] = (value & (1 << 8 * size) - 1).to_bytes(size, "big")


def place_in(rng, data, rows):
    """A place in a table, mostly in one of shaping, and mostly near its start."""
    chosen = [row for tag, row in rows.items() if tag in OF_SHAPING or rng.random() < 0.1]
    start, length = rng.choice(chosen or list(rows.values()) or [(0, len(data))])
    reach = min(length, rng.choice([16, 64, 256, 1024, length]))
    return start + rng.randrange(max(1, reach)), start


def flip(rng, data, rows):
    at, _ = place_in(rng, data, rows)
    if at < len(data):
        data[at] ^= 1 << rng.randrange(8)


def number(rng, data, rows):
    at, start = place_in(rng, data, rows)
    at -= (at - start) % 2
    old = int.from_bytes(data[at:at + 2], "big")
    put(data, at, rng.choice([*NUMBERS, old + 1, old - 1, 2 * old, rng.randrange(0x10000)]), 2)


def long_number(rng, data, rows):
    at, start = place_in(rng, data, rows)
    at -= (at - start) % 2
    old = int.from_bytes(data[at:at + 4], "big")
    put(data, at, rng.choice([*LONG_NUMBERS, old + 1, old - 1, len(data), rng.randrange(1 << 32)]), 4)


def offset(rng, data, rows):
    """An offset that leads somewhere else in its table, back to its start, or a little past the end."""
    at, start = place_in(rng, data, rows)
    at -= (at - start) % 2
    put(data, at, rng.choice([0, 2, 4, at - start, rng.randrange(1, 64), rng.randrange(1, 2048), len(data) - start]), 2)


def swap(rng, data, rows):
    """Two runs of bytes, each in the place of the other."""
    (one, _), (other, _) = place_in(rng, data, rows), place_in(rng, data, rows)
    size = rng.choice([1, 2, 2, 4, 8, 32])
    if abs(one - other) >= size and max(one, other) + size <= len(data):
        data[one:one + size], data[other:other + size] = data[other:other + size], data[one:one + size]


def copy(rng, data, rows):
    """A run of bytes over another."""
    (one, _), (other, _) = place_in(rng, data, rows), place_in(rng, data, rows)
    run = data[one:one + rng.choice([2, 4, 6, 16, 64])]
    data[other:other + len(run)] = run


def table(rng, data, rows):
    """A row of the directory: another place, length or tag, or what another row has."""
    count, start = len(rows), reading.directory(data) + 12
    if not count:
        return
    row, other = (start + 16 * rng.randrange(count) for _ in range(2))
    match rng.randrange(5):
        case 0:
            put(data, row + 8, rng.choice([*LONG_NUMBERS, len(data), len(data) - 1, rng.randrange(len(data) + 1)]), 4)
        case 1:
            put(data, row + 12, rng.choice([*LONG_NUMBERS, rng.randrange(len(data) + 1), *range(16)]), 4)
        case 2:
            data[row + 8:row + 16], data[other + 8:other + 16] = data[other + 8:other + 16], data[row + 8:row + 16]
        case 3:
            data[row:row + 4] = rng.choice(OF_SHAPING).encode()
        case 4:
            put(data, start - 8, rng.choice([0, count - 1, count + 1, 0xFFFF]), 2)


def cut(rng, data, rows):
    places = [at for start, length in rows.values() for at in (start, start + 1, start + length, start + length - 1)]
    del data[rng.choice([*places, rng.randrange(len(data) + 1)]):]


KINDS = [flip] * 3 + [number] * 6 + [long_number] * 2 + [offset] * 4 + [swap] * 2 + [copy] * 2 + [table] + [cut]


def damaged(rng, data):
    data = bytearray(data)
    for _ in range(rng.choice([1, 1, 1, 2, 2, 3, 4, 8, 16])):
        rng.choice(KINDS)(rng, data, reading.tables(data))
    return bytes(data)
