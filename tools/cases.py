"""Cases for the reader of plan files.

    python3 tools/cases.py > crates/cases/stdin

prints one line a case: name, tab, the file in hex, tab, the line that the
program must print for it.

The module holds three things: a reference reader, which is written from the
rules of the format alone; builders, which put files together; and the cases.
Each case made here states its expected line itself, and the reference reader
has to agree with it, or nothing is printed.
"""

import sys
from bisect import bisect_right
from pathlib import Path

# ---------------------------------------------------------------------------
# The reference reader

MOST_PLACES = 1024
MOST_LEGS = 4096
MOST_CARRIERS = 32
MOST_ENTRIES = 2048
MOST = 65535  # the largest number of two bytes


class Refused(Exception):
    """The file is refused: the number of the refusal and an offset."""


class Reader:
    """Takes a file from the front; knows where the current record began."""

    def __init__(self, data):
        self.data = data
        self.at = 0  # offset of the next byte
        self.mark_at = 0  # offset of the mark of the current record

    def byte(self):
        if self.at == len(self.data):
            raise Refused(1, self.mark_at)
        self.at += 1
        return self.data[self.at - 1]

    def number(self, low, high):
        """The next number, tested as soon as it is read."""
        offset = self.at
        first = self.byte()
        value = first + 256 * self.byte()
        if not low <= value <= high:
            raise Refused(3, offset)
        return value

    def mark(self, *due):
        """The next mark, which has to be one of those that are due."""
        self.mark_at = self.at
        mark = bytes([self.byte(), self.byte()])
        if mark not in due:
            raise Refused(2, self.mark_at)
        return mark


def read_rail(r):
    """Gives the number of places and the number of legs."""
    places = r.number(1, MOST_PLACES)
    legs = r.number(0, MOST_LEGS)
    before = (-1, -1)
    for _ in range(legs):
        offset = r.at
        leg = (r.number(0, places - 1), r.number(0, places - 1))
        if leg[0] == leg[1] or leg <= before:
            raise Refused(4, offset)
        r.number(1, MOST)  # the length
        before = leg
    return places, legs


def read_hall(r):
    """Gives the number of cells and the number of legs between open cells."""
    w = r.number(1, 1024)
    h = r.number(1, min(1024, MOST_PLACES // w))
    r.number(1, MOST)  # across pitch
    r.number(1, MOST)  # down pitch
    cells = w * h
    blocked = []
    while len(blocked) < cells:
        offset = r.at
        byte = r.byte()
        bits = [byte >> k & 1 for k in range(8)]
        used = min(8, cells - len(blocked))
        if any(bits[used:]):
            raise Refused(3, offset)
        blocked += bits[:used]
    legs = 0
    for c in range(cells):
        if c % w + 1 < w and not blocked[c] and not blocked[c + 1]:
            legs += 2  # to the right neighbour and back
        if c + w < cells and not blocked[c] and not blocked[c + w]:
            legs += 2  # to the neighbour below and back
    return cells, legs


def read(data):
    """The line for a sound file; raises Refused for any other."""
    r = Reader(data)
    rail = r.mark(b"RF", b"HF") == b"RF"
    places, legs = read_rail(r) if rail else read_hall(r)
    carriers = entries = 0
    while r.mark(b"CA", b"EN") == b"CA":
        if carriers == MOST_CARRIERS:
            raise Refused(3, r.mark_at)
        r.number(0, places - 1)  # start
        r.number(0, places - 1)  # goal
        count = r.number(0, MOST_ENTRIES - entries)
        for _ in range(count):
            r.number(0, places - 1)
        carriers += 1
        entries += count
    if r.at < len(data):
        raise Refused(5, r.at)
    return read_line("rail" if rail else "hall", places, legs, carriers, entries)


def answer(data: bytes) -> str:
    """The line that the program prints for a file."""
    try:
        return read(data)
    except Refused as refusal:
        return refused(*refusal.args)


def read_line(floor, places, legs, carriers=0, entries=0):
    return (f"plan read {floor} places {places} legs {legs}"
            f" carriers {carriers} entries {entries}")


def refused(number, offset):
    return f"file refused {number} {offset}"


# ---------------------------------------------------------------------------
# Builders. They test nothing, so that they can build unsound files too.

END = b"EN"


def numbers(*values):
    return b"".join(v.to_bytes(2, "little") for v in values)


def rail(places, legs=(), count=None):
    """A rail floor; legs are (from, to, length). `count` replaces the count."""
    count = len(legs) if count is None else count
    return b"RF" + numbers(places, count) + b"".join(numbers(*g) for g in legs)


def hall(w, h, blocked=(), across=12, down=10, bits=None):
    """A hall with these cells blocked. `bits` replaces the bytes of the cells."""
    if bits is None:
        field = sum(1 << c for c in set(blocked))
        bits = field.to_bytes((w * h + 7) // 8, "little")
    return b"HF" + numbers(w, h, across, down) + bits


def carrier(start, goal, path=(), count=None):
    """A carrier; `count` replaces the number of entries."""
    count = len(path) if count is None else count
    return b"CA" + numbers(start, goal, count, *path)


def both_ways(*pairs):
    """Legs in order, both ways, from (place, place, length)."""
    return sorted(g for a, b, n in pairs for g in ((a, b, n), (b, a, n)))


# ---------------------------------------------------------------------------
# The cases

CASES = []  # (name, file, expected line)


def case(name, expected, *parts):
    CASES.append((name, b"".join(parts), expected))


# A rail floor of 24 bytes and a hall of 12 bytes, to put carriers behind. The
# legs of a rail floor begin at 6, 12, 18 ..; the numbers of a hall are at 2, 4,
# 6 and 8 and its cells begin at 10. In a carrier at offset c the start is at
# c + 2, the goal at c + 4, the count at c + 6, and the entries begin at c + 8.
RAIL = rail(3, [(0, 1, 30), (1, 0, 30), (1, 2, 600)])
HALL = hall(3, 3, [8])
RAIL_3 = ("rail", 3, 3)
HALL_9 = ("hall", 9, 20)


def smallest_cases():
    smallest = bytes.fromhex("52 46 01 00 00 00 45 4E")
    case("smallest", read_line("rail", 1, 0), smallest)
    case("smallest-built", read_line("rail", 1, 0), rail(1), END)
    case("smallest-ninth-byte", refused(5, 8), smallest, b"\0")
    case("smallest-hall", read_line("hall", 1, 0), hall(1, 1), END)
    case("smallest-hall-more", refused(5, 13), hall(1, 1), END, b"\0")
    case("no-bytes", refused(1, 0))
    for byte in (b"R", b"H", b"C", b"E", b"Z", b"\0", b"\xff"):
        case(f"one-byte-{byte.hex()}", refused(1, 0), byte)


def cut_cases():
    """A rail file and a hall file, cut at every one of their offsets."""
    rail_parts = [rail(4, [(0, 1, 30), (1, 0, 30), (1, 2, 600)]),
                  carrier(0, 2, [0, 1, 2]), carrier(3, 3), END]
    hall_parts = [hall(5, 3, [7, 14]), carrier(0, 2, [0, 1, 2]),
                  carrier(14, 3), carrier(9, 9, [9]), END]
    wholes = [("rail", rail_parts, read_line("rail", 4, 3, 2, 3)),
              ("hall", hall_parts, read_line("hall", 15, 32, 3, 4))]
    for name, parts, line in wholes:
        whole = b"".join(parts)
        marks = [sum(map(len, parts[:i])) for i in range(len(parts))]
        case(f"{name}-whole", line, whole)
        for cut in range(len(whole)):
            mark = marks[bisect_right(marks, cut) - 1]
            case(f"{name}-cut-at-{cut:02}", refused(1, mark), whole[:cut])

    # The file ends though a count asks for more.
    case("ends-before-4096-legs", refused(1, 0), rail(2, count=4096))
    case("ends-before-1024-cells", refused(1, 0), hall(32, 32, bits=b""))
    case("ends-in-1024-cells", refused(1, 0), hall(32, 32, bits=bytes(127)))
    case("ends-before-2048-entries", refused(1, 24), RAIL,
         carrier(0, 0, count=2048))
    # The number would be out of range, but its second byte is missing.
    case("ends-in-places-0", refused(1, 0), b"RF\0")
    case("ends-in-width-0", refused(1, 0), b"HF\0")
    case("ends-in-start-255", refused(1, 24), RAIL, b"CA\xff")
    case("ends-in-count-255", refused(1, 12), HALL, b"CA\0\0\0\0\xff")
    # The number out of range is the last thing in the file.
    case("ends-after-places-0", refused(3, 2), b"RF\0\0")
    case("ends-after-width-0", refused(3, 2), b"HF\0\0")
    case("ends-after-start-out", refused(3, 26), RAIL, b"CA\3\0")
    case("ends-after-count-2049", refused(3, 18), HALL,
         carrier(0, 0, count=2049))
    case("ends-after-spare-bit", refused(3, 11), hall(3, 3, bits=b"\0\2"))
    # No end, and one byte where the mark of the end is due.
    for name, floor in (("rail", RAIL), ("hall", HALL)):
        case(f"{name}-end-missing", refused(1, len(floor)), floor)
        for byte in (b"E", b"C", b"R", b"Z", b"\0"):
            case(f"{name}-one-byte-{byte.hex()}-for-a-mark",
                 refused(1, len(floor)), floor, byte)


def mark_cases():
    firsts = [b"EN", b"CA", b"rf", b"Rf", b"rF", b"hf", b"Hf", b"hF", b"FR",
              b"FH", b"RH", b"HR", b"FF", b"RE", b"RG", b"HE", b"HG", b"QF",
              b"SF", b"GF", b"IF", b"EF", b"CF", b"RA", b"\0\0", b"\xff\xff",
              b"\0R", b"R\0", b"\xd2F", b"R\xc6"]
    for mark in firsts:
        case(f"first-mark-{mark.hex()}", refused(2, 0), mark, rail(1)[2:], END)
    for mark in (b"EN", b"CA", b"XX"):
        case(f"only-mark-{mark.hex()}", refused(2, 0), mark)
    case("only-mark-5246", refused(1, 0), b"RF")
    case("only-mark-4846", refused(1, 0), b"HF")
    case("byte-before-the-floor", refused(2, 0), b"\0", RAIL, END)
    case("line-end-before-the-floor", refused(2, 0), b"\n", HALL, END)

    laters = [b"ca", b"Ca", b"cA", b"AC", b"en", b"En", b"eN", b"NE", b"CN",
              b"EA", b"RF", b"HF", b"\0\0", b"\xff\xff", b"\xc3A", b"E\xce"]
    for mark in laters:
        case(f"rail-then-{mark.hex()}", refused(2, 24), RAIL, mark)
        case(f"hall-then-{mark.hex()}", refused(2, 12), HALL, mark)
    for mark in (b"RF", b"HF", b"en", b"ZZ"):
        case(f"rail-carrier-then-{mark.hex()}", refused(2, 34), RAIL,
             carrier(0, 0, [0]), mark, END)
        case(f"hall-carrier-then-{mark.hex()}", refused(2, 20), HALL,
             carrier(0, 0), mark, END)
    case("two-floors-rail-rail", refused(2, 24), RAIL, RAIL, END)
    case("two-floors-rail-hall", refused(2, 24), RAIL, HALL, END)
    case("two-floors-hall-hall", refused(2, 12), HALL, HALL, END)
    case("two-floors-hall-rail", refused(2, 12), HALL, RAIL, END)
    case("carrier-before-floor", refused(2, 0), carrier(0, 0), RAIL, END)
    case("end-before-floor", refused(2, 0), END, RAIL)
    case("leg-more-than-counted", refused(2, 12),
         rail(3, [(0, 1, 1), (1, 2, 1)], count=1), END)
    case("entry-more-than-counted", refused(2, 34), RAIL,
         carrier(0, 2, [0, 1, 2], count=1), END)
    case("cells-byte-more", refused(2, 12), hall(3, 3, bits=bytes(3)), END)

    # Numbers and cells that look like marks are not marks.
    ca, en, rf = (int.from_bytes(m, "little") for m in (b"CA", b"EN", b"RF"))
    case("lengths-that-spell-marks", read_line("rail", 3, 3, 1, 0),
         rail(3, [(0, 1, ca), (1, 0, en), (1, 2, rf)]), carrier(0, 0), END)
    case("pitches-and-cells-that-spell-marks", read_line("hall", 16, 12, 1, 0),
         hall(4, 4, across=ca, down=en, bits=b"EN"), carrier(0, 0), END)


def rail_cases():
    def one(places, *legs):
        return rail(places, legs) + END

    for places in (1, 2, 255, 256, 1023, 1024):
        case(f"rail-places-{places}", read_line("rail", places, 0),
             rail(places), END)
    for places in (0, 1025, 1026, 1280, 2048, 32768, 65535):
        case(f"rail-places-{places}", refused(3, 2), rail(places), END)
    for count in (4097, 4098, 8192, 32768, 65535):
        case(f"rail-leg-count-{count}", refused(3, 4), rail(1024, count=count))
    case("rail-leg-count-4097-and-an-end", refused(3, 4),
         rail(1024, count=4097), END)
    case("rail-places-0-leg-count-4097", refused(3, 2), rail(0, count=4097))
    case("rail-leg-count-one-high", refused(3, 12),
         rail(3, [(0, 1, 1)], count=2), END, bytes(4))
    case("rail-leg-count-one-high-at-the-end", refused(3, 12),
         rail(3, [(0, 1, 1)], count=2), END)

    case("rail-1-place-with-a-leg", refused(4, 6), one(1, (0, 0, 1)))
    case("rail-from-last", read_line("rail", 3, 1), one(3, (2, 0, 1)))
    case("rail-from-one-out", refused(3, 6), one(3, (3, 0, 1)))
    case("rail-from-65535", refused(3, 6), one(3, (65535, 0, 1)))
    case("rail-from-256-of-3", refused(3, 6), one(3, (256, 1, 1)))
    case("rail-from-1024-of-1024", refused(3, 6), one(1024, (1024, 0, 1)))
    case("rail-from-1023-of-1024", read_line("rail", 1024, 1),
         one(1024, (1023, 1022, 1)))
    case("rail-from-out-in-second-leg", refused(3, 12),
         one(3, (0, 1, 1), (3, 1, 1)))
    case("rail-to-last", read_line("rail", 3, 1), one(3, (0, 2, 1)))
    case("rail-to-one-out", refused(3, 8), one(3, (0, 3, 1)))
    case("rail-to-65535", refused(3, 8), one(3, (0, 65535, 1)))
    case("rail-to-256-of-3", refused(3, 8), one(3, (0, 256, 1)))
    case("rail-to-1024-of-1024", refused(3, 8), one(1024, (0, 1024, 1)))
    case("rail-to-1023-of-1024", read_line("rail", 1024, 1),
         one(1024, (1022, 1023, 1)))
    case("rail-to-out-in-second-leg", refused(3, 14),
         one(3, (0, 1, 1), (1, 3, 1)))
    for length in (1, 255, 256, 65535):
        case(f"rail-length-{length}", read_line("rail", 2, 1),
             one(2, (0, 1, length)))
    case("rail-length-0", refused(3, 10), one(2, (0, 1, 0)))
    case("rail-length-0-in-second-leg", refused(3, 16),
         one(2, (0, 1, 1), (1, 0, 0)))
    case("rail-length-0-in-last-of-three", refused(3, 22),
         one(3, (0, 1, 1), (1, 0, 1), (1, 2, 0)))

    # The order of legs.
    case("legs-from-falls", refused(4, 12), one(3, (1, 0, 1), (0, 1, 1)))
    case("legs-from-falls-to-rises", refused(4, 12),
         one(3, (1, 0, 1), (0, 2, 1)))
    case("legs-from-falls-in-third", refused(4, 18),
         one(3, (0, 1, 1), (2, 0, 1), (1, 2, 1)))
    case("legs-to-falls", refused(4, 12), one(3, (0, 2, 1), (0, 1, 1)))
    case("legs-to-falls-in-third", refused(4, 18),
         one(3, (0, 1, 1), (2, 1, 1), (2, 0, 1)))
    case("legs-equal", refused(4, 12), one(3, (0, 1, 1), (0, 1, 1)))
    case("legs-equal-other-length", refused(4, 12),
         one(3, (0, 1, 1), (0, 1, 2)))
    case("legs-first-again-as-third", refused(4, 18),
         one(3, (0, 1, 1), (0, 2, 1), (0, 1, 1)))
    case("legs-to-falls-as-from-rises", read_line("rail", 3, 2),
         one(3, (0, 2, 1), (1, 0, 1)))
    case("legs-lengths-fall", read_line("rail", 3, 3),
         one(3, (0, 1, 9), (0, 2, 8), (1, 0, 7)))
    case("legs-from-255-then-256", read_line("rail", 300, 2),
         one(300, (255, 0, 1), (256, 0, 1)))
    case("legs-from-256-then-255", refused(4, 12),
         one(300, (256, 0, 1), (255, 0, 1)))
    case("legs-from-1-then-256", read_line("rail", 300, 2),
         one(300, (1, 0, 1), (256, 0, 1)))
    case("legs-from-256-then-1", refused(4, 12),
         one(300, (256, 0, 1), (1, 0, 1)))
    case("legs-to-2-then-256", read_line("rail", 300, 2),
         one(300, (0, 2, 1), (0, 256, 1)))
    case("legs-to-256-then-2", refused(4, 12),
         one(300, (0, 256, 1), (0, 2, 1)))
    case("legs-from-0-to-1023-then-from-1-to-0", read_line("rail", 1024, 2),
         one(1024, (0, 1023, 1), (1, 0, 1)))
    case("legs-from-1-to-0-then-from-0-to-1023", refused(4, 12),
         one(1024, (1, 0, 1), (0, 1023, 1)))
    case("legs-0-0-is-not-above-nothing", refused(4, 6), one(2, (0, 0, 5)))
    case("self-leg-first", refused(4, 6), one(3, (1, 1, 1)))
    case("self-leg-second", refused(4, 12), one(3, (0, 1, 1), (1, 1, 1)))
    case("self-leg-last-place", refused(4, 12), one(3, (0, 1, 1), (2, 2, 1)))
    case("self-leg-1023", refused(4, 6), one(1024, (1023, 1023, 1)))
    case("self-leg-and-out-of-order", refused(4, 12),
         one(3, (1, 2, 1), (0, 0, 1)))
    case("legs-same-low-byte-not-self", read_line("rail", 300, 2),
         one(300, (1, 257, 1), (257, 1, 1)))

    # 4 is tested at `to`: after its range and before the length.
    case("self-leg-length-0", refused(4, 6), one(3, (1, 1, 0)))
    case("legs-equal-length-0", refused(4, 12), one(3, (0, 1, 1), (0, 1, 0)))
    case("legs-from-falls-length-0", refused(4, 12),
         one(3, (1, 0, 1), (0, 1, 0)))
    case("self-leg-length-missing", refused(4, 6), one(3, (1, 1, 1))[:10])
    case("self-leg-length-half", refused(4, 6), one(3, (1, 1, 1))[:11])
    case("self-leg-to-half", refused(1, 0), one(3, (1, 1, 1))[:9])
    case("legs-to-falls-length-missing", refused(4, 12),
         one(3, (0, 2, 1), (0, 1, 1))[:16])
    case("legs-from-falls-to-missing", refused(1, 0),
         one(3, (1, 0, 1), (0, 1, 1))[:14])
    case("legs-from-falls-to-out", refused(3, 14),
         one(3, (1, 0, 1), (0, 3, 1)))
    case("leg-from-and-to-both-one-out", refused(3, 6), one(3, (3, 3, 1)))
    case("leg-from-and-to-both-65535", refused(3, 6),
         one(3, (65535, 65535, 0)))
    case("leg-from-and-to-out-after-higher-from", refused(3, 12),
         one(3, (2, 1, 1), (3, 3, 0)))
    case("leg-to-and-length-out", refused(3, 8), one(3, (0, 3, 0)))
    case("length-0-before-legs-equal", refused(3, 10),
         one(3, (0, 1, 0), (0, 1, 1)))
    case("legs-equal-before-a-length-0", refused(4, 12),
         one(3, (0, 1, 1), (0, 1, 1), (1, 0, 0)))

    complete = [(a, b, 10 * a + b + 1)
                for a in range(5) for b in range(5) if a != b]
    case("rail-complete-5", read_line("rail", 5, 20), rail(5, complete), END)
    row = [(31, b, b + 1) for b in range(64) if b != 31]
    case("rail-63-exits-from-one-place", read_line("rail", 64, 63),
         rail(64, row), END)
    column = [(a, 31, a + 1) for a in range(64) if a != 31]
    case("rail-63-ways-into-one-place", read_line("rail", 64, 63),
         rail(64, column), END)
    case("rail-ring-of-32", read_line("rail", 32, 64),
         rail(32, both_ways(*((p, (p + 1) % 32, 40) for p in range(32)))), END)


def hall_cases():
    def open_hall(w, h):
        return read_line("hall", w * h, 2 * ((w - 1) * h + w * (h - 1)))

    sizes = [(1, 1), (1, 2), (2, 1), (2, 2), (1, 7), (7, 1), (1, 8), (8, 1),
             (1, 9), (9, 1), (3, 3), (4, 2), (2, 4), (6, 4), (1, 1024),
             (1024, 1), (32, 32)]
    for w, h in sizes:
        case(f"hall-{w}x{h}", open_hall(w, h), hall(w, h), END)
        case(f"hall-{w}x{h}-all-blocked", read_line("hall", w * h, 0),
             hall(w, h, range(w * h)), END)
    for w, h in ((1023, 1), (2, 512), (512, 2), (31, 33)):
        case(f"hall-{w}x{h}", open_hall(w, h), hall(w, h), END)

    # Width, height and their product out of range.
    for w in (0, 1025, 1026, 1280, 32768, 65535):
        case(f"hall-width-{w}", refused(3, 2), hall(w, 1, bits=b"\0"), END)
    for h in (0, 1025, 1026, 1280, 32768, 65535):
        case(f"hall-height-{h}", refused(3, 4), hall(1, h, bits=b"\0"), END)
    case("hall-1024-wide-0-high", refused(3, 4), hall(1024, 0, bits=b""), END)
    case("hall-0-by-0", refused(3, 2), hall(0, 0, bits=b""), END)
    case("hall-1025-by-1025", refused(3, 2), hall(1025, 1025, bits=b""), END)
    above = [(33, 32), (32, 33), (41, 25), (25, 41), (205, 5), (5, 205),
             (2, 513), (513, 2), (1024, 2), (2, 1024), (3, 342), (342, 3),
             (1023, 2), (1024, 1024),
             # products that a number of two bytes cannot hold
             (256, 256), (257, 255), (1024, 64), (64, 1024), (1024, 65),
             (65, 1024), (331, 198), (512, 128), (128, 513)]
    for w, h in above:
        case(f"hall-{w}x{h}", refused(3, 4), hall(w, h, bits=bytes(4)), END)
    case("hall-33x32-whole", refused(3, 4), hall(33, 32), END)
    case("hall-33x32-ends-at-height", refused(3, 4),
         hall(33, 32, bits=b"")[:6])
    case("hall-33x32-across-0", refused(3, 4),
         hall(33, 32, across=0, bits=b""), END)

    # The pitches.
    for pitch in (1, 255, 256, 65535):
        case(f"hall-across-{pitch}", read_line("hall", 4, 8),
             hall(2, 2, across=pitch), END)
        case(f"hall-down-{pitch}", read_line("hall", 4, 8),
             hall(2, 2, down=pitch), END)
    case("hall-across-0", refused(3, 6), hall(2, 2, across=0), END)
    case("hall-down-0", refused(3, 8), hall(2, 2, down=0), END)
    case("hall-across-0-down-0", refused(3, 6),
         hall(2, 2, across=0, down=0), END)
    case("hall-across-0-one-column", refused(3, 6),
         hall(1, 4, across=0), END)
    case("hall-down-0-one-row", refused(3, 8), hall(4, 1, down=0), END)
    case("hall-down-0-and-spare-bit", refused(3, 8),
         hall(2, 2, down=0, bits=b"\x10"), END)

    # Spare bits: one at a time, for each number of cells in the last byte.
    for used in range(1, 8):
        for bit in range(used, 8):
            case(f"hall-{used}x1-spare-bit-{bit}", refused(3, 10),
                 hall(used, 1, bits=bytes([1 << bit])), END)
        case(f"hall-{used}x1-all-bits", refused(3, 10),
             hall(used, 1, bits=b"\xff"), END)
    for bit in range(1, 8):
        case(f"hall-3x3-spare-bit-{bit}", refused(3, 11),
             hall(3, 3, bits=bytes([0, 1 << bit])), END)
    for bit in range(4, 8):
        case(f"hall-10x10-spare-bit-{bit}", refused(3, 22),
             hall(10, 10, bits=bytes(12) + bytes([1 << bit])), END)
    case("hall-1023x1-spare-bit-7", refused(3, 137),
         hall(1023, 1, bits=bytes(127) + b"\x80"), END)
    case("hall-3x3-blocked-and-spare-bit", refused(3, 11),
         hall(3, 3, bits=b"\xff\x81"), END)
    case("hall-3x3-spare-bit-and-no-end", refused(3, 11),
         hall(3, 3, bits=b"\0\x80"))
    case("hall-3x3-spare-bit-and-unknown-mark", refused(3, 11),
         hall(3, 3, bits=b"\0\x80"), b"ZZ")
    case("hall-4x4-has-no-spare-bits", read_line("hall", 16, 0),
         hall(4, 4, bits=b"\xff\xff"), END)

    # The legs of halls with blocked cells; a picture has "#" for blocked.
    def drawn(name, legs, *rows):
        cells = "".join(rows)
        w, h = len(rows[0]), len(rows)
        case(f"hall-drawn-{name}", read_line("hall", w * h, legs),
             hall(w, h, [c for c, s in enumerate(cells) if s == "#"]), END)

    drawn("hole", 16, "...", ".#.", "...")
    drawn("corner", 20, "#..", "...", "...")
    drawn("last-corner", 20, "...", "...", "..#")
    drawn("cross", 0, ".#.", "###", ".#.")
    drawn("board", 0, ".#.#", "#.#.", ".#.#", "#.#.")
    drawn("wall", 18, "..#..", "..#..", "##.##", "..#.#")
    drawn("row-end-is-not-beside-next-row", 0, "###.", ".###")
    drawn("one-above-the-other", 2, "###.", "###.")
    drawn("side-by-side", 2, "##..", "####")
    drawn("corners-only-touch", 0, ".#", "#.")
    drawn("one-open-in-a-row", 0, "####.####")
    drawn("gap-in-a-column", 4, ".", ".", "#", ".", ".")
    drawn("snake", 32, ".....", "####.", ".....", ".####", ".....")
    drawn("comb", 28, ".......", ".#.#.#.", ".#.#.#.")
    drawn("six-by-four", 54, "......", ".##...", "....#.", "......")
    case("hall-32x32-board", read_line("hall", 1024, 0),
         hall(32, 32, [c for c in range(1024) if (c + c // 32) % 2]), END)
    case("hall-32x32-every-second-row", read_line("hall", 1024, 16 * 62),
         hall(32, 32, [c for c in range(1024) if c // 32 % 2]), END)
    case("hall-32x32-every-second-column", read_line("hall", 1024, 16 * 62),
         hall(32, 32, [c for c in range(1024) if c % 2]), END)
    case("hall-1x1024-last-blocked", read_line("hall", 1024, 2044),
         hall(1, 1024, [1023]), END)
    case("hall-1024x1-first-blocked", read_line("hall", 1024, 2044),
         hall(1024, 1, [0]), END)
    case("hall-1024x1-middle-blocked", read_line("hall", 1024, 2042),
         hall(1024, 1, [512]), END)


def carrier_cases():
    floors = [("rail", RAIL, RAIL_3, 3), ("hall", HALL, HALL_9, 9),
              ("rail-1024", rail(1024), ("rail", 1024, 0), 1024)]
    for name, floor, line, n in floors:
        c = len(floor)
        case(f"{name}-carrier-no-path", read_line(*line, 1, 0),
             floor, carrier(0, n - 1), END)
        case(f"{name}-carrier-last-place", read_line(*line, 1, 2),
             floor, carrier(n - 1, n - 1, [n - 1, n - 1]), END)
        for word, out in (("one-out", n), ("65535", 65535)):
            case(f"{name}-start-{word}", refused(3, c + 2),
                 floor, carrier(out, 0, [0]), END)
            case(f"{name}-goal-{word}", refused(3, c + 4),
                 floor, carrier(0, out, [0]), END)
            case(f"{name}-first-entry-{word}", refused(3, c + 8),
                 floor, carrier(0, 0, [out, 0]), END)
            case(f"{name}-last-entry-{word}", refused(3, c + 12),
                 floor, carrier(0, 0, [0, 1, out]), END)
            case(f"{name}-start-{word}-second-carrier", refused(3, c + 12),
                 floor, carrier(0, 0, [0]), carrier(out, 0), END)
    case("carrier-start-goal-and-count-out", refused(3, 26), RAIL,
         carrier(3, 3, count=2049), END)
    case("carrier-goal-and-count-out", refused(3, 28), RAIL,
         carrier(0, 3, count=65535), END)
    case("carrier-count-and-entries-out", refused(3, 30), RAIL,
         carrier(0, 0, [3, 3], count=2049), END)
    case("carrier-entry-out-then-end-missing", refused(3, 34), RAIL,
         carrier(0, 0, [0, 3, 0], count=4))
    case("carrier-count-one-high", refused(3, 34), RAIL,
         carrier(0, 0, [0], count=2), END)
    case("carrier-count-one-high-before-a-carrier", refused(3, 22), HALL,
         carrier(0, 0, [0], count=2), carrier(0, 0), END)
    case("hall-1x1-carrier", read_line("hall", 1, 0, 1, 1),
         hall(1, 1), carrier(0, 0, [0]), END)
    case("hall-1x1-start-1", refused(3, 13), hall(1, 1), carrier(1, 0), END)
    case("hall-32x32-carrier-1023", read_line("hall", 1024, 3968, 1, 2),
         hall(32, 32), carrier(1023, 1023, [1023, 1022]), END)
    case("hall-32x32-entry-1024", refused(3, 148),
         hall(32, 32), carrier(1023, 1023, [1023, 1024]), END)

    # The reader takes paths as they are.
    case("hall-carrier-on-blocked-cells", read_line("hall", 9, 0, 1, 3),
         hall(3, 3, range(9)), carrier(0, 8, [0, 4, 8]), END)
    case("path-without-legs", read_line("rail", 3, 0, 1, 3),
         rail(3), carrier(0, 2, [0, 1, 2]), END)
    case("path-not-from-start-to-goal", read_line(*RAIL_3, 1, 2), RAIL,
         carrier(0, 2, [1, 1]), END)
    case("two-carriers-alike", read_line(*RAIL_3, 2, 4), RAIL,
         carrier(0, 1, [0, 1]), carrier(0, 1, [0, 1]), END)

    # 32 carriers and the 33rd.
    for name, floor, line in (("rail", RAIL, RAIL_3), ("hall", HALL, HALL_9)):
        full = floor + carrier(0, 0) * 32
        at = len(full)
        case(f"{name}-32-carriers", read_line(*line, 32, 0), full, END)
        case(f"{name}-33-carriers", refused(3, at), full, carrier(0, 0), END)
        case(f"{name}-33rd-mark-only", refused(3, at), full, b"CA")
    full = rail(1) + carrier(0, 0) * 32
    at = len(full)
    case("31-carriers", read_line("rail", 1, 0, 31, 0),
         rail(1), carrier(0, 0) * 31, END)
    case("32-carriers-no-end", refused(1, at), full)
    case("32-carriers-more", refused(5, at + 2), full, END, b"C")
    case("33rd-start-half", refused(3, at), full, b"CA\xff")
    case("33rd-start-out", refused(3, at), full, carrier(65535, 0), END)
    case("33rd-mark-of-a-floor", refused(2, at), full, rail(1), END)

    # 2048 entries and more. A count above what is left is refused before any
    # entry, so no entries have to stand behind it.
    case("entries-2048-in-one", read_line(*RAIL_3, 1, 2048), RAIL,
         carrier(0, 1, [k % 3 for k in range(2048)]), END)
    for count in (2049, 2050, 2304, 4096, 32768, 65535):
        case(f"rail-entry-count-{count}", refused(3, 30), RAIL,
             carrier(0, 0, count=count), END)
        case(f"hall-entry-count-{count}", refused(3, 18), HALL,
             carrier(0, 0, count=count))
    case("entry-count-2049-of-two-carriers", refused(3, 42), RAIL,
         carrier(0, 1, [0, 1]), carrier(0, 0, count=2047), END)
    case("entry-count-2048-of-two-carriers", refused(1, 36), RAIL,
         carrier(0, 1, [0, 1]), carrier(0, 0, count=2046))
    case("entry-count-2049-of-four-carriers", refused(3, 52), HALL,
         carrier(0, 1, [0, 1]), carrier(8, 8), carrier(0, 2, [0, 1, 2]),
         carrier(0, 0, [0] * 4, count=2044), END)
    case("entry-count-2048-after-no-path", refused(1, 32), RAIL,
         carrier(0, 0), carrier(0, 0, count=2048))
    case("entry-count-2048-after-1", refused(3, 28), HALL,
         carrier(0, 0, [0]), carrier(0, 0, count=2048))
    # totals that a number of two bytes cannot hold
    case("entry-count-65535-after-1", refused(3, 40), RAIL,
         carrier(0, 0, [0]), carrier(0, 0, count=65535), END)
    case("entry-count-65535-after-3", refused(3, 32), HALL,
         carrier(0, 0, [0, 1, 2]), carrier(0, 0, count=65535), END)
    case("entry-count-65534-after-2", refused(3, 42), RAIL,
         carrier(0, 1, [0, 1]), carrier(0, 0, count=65534), END)


def end_cases():
    for name, floor in (("rail", RAIL), ("hall", HALL)):
        at = len(floor) + 2
        case(f"{name}-bare", read_line(*(RAIL_3 if name == "rail" else HALL_9)),
             floor, END)
        for more in (b"\0", b"\n", b"\xff", b"E", b"EN", b"CA", b"RF",
                     carrier(0, 0) + END, floor + END, bytes(40)):
            case(f"{name}-end-then-{more[:8].hex()}-{len(more)}",
                 refused(5, at), floor, END, more)
        case(f"{name}-carrier-end-then-00", refused(5, at + 10),
             floor, carrier(0, 0, [1]), END, b"\0")


def longest_cases():
    """The longest sound file: 4096 legs, 32 carriers, 2048 entries. Place 511
    has a leg to each of the 1023 others."""
    ways = {(p, (p + d) % 1024) for p in range(1024) for d in (1, 2, 1023)}
    ways |= {(511, q) for q in range(1024) if q != 511}
    ways |= {(p, p + 300) for p in range(4)}
    legs = [(p, q, (977 * p + 37 * q) % MOST + 1) for p, q in sorted(ways)]
    assert len(legs) == MOST_LEGS
    parts = [rail(1024, legs)]
    for k in range(32):
        path = [(k * 33 + t) % 1024 for t in range(64)]
        parts.append(carrier(path[0], path[-1], path))
    longest = b"".join(parts) + END
    assert len(longest) == 28936
    case("longest", read_line("rail", 1024, 4096, 32, 2048), longest)
    case("longest-cut-by-one", refused(1, 28934), longest[:-1])
    case("longest-then-zeros-to-65536-bytes", refused(5, 28936),
         longest, bytes(65536 - 28936))


def stored_cases():
    """The cases of corpus.tsv beside this file: name, hex, and the refusal, or
    the word `read` for a file that is not refused; the line of such a file is
    the reference reader's."""
    for line in (Path(__file__).parent / "corpus.tsv").read_text().splitlines():
        name, text, stored = line.split("\t")
        data = bytes.fromhex(text)
        line = answer(data)
        if stored == "read" and line.startswith("plan read "):
            stored = line
        case(name, stored, data)


def all_cases():
    """All cases, each tested against the reference reader."""
    CASES.clear()
    for add in (smallest_cases, cut_cases, mark_cases, rail_cases, hall_cases,
                carrier_cases, end_cases, longest_cases, stored_cases):
        add()
    names = set()
    for name, data, expected in CASES:
        if name in names:
            sys.exit(f"two cases have the name {name}")
        names.add(name)
        if answer(data) != expected:
            sys.exit(f"{name}: expected {expected!r}, read {answer(data)!r}")
    return CASES


if __name__ == "__main__":
    sys.stdout.write("".join(f"{name}\t{data.hex()}\t{expected}\n"
                             for name, data, expected in all_cases()))
