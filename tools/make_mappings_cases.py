#!/usr/bin/env python3
"""Writes the cases of the crate mappings_cases: crates/mappings_cases/stdin and stdout.

Each line of stdin has a question, a byte order, a number of rows and the bytes of a section. The line of stdout that belongs
to it is the answer by the rules of docs/FORMATS.md and docs/REFUSALS.md, as this script reads them: with struct, bytes.split,
bytes.decode, a dict and sorted. Nothing comes from our own program.

The cases: empty sections, lone NULs, no rows at all, as many rows as keys, one too few, a fault behind the place where the
rows ran out, equal keys, keys that begin one another, bytes above 7F, counts of FFFFFFFF, names that are skipped, both byte
orders, good sections cut at every byte, and damaged copies of them.

Usage: python3 tools/make_mappings_cases.py, from the top of the repository.
"""

import random
import struct
from pathlib import Path

SIGN = {"little": "<", "big": ">"}


class Refused(Exception):
    pass


def well_formed(text):
    try:
        text.decode("utf-8")
    except UnicodeDecodeError:
        return False
    return True


def pmu(order, section):
    """The table of PMU_MAPPINGS: numbers with their names."""

    def number(at):
        if len(section) < at + 4:
            raise Refused(f"refused 11 2 16 {at}")
        return struct.unpack_from(SIGN[order] + "I", section, at)[0]

    table, at = {}, 4
    for _ in range(number(0)):
        key, length = number(at), number(at + 4)
        at += 8
        if at + length > len(section):
            raise Refused(f"refused 11 2 16 {at}")
        name = section[at : at + length].split(b"\0")[0]
        at += length
        if well_formed(name):
            table[key] = name
    return table


def meta(order, section):
    """The table of META_INFO: keys with their values."""
    pieces, at = [], 0
    for piece in section.split(b"\0"):
        pieces.append((at, piece))
        at += len(piece) + 1
    table = {}
    for key, value in zip(pieces[0::2], pieces[1::2]):
        for start, piece in (key, value):
            if not well_formed(piece):
                raise Refused(f"refused 10 2 129 {start}")
        table[key[1]] = value[1]
    return table


def answer(question, order, rows, section):
    if question.startswith("no-"):
        return "absent"
    try:
        table = {"pmu": pmu, "meta": meta}[question](order, section)
    except Refused as refused:
        return str(refused)
    if len(table) > rows:
        return f"refused 31 4 {16 if question == 'pmu' else 129} 0"
    line = f"rows {len(table)}"
    for key in sorted(table):
        shown = f"{key}" if question == "pmu" else f"x{key.hex()}"
        line += f" {shown}:x{table[key].hex()}"
    return line


cases = []


def case(question, order, rows, section):
    cases.append((question, order, rows, bytes(section)))


def names(order, items, count=None, behind=b""):
    """A section of PMU_MAPPINGS."""
    sign = SIGN[order]
    section = struct.pack(sign + "I", len(items) if count is None else count)
    for key, name in items:
        section += struct.pack(sign + "II", key, len(name)) + name
    return section + behind


GOOD_NAMES = [(4, b"cpu\0"), (1, b"software\0\0\0\0"), (0xFFFFFFFF, b""), (6, b"kprobe"), (4, b"c\0\xff"), (0, b"\xc3\xa9")]
GOOD_INFO = b"simpleperf_version\x001.build\x00a\x00b\x00ab\x00c\x00a\x00d\x00\xc3\xa9\x00e\x00a\x00\xf0\x9f\x98\x80"

random.seed(20161)

for order in ("little", "big"):
    # the rows, from none to more than enough
    for rows in range(8):
        case("pmu", order, rows, names(order, GOOD_NAMES))
        case("meta", order, rows, GOOD_INFO)
    # no section
    for rows in (0, 3):
        case("no-pmu", order, rows, names(order, GOOD_NAMES))
        case("no-meta", order, rows, GOOD_INFO)
    # every cut of a good section; what is cut from the end of meta info leaves it good
    section = names(order, GOOD_NAMES)
    for end in range(len(section) + 1):
        case("pmu", order, 5, section[:end])
    # counts
    for count in (0, 1, 2, 6, 7, 8, 255, 256, 0x01000000, 0x7FFFFFFF, 0xFFFFFFFF):
        case("pmu", order, 5, names(order, GOOD_NAMES, count))
        case("pmu", order, 0, names(order, [], count))
    case("pmu", order, 0, names(order, [], 0, b"\xff\xff\xff"))
    case("pmu", order, 5, names(order, GOOD_NAMES, None, b"\x01\x02\x03"))
    # lengths that end at the section, one past it, and far past it
    for length in (0, 1, 3, 4, 0xFFFFFFFF):
        case("pmu", order, 1, struct.pack(SIGN[order] + "III", 1, 9, length) + b"abc")
    # names that are skipped: they take no row and no key
    ill = b"\xff\xfe"
    for rows in (0, 1, 2):
        case("pmu", order, rows, names(order, [(3, ill)]))
        case("pmu", order, rows, names(order, [(3, b"a"), (3, ill)]))
        case("pmu", order, rows, names(order, [(3, ill), (3, b"a")]))
        case("pmu", order, rows, names(order, [(3, b"a"), (2, ill), (1, b"b")]))
        case("pmu", order, rows, names(order, [(3, ill + b"\0a"), (4, b"a\0" + ill)]))
    # a fault behind the place where the rows ran out
    for rows in (0, 1, 2):
        section = names(order, [(3, b"a"), (2, b"b"), (1, b"c")])
        case("pmu", order, rows, section[:-1])
        case("pmu", order, rows, names(order, [(3, b"a"), (2, b"b"), (1, b"c")], 4))
    # equal keys, rising, falling and mixed
    for keys in ([1, 2, 3], [3, 2, 1], [2, 2, 2], [1, 3, 1, 2, 3], [256, 1, 65536, 255], [0x80000000, 0x7FFFFFFF]):
        items = [(key, b"n%d" % i) for i, key in enumerate(keys)]
        for rows in (len(set(keys)), len(set(keys)) - 1):
            case("pmu", order, rows, names(order, items))

for end in range(len(GOOD_INFO) + 1):
    case("meta", "little", 5, GOOD_INFO[:end])

for section in (
    b"", b"\0", b"\0\0", b"\0\0\0", b"\0\0\0\0", b"a", b"a\0", b"a\0b", b"a\0b\0", b"a\0b\0a", b"a\0b\0a\0", b"a\0b\0a\0c",
    b"a\0b\0a\0c\0", b"\0a", b"\0a\0", b"\0a\0\0b", b"a\0\0a\0", b"b\0\0a\0", b"\xff", b"a\0b\0\xff", b"a\0b\0\xff\0",
    b"a\0b\0\xff\0\xff", b"a\0b\0c\0\xff", b"a\0b\0c\0\xff\0", b"a\0\xff\0b\0c", b"\xff\0a\0b\0c", b"\xff\0\xfe\0\0",
    b"a\0b\0c\0d\0e\0\xc3", b"a\0b\0c\0d\0\xc3\0e", b"a\0b\0\xc3\0(", b"\xed\xa0\x80\0a", b"a\0\xf4\x90\x80\x80",
    b"ab\0001\0a\0002\0abc\0003\0\0004\0", b"\x7f\0a\0\xc2\x80\0b\0\xf4\x8f\xbf\xbf\0c\0\xef\xbf\xbf\0d\0~\0e\0",
    b"k\0v1\0k\0v2\0k\0v3\0", b"k\0v\0k\0\0", b"a\0b\0c\0d\0e\0f\0g\0h\0",
):
    for rows in (0, 1, 2, 4):
        case("meta", random.choice(("little", "big")), rows, section)

# damaged copies
for _ in range(160):
    order = random.choice(("little", "big"))
    section = bytearray(names(order, random.choices(GOOD_NAMES, k=random.randrange(1, 6))))
    for _ in range(random.randrange(1, 4)):
        section[random.randrange(len(section))] = random.choice((0, 1, 2, 4, 0x61, 0x7F, 0x80, 0xC3, 0xFF))
    case("pmu", order, random.randrange(5), section)
for _ in range(160):
    section = bytearray(GOOD_INFO[: random.randrange(1, len(GOOD_INFO) + 1)])
    for _ in range(random.randrange(1, 4)):
        section[random.randrange(len(section))] = random.choice((0, 0, 0, 0x61, 0x62, 0x7F, 0x80, 0xC3, 0xFF))
    case("meta", random.choice(("little", "big")), random.randrange(8), section)

# many keys, with equal ones among them, in rows that are just enough and one too few
for _ in range(6):
    keys = [random.randrange(60) * random.choice((1, 0x1000000)) for _ in range(80)]
    items = [(key, b"n%d" % i) for i, key in enumerate(keys)]
    for rows in (len(set(keys)), len(set(keys)) - 1):
        case("pmu", "big", rows, names("big", items))
    words = [bytes(random.choices(b"ab", k=random.randrange(5))) for _ in range(60)]
    section = b"".join(word + b"\0v%d\0" % i for i, word in enumerate(words))
    for rows in (len(set(words)), len(set(words)) - 1):
        case("meta", "little", rows, section)

folder = Path("crates/mappings_cases")
with (folder / "stdin").open("w") as stdin, (folder / "stdout").open("w") as stdout:
    for question, order, rows, section in cases:
        print(f"{question} {order} {rows} x{section.hex()}", file=stdin)
        print(answer(question, order, rows, section), file=stdout)
print(len(cases), "cases")
