#!/usr/bin/env python3
"""Writes crates/shelf_cases/stdin and stdout: requests to shelves, and the answers by shelf.py.

Nothing comes from our own programs. The requests: every bound of an opening; every refusal of the state, each at its place and
one step before it; 64 groups and the 65th; three strips and the fourth head; a group released to nought and filed again; the
last number; a shelf that was opened with 37; recordings disguised in every kind of image and both orders, which meet in one
group; rows, work bytes and room that just suffice and are one too few; lines that are no request; and random histories of calls
over few recordings. That disguises meet in one group is asserted here, and that every answer of the rules but 35 is there.

Usage: python3 tools/make_shelf_cases.py, from the top of the repository.
"""

import collections
import pathlib
import random

import heads
import shelf
from disguises import RECORDINGS, kinds
from images import entry, feature, file_image, head_image, pipe_image
from lines import Build

EMPTY = head_image()


def file(image, *lent):
    return " ".join(["file", "x" + image.hex(), *map(str, lent)])


def named(number):
    """A recording of its own for each number: the memory of its machine. Its head has 19 bytes."""
    return file_image("<", {10: number.to_bytes(8, "little")})


NAMED = len(heads.image_head(named(0)))


def openings():
    for strip in (0, 1, 4, 5, 6, 65_535, 65_536, 65_537, 2**63, 2**64 - 1):
        for size in (0, strip - 1, strip, 2 * strip - 1, 2 * strip, 4_194_304):
            if 0 <= size < 2**64:
                yield f"open {strip} 1 {size}"
    for first in (0, 1, 2**32 - 1, 2**32, 2**32 + 1, 2**64 - 1):
        yield f"open 5 {first} 5"
        yield file(EMPTY)
    for size in (63 * 16, 64 * 16 - 1, 64 * 16, 65 * 16, 2**64 - 1):
        yield f"open 16 1 {size}"


def no_requests():
    yield "open 100 1 1000"
    yield file(EMPTY)
    words = ["open", "file", "release", "count", "show"]
    yield from words + [word + " " for word in words] + [word + "  1" for word in words] + [" " + word + " 1" for word in words]
    yield from ["", " ", "close 1", "Count 1", "count1", "count x", "count -1", "count +1", "count 1 ", "count 1 1", "count \t1"]
    yield from ["count 18446744073709551616", "count 18446744073709551615", "count 00001", "count 0x1", "count 1.", "count \u0661"]
    yield from ["release 1 1", "release one", "show 1 2 3", "show 1 ", "show 1 -1", "show 1 two", "open 5 1", "open 5 1 5 5"]
    yield from ["open 5 1 18446744073709551616", "open a b c", "open -5 1 5", "file x0", "file xg0", "file xFF", "file x 1"]
    yield from [file(EMPTY, 1), file(EMPTY, 1, 2, 3), file(EMPTY, 1, ""), file(EMPTY, 65_537, 1), file(EMPTY, "a", 1)]
    yield from [file(EMPTY, 65_536, 2**64), file(EMPTY, -1, 100), "file ./no-such-file", "file ./no-such-file 1 x", "file no/such"]
    # none of them has touched the shelf
    yield from ["count 1", "show 1", "show 1 5", "show 1 4", file(EMPTY, 65_536, 2**64 - 1), "count 1"]


def refusals():
    yield f"open {NAMED} 7 {4 * NAMED}"
    yield from ["count 7", "release 7", "show 7", "count 0", "release 0", "show 0 0"]
    yield from [file(named(1)), "count 7", "show 7", f"show 7 {NAMED - 1}", f"show 7 {NAMED}", f"show 7 {NAMED + 1}", "show 8 0"]
    yield from [f"{call} {group}" for call in ("count", "release", "show") for group in (0, 6, 8, 2**32 - 1, 2**32 + 7, 2**64 - 1)]
    # 32: a head one byte longer than a strip, and one work byte too few
    long = file_image("<", {3: Build(random.Random(1), "le").header_text(b"a" * (NAMED - 5 - 6 - 4 + 1))})
    assert len(heads.image_head(long)) == NAMED + 1
    yield from [file(long), file(named(1), 0, NAMED - 1), file(named(2), 0, NAMED - 1), file(named(1), 0, NAMED), "count 7"]
    # the head's own refusals come first, then 32, then those of the state
    second = file_image("<", {132: b"", 10: bytes(8)})
    names = file_image("<", {16: Build(random.Random(1), "le").pmu_mappings([(1, b"a"), (2, b"b")])})
    for image in (b"", b"PRH", b"PRH\2\0", second, file_image("<", {10: bytes(7)}), names):
        for rows in (0, 1, 2):
            yield file(image, rows, 0)
            yield file(image, rows, NAMED)
    # 33 before 36, and for a head that is held neither
    yield f"open {NAMED} {2**32 - 2} {2 * NAMED}"
    yield from [file(named(number)) for number in (1, 2, 3, 1, 2)]
    yield from [f"release {2**32 - 1}", file(named(3)), f"release {2**32 - 1}", file(named(3)), file(named(2)), file(named(1))]
    yield from [f"count {2**32 - 1}", f"count {2**32 - 2}"] + [f"release {2**32 - 2}"] * 4 + [file(named(1))]
    # the last number, with a strip free
    yield f"open 5 {2**32 - 1} 10"
    yield from [file(EMPTY), file(EMPTY), f"count {2**32 - 1}", f"release {2**32 - 1}", f"release {2**32 - 1}", file(EMPTY)]
    # a shelf that was opened with 37
    for refused in ("open 4 1 100", "open 100 1 99", "open 100 0 100"):
        yield refused
        yield from [file(EMPTY), file(named(1)), file(second), file(b""), "count 1", "release 1", "show 1", "count 0"]


def full():
    yield f"open {NAMED} 1 {64 * NAMED}"
    yield from [file(named(number)) for number in range(65)]
    yield from [file(named(63)), "count 64", "count 65", "release 33", file(named(64)), file(named(32)), "count 33", "show 65"]
    yield f"open {NAMED} 1 {3 * NAMED + NAMED - 1}"
    yield from [file(named(number)) for number in range(4)]
    yield f"open {NAMED} 1 {1000 * NAMED}"
    yield from [file(named(number)) for number in range(65)]


def nought():
    yield f"open 100 1 200"
    yield from [file(named(1)), file(named(1)), "release 1", "count 1", "release 1", "count 1", "release 1", "show 1"]
    # a new number, and nothing of the head before it behind a shorter one
    yield from [file(EMPTY), "show 2", file(named(1)), "show 3", "release 2", file(named(2)), "show 4", "show 3"]
    yield from ["release 3", "count 4"]


def meetings(rng):
    for recording in RECORDINGS:
        given = list(kinds(recording, rng))
        head = heads.image_head(given[0])
        assert all(heads.image_head(image) == head for image in given)
        rows = 64
        yield f"open {len(head)} 9 {2 * len(head)}"
        yield from [file(image, rows, len(head)) for image in given] + [file(head, rows, len(head))]
        yield from ["count 9", "show 9"]


def histories(rng):
    pool = [[image for image in kinds(recording, rng)] for recording in RECORDINGS[:5]] + [[named(number)] for number in range(4)]
    pool += [[file_image(">", {10: b""})], [b"PERFILE2"], [pipe_image("<", feature("<", 132, b""))]]
    pool += [[head_image(entry(19, b"any"))]]
    for _ in range(12):
        strip, first = rng.choice([5, 19, 60, 200]), rng.choice([1, 1, 2**32 - 5])
        yield f"open {strip} {first} {strip * rng.randrange(1, 5)}"
        groups = [first + number for number in range(6)]
        some = rng.sample(pool, 6)
        for _ in range(30):
            call = rng.choice(["file", "file", "file", "release", "release", "count", "show"])
            if call == "file":
                lent = rng.choice([(), (), (64, 200), (1, 60), (0, 19)])
                yield file(rng.choice(rng.choice(some)), *lent)
            elif call == "show":
                yield f"show {rng.choice(groups)}" + rng.choice(["", " 19", " 5", " 60"])
            else:
                yield f"{call} {rng.choice(groups)}"


def kind(reply):
    words = reply.split(" ")
    return " ".join(words[:2]) if words[0] in ("refused", "bad", "cannot") else words[0]


KINDS = {"opened", "group", "released", "count", "head", "bad line", "cannot read"}
KINDS |= {f"refused {number}" for number in (1, 2, 6, 16, 31, 32, 33, 34, 36, 37)}


def write_cases(rng):
    requests = [*openings(), *no_requests(), *refusals(), *full(), *nought(), *meetings(rng), *histories(rng)]
    replies = list(shelf.answers(requests, again=True))
    assert len(replies) == len(requests)
    for at, request in enumerate(requests):
        if request.startswith("open") and " 9 " in request and replies[at].startswith("opened"):
            assert replies[at + 1 : at + 8] == ["group 9"] * 6 + ["count 6"]
    seen = collections.Counter(map(kind, replies))
    assert KINDS <= set(seen), KINDS - set(seen)
    folder = pathlib.Path("crates/shelf_cases")
    (folder / "stdin").write_text("".join(request + "\n" for request in requests))
    (folder / "stdout").write_text("".join(reply + "\n" for reply in replies))
    print(f"{len(requests)} requests:", ", ".join(f"{count} {name}" for name, count in sorted(seen.items())))


if __name__ == "__main__":
    write_cases(random.Random(9))
