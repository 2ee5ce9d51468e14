#!/usr/bin/env python3
"""Writes crates/head_cases/stdin and stdout, and the sample of perf_head: images, and their heads by heads.py.

A line of stdin has a number of rows, the bytes of room and an image; the one of stdout that belongs to it has the head or
the refusal. Nothing comes from our own programs.

The cases: stores of nothing and of section 19 alone; recordings disguised in every kind of image and both orders, which all
have one head; each carried feature alone, good and with each fault that its section can have; feature 132; refusals that
stand against each other; rooms and rows that are one too few and just enough; heads of heads; tails of symbol records;
features that no head carries; damaged images; the two recordings of this repository; long tables and heads; random stores
of all features, some damaged. That disguises of a recording have one head is asserted here, and of every head in the
table that it answers the fifteen questions as its image does and is its own head.

Usage: python3 tools/make_head_cases.py, from the top of the repository.
"""

import collections
import itertools
import pathlib
import random

import heads
import images
from disguises import NOT_CARRIED, RECORDINGS, SIGN, kinds
from heads import QUESTIONS
from images import entry, feature, file_image, head_image, pipe_image
from lines import Build, damaged, random_section

FILE, PIPE = pathlib.Path("crates/perf_info/stdin"), pathlib.Path("samples/recording.pipe")
ROWS, ROOM = 64, 4_096
MOST_ROOM = 70_000


def rows_of(image):
    """As many rows as the largest table of an image takes."""
    answers = heads.answers(images.read_any(image), ROWS)
    return max([int(answer.split(" ")[1]) for _, answer in answers if answer.startswith("rows")], default=0)


def one_head(given):
    """The head that some images share; it answers as each of them does."""
    head = heads.image_head(given[0])
    for image in given:
        assert heads.image_head(image) == head
        assert heads.speaks(head, images.read_any(image), ROWS)
    return head


def disguised(rng):
    for recording in RECORDINGS:
        given = [image for _ in range(3) for image in kinds(recording, rng)]
        head = one_head(given)
        rows, room = rows_of(head), len(head)
        for image in given:
            yield rows, room, image
        for image in (head, *rng.sample(given, 2)):
            yield rows, room - 1, image
            if rows:
                yield rows - 1, room, image
                yield rows - 1, room - 1, image
        yield from ((rows, room, head), (ROWS, ROOM, head), (rows + 1, room + 1, head), (0, 0, head))


def small():
    for number in range(6):
        for image in kinds({}, random.Random(number)):
            yield 0, number, image
    for section, room in itertools.product((b"", b"any bytes"), (10, 11, 12)):
        for order in "<>":
            yield 0, room, file_image(order, {19: section})
            yield 0, room, pipe_image(order, feature(order, 19, section))
        yield 0, room, head_image(entry(19, section))


def store_image(rng, order, sections):
    """A store in one kind of image or the other."""
    sign = SIGN[order]
    if rng.random() < 0.5:
        return file_image(sign, sections)
    return pipe_image(sign, *[feature(sign, *each) for each in sections.items()])


def sections_of(rng, number, order):
    """A section of a feature, good or with some fault."""
    build = Build(rng, order, rng.choice([0, 0, 0.2]))
    section = random_section(rng, QUESTIONS[number], build)
    while rng.random() < 0.3:
        section = damaged(rng, section)
    return section


# The refusals of a section, with their layers.
FAULTS = {number: {(7, 2), (9, 2), (10, 2)} for number in (3, 4, 5, 6, 8, 9)} | {
    2: {(31, 4)}, 7: {(11, 2)}, 10: {(6, 2)}, 11: {(7, 2), (8, 2), (9, 2), (10, 2)}, 16: {(11, 2), (31, 4)}, 19: set(),
    23: {(6, 2)}, 128: {(6, 2), (11, 2), (10, 3), (11, 3), (13, 3), (14, 3), (15, 3)}, 129: {(10, 2), (31, 4)},
}


def alone(rng):
    for number in sorted(QUESTIONS):
        want = collections.Counter({kind: 3 for kind in FAULTS[number] | {None}})
        while want.total():
            order, rows = rng.choice(["le", "be"]), rng.choice([0, 1, 2, ROWS])
            image = store_image(rng, order, {number: sections_of(rng, number, order)})
            words = heads.line(image, rows, ROOM).split(" ")
            kind = tuple(map(int, words[1:3])) if words[0] == "refused" else None
            assert kind is None or (kind in FAULTS[number] and words[3] == str(number))
            if want[kind]:
                want[kind] -= 1
                yield rows, ROOM, image


def orders_of_refusals(rng):
    for order in ("le", "be"):
        build = Build(rng, order)
        ill, cut = build.header_text(b"\xff"), build.number(4, 9)
        many = build.pmu_mappings([(number, b"n") for number in range(4)])
        pairs, builds = b"a\0b\0c\0d\0", b"".join(build.build_id(path, 2, bytes(24)) for path in (b"/a", b"/b", b"/c"))
        stores = [
            # 132 comes before any fault of a section, and before 31 and 32
            {132: b""}, {132: b"files"}, {2: builds, 132: b""}, {3: ill, 132: b""}, {128: b"1", 132: b""},
            {129: b"\xff\0", 132: b""},
            # the first faulty feature by number
            {3: ill, 4: cut}, {3: cut, 4: ill}, {10: b"", 9: ill}, {129: b"\xff\0", 128: b"1"}, {23: b"", 128: b"1"},
            # 31 against a fault behind it in its section, and in a feature before and after it
            {16: many}, {16: many[:-1]}, {16: build.number(4, 5) + many[4:]}, {129: pairs}, {129: pairs + b"\xff\0\0"},
            {129: pairs + b"e\0\xff\0"}, {129: pairs + b"\xff"}, {2: builds}, {2: builds, 3: ill}, {2: builds, 16: many[:-1]},
            {2: builds, 129: b"\xff\0"}, {11: cut, 16: many}, {16: many, 23: b""}, {16: many[:-1], 129: pairs},
            {16: many, 129: b"\xff\0"}, {16: many, 129: pairs}, {2: builds, 16: many, 129: pairs}, {128: b"1", 129: pairs},
        ]
        for sections in stores:
            for rows, room in ((0, ROOM), (2, 5), (4, ROOM)):
                yield rows, room, store_image(rng, order, sections)
    # where the image is refused, nothing in it counts
    yield 0, 5, file_image("<", {132: b""})[:-1]
    yield 0, 5, pipe_image("<", feature("<", 132, b""), b"\0")
    yield 0, 5, head_image(entry(3, b"\xff"), entry(132, b""))


def tails():
    for order in ("le", "be"):
        lengths = {1: range(10), 2: range(10), 3: (0, 3, 4, 11, 12, 13)}
        for kind, length in [(kind, length) for kind in range(7) for length in lengths.get(kind, (0, 1, 8))]:
            build = Build(random.Random(kind), order)
            tail = build.number(4, 1) + bytes(range(1, 10))
            record = build.symbol_record(b"/d", kind, [b"s"], tail[:length])
            section = build.symbol_tables([record, build.symbol_record(b"/e", 4, [])])
            yield 0, ROOM, file_image(SIGN[order], {128: section})


def not_carried(rng):
    for order in "<>":
        for number in rng.sample(NOT_CARRIED, 8):
            yield 0, ROOM, file_image(order, {number: rng.randbytes(3)})
        every = {number: b"\xff" for number in range(256) if number not in images.CARRIED and number != 132}
        yield 0, 5, file_image(order, every)
        yield 0, 5, pipe_image(order, *[feature(order, *each) for each in every.items()])


def broken_images(rng):
    yield 0, ROOM, b""
    whole = list(kinds(RECORDINGS[3], rng))
    for image in whole:
        for end in (1, 4, 5, 8, 15, 16, 17, 24, 103, 104, 105, len(image) // 2, len(image) - 1):
            yield 0, ROOM, image[:end]
    for _ in range(40):
        image = bytearray(rng.choice(whole))
        image[rng.randrange(min(len(image), 200))] = rng.choice((0, 1, 2, 8, 16, 80, 104, 127, 128, 132, 255))
        yield ROWS, ROOM, bytes(image)


def recorded():
    for path in (FILE, PIPE):
        image = path.read_bytes()
        head, rows = one_head([image]), rows_of(image)
        for each in (image, head):
            yield heads.ROWS, heads.ROOM, each
        yield rows, len(head), image
        yield rows, len(head) - 1, image
        yield rows - 1, len(head), image


def long(rng):
    # one header text for six features, since sections may overlap
    text = Build(rng, "be").header_text(b"h" * 10_912)
    image = file_image(">", {number: b"" for number in (3, 4, 5, 6, 8, 9)})
    start, size = len(image).to_bytes(8, "big"), len(text).to_bytes(8, "big")
    shared = image[:104] + (start + size) * 6 + text
    head = heads.image_head(shared)
    assert heads.ROOM < len(head) < MOST_ROOM
    yield 0, heads.ROOM, shared
    yield 0, len(head) - 1, shared
    yield 0, len(head), shared
    names = Build(rng, "le").pmu_mappings([(number * 7919 % 600, b"n%d" % number) for number in range(700)])
    for rows in (599, 600, 65_536):
        yield rows, MOST_ROOM, file_image("<", {16: names})


def random_stores(rng):
    for _ in range(150):
        order = rng.choice(["le", "be"])
        some = rng.sample(sorted(QUESTIONS), rng.randrange(1, len(QUESTIONS) + 1))
        build = Build(rng, order)
        sections = {number: random_section(rng, QUESTIONS[number], build) for number in some}
        if rng.random() < 0.3:
            number = rng.choice(some)
            sections[number] = sections_of(rng, number, order)
        image = store_image(rng, order, sections)
        try:
            head = heads.image_head(image)
        except heads.Refused:
            yield ROWS, ROOM, image
            continue
        rows, room = rows_of(image), len(head)
        yield rng.choice([rows, rows, ROWS, max(rows - 1, 0)]), rng.choice([room, room, ROOM, room - 1]), image


def cases():
    rng = random.Random(5)
    yield from small()
    yield from disguised(rng)
    yield from alone(rng)
    yield from orders_of_refusals(rng)
    yield from tails()
    yield from not_carried(rng)
    yield from broken_images(rng)
    yield from recorded()
    yield from long(rng)
    yield from random_stores(rng)


# What no image here can bring: 3 takes an image of 16 MiB, and 12 is of feature 29, which no head carries.
NUMBERS = {1, 2, 4, 5, 6, 7, 8, 9, 10, 11, 13, 14, 15, 16, 17, 31, 32}


def write_cases(folder):
    given = list(dict.fromkeys(cases()))
    answers = [heads.line(image, rows, room) for rows, room, image in given]
    for (rows, _, image), answer in zip(given, answers):
        if answer.startswith("head"):
            assert heads.speaks(heads.unhexed(answer[5:]), images.read_any(image), rows)
    folder.mkdir(exist_ok=True)
    (folder / "stdin").write_text("".join(f"{rows} {room} x{image.hex()}\n" for rows, room, image in given))
    (folder / "stdout").write_text("".join(answer + "\n" for answer in answers))
    refused = collections.Counter(int(answer.split(" ")[1]) for answer in answers if answer.startswith("refused"))
    assert set(refused) == NUMBERS
    print(f"{len(given)} images, {len(given) - refused.total()} with a head; refused:", end=" ")
    print(", ".join(f"{count} with {number}" for number, count in sorted(refused.items())))


def write_sample(folder):
    """The file recording, and its head as perf_head writes it."""
    image = FILE.read_bytes()
    assert len(image) <= heads.ROOM
    head = heads.image_head(image, heads.ROWS, heads.ROOM)
    folder.mkdir(exist_ok=True)
    (folder / "stdin").write_bytes(image)
    (folder / "stdout").write_bytes(head)
    before, after = (dict(heads.answers(images.read_any(each), heads.ROWS)) for each in (image, head))
    print(f"the head of {FILE}: {len(head)} of {len(image)} bytes; the questions, asked of both:")
    for number, answer in before.items():
        print(f"{number:5} {QUESTIONS[number]:16}", "alike:" if after[number] == answer else "NOT ALIKE:", answer[:70])
    print("its own head:", heads.image_head(head, heads.ROWS, heads.ROOM) == head)


def main():
    write_cases(pathlib.Path("crates/head_cases"))
    write_sample(pathlib.Path("crates/perf_head"))


main()
