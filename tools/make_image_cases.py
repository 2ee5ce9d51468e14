#!/usr/bin/env python3
"""Writes crates/image_cases/stdin and stdout: images, and what they hold by the independent reader in images.py.

Run it from the top of the repository. Two of the images are recordings that perf made: the sample of perf_info and
samples/recording.pipe.
"""

import random
import struct

from images import READERS, answer, entry, feature, file_image, head_image, mark, pipe_image, record


def cases():
    for n in (0, 1, 3, 4, 5, 8, 15, 16, 103, 104):
        for kind in READERS:
            yield kind, bytes(n)
            yield kind, (b"PERFILE2" + bytes([16]) + bytes(200))[:n]
            yield kind, (b"PERFILE2" + bytes([104]) + bytes(200))[:n]
            yield kind, (b"PRH\1\0" + bytes(200))[:n]
    for order in "<>":
        whole = file_image(order, {})
        yield "file", whole
        yield "file", whole[:-1]
        yield "pipe", whole
        for n in (0, 1, 2, 62, 63, 64, 65, 127, 128, 191, 192, 254, 255):
            yield "file", file_image(order, {n: b"abc"})
        yield "any", file_image(order, {0: b"", 63: b"x", 64: b"yz", 255: b"!"})
        yield "any", file_image(order, {n: bytes([n]) for n in range(256)})
        # the table ends past the image: an empty one, one cut by a byte, and sums that wrap at 64 bits
        yield "file", file_image(order, {}, data=104)
        yield "file", file_image(order, {}, data=105)
        yield "file", file_image(order, {}, data=2**64 - 1, data_size=1)
        yield "file", file_image(order, {}, data=2**64 - 8, data_size=112)
        yield "file", file_image(order, {}, data=50, data_size=54)
        yield "file", file_image(order, {}, data=50, data_size=55)
        yield "file", file_image(order, {}, size=105)
        yield "file", file_image(order, {}, size=16)
        one = file_image(order, {3: b""})
        yield "file", one
        yield "file", one[:-1]
        # a section that ends past the image, be it empty or its end a sum that wraps
        for start, length in ((120, 0), (121, 0), (0, 120), (0, 121), (119, 1), (120, 1), (2**64 - 1, 1), (2**64 - 1, 2), (1, 2**64 - 1), (2**63, 2**63)):
            yield "file", file_image(order, {3: b""})[:104] + struct.pack(order + "QQ", start, length)
        two = file_image(order, {3: b"a", 7: b"b"})
        yield "file", two
        for at, value in ((104, 999), (112, 999), (120, 999), (128, 999)):
            yield "file", two[:at] + struct.pack(order + "Q", value) + two[at + 8 :]
        # the table may stand behind data, and sections overlap anything
        yield "file", file_image(order, {3: b"a", 200: b"b"}, data_size=5, gap=b"data!")
        yield "file", file_image(order, {3: b"", 4: b""})[:104] + struct.pack(order + "QQQQ", 0, 136, 100, 8)

        yield "pipe", pipe_image(order)
        yield "pipe", mark(order) + struct.pack(order + "Q", 17)
        a, b = feature(order, 5, b"ab"), feature(order, 5, b"c")
        yield "any", pipe_image(order, a, record(order, 1, b"other"), b)
        yield "any", pipe_image(order, b, a)
        yield "pipe", pipe_image(order, feature(order, 255, b"x"), feature(order, 256, b"y"), feature(order, 0, b""))
        yield "pipe", pipe_image(order, feature(order, 2**8 + 5, b"8 bits"), feature(order, 2**16 + 5, b"16"))
        yield "pipe", pipe_image(order, feature(order, 2**32 + 5, b"32 bits"), feature(order, 2**63 + 5, b"63"))
        for size in range(0, 20):
            yield "pipe", pipe_image(order, record(order, 1, b"12345678", size))
            yield "pipe", pipe_image(order, record(order, 80, struct.pack(order + "Q", 9), size))
        yield "pipe", pipe_image(order, record(order, 80, b"1234567"), b)
        whole = pipe_image(order, a, feature(order, 2, b"last one"))
        for cut in range(16, len(whole) + 1):
            yield "pipe", whole[:cut]

    three = [entry(2, b"two"), entry(3, b""), entry(129, b"a\0b\0")]
    whole = head_image(*three)
    for cut in range(len(whole) + 1):
        yield "head", whole[:cut]
    yield "any", whole
    yield "any", b"PRH\2\0"
    yield "any", b"PRH\0\1"
    yield "head", b"PRI\1\0"
    for number in list(range(0, 34)) + [127, 128, 129, 130, 131, 132, 255, 256, 258, 65535]:
        yield "head", head_image(entry(number, b"?"))
    yield "head", head_image(three[0], three[0])
    yield "head", head_image(three[1], three[0])
    yield "head", head_image(three[0], entry(1, b""), three[1])
    for length in (0, 2, 3, 4, 2**31, 2**32 - 1):
        yield "head", head_image(entry(2, b"two", length), three[1])

    for name in ("crates/perf_info/stdin", "samples/recording.pipe"):
        with open(name, "rb") as recording:
            yield "any", recording.read()

    # damaged copies of good images: one byte set, or the end cut off
    dice = random.Random(7)
    good = [("file", file_image(o, {3: b"abc", 64: b"", 200: b"z"}, data_size=3, gap=b"gap")) for o in "<>"]
    good += [("pipe", pipe_image(o, feature(o, 3, b"abc"), record(o, 9, b""), feature(o, 200, b"z"))) for o in "<>"]
    good += [("head", whole)]
    for _ in range(400):
        kind, image = dice.choice(good)
        damaged = bytearray(image)
        for _ in range(dice.choice((1, 1, 2))):
            damaged[dice.randrange(len(damaged))] = dice.choice((0, 1, 2, 8, 16, 80, 104, 127, 128, 255, dice.randrange(256)))
        if dice.random() < 0.2:
            del damaged[dice.randrange(len(damaged)) :]
        yield dice.choice((kind, "any")), bytes(damaged)


def main():
    lines = list(cases())
    with open("crates/image_cases/stdin", "w") as out:
        out.writelines(f"{kind} x{image.hex()}\n" for kind, image in lines)
    with open("crates/image_cases/stdout", "w") as out:
        out.writelines(answer(kind, image) + "\n" for kind, image in lines)
    print(len(lines), "images")


main()
