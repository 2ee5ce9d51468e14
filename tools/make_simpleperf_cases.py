#!/usr/bin/env python3
"""Writes crates/simpleperf_cases/stdin and stdout: sections of feature 128, and what they say.

The expected answers come from the reader below. It was written from the format as docs/FORMATS.md states it, over byte
offsets, and shares nothing with the library.

Usage: python3 tools/make_simpleperf_cases.py
"""

import pathlib
import random
import struct

LARGEST = (1 << 64) - 1
ORDERS = {"little": "<", "big": ">"}
KERNEL, MODULE, ELF, DEX, MAP, UNKNOWN = range(6)


class Refused(Exception):
    pass


# ---- the reader


class Record:
    """The bytes of one record; an offset counts from the first of them."""

    def __init__(self, order, data):
        self.order, self.data, self.at = order, data, 0

    def left(self):
        return len(self.data) - self.at

    def refuse(self, number, at):
        raise Refused(f"refused {number} 3 128 {at}")

    def number(self, width):
        if self.left() < width:
            self.refuse(11, self.at)
        raw = self.data[self.at : self.at + width]
        self.at += width
        return int.from_bytes(raw, self.order)

    def text(self):
        start = self.at
        end = self.data.find(b"\0", start)
        if end < 0:
            self.refuse(15, start)
        raw = self.data[start:end]
        try:
            raw.decode("utf-8")
        except UnicodeDecodeError:
            self.refuse(10, start)
        self.at = end + 1
        return raw

    def count(self):
        start = self.at
        n = self.number(4)
        if n > self.left():
            self.refuse(14, start)
        return n

    def file_type(self):
        start = self.at
        n = self.number(4)
        if n > 5:
            self.refuse(13, start)
        return n

    def tail(self, kind):
        if kind == DEX:
            return "dex=" + ",".join(str(self.number(8)) for _ in range(self.count()))
        if kind in (ELF, MODULE):
            n = self.number(8) if self.left() > 0 else LARGEST
            return ("elf=" if kind == ELF else "module=") + str(n)
        return "-"

    def read(self):
        path = self.text()
        kind = self.file_type()
        lowest = self.number(8)
        symbols = []
        for _ in range(self.count()):
            address = self.number(8)
            length = self.number(4)
            symbols.append(f"{address},{length},x{self.text().hex()}")
        tail = self.tail(kind)
        return f"x{path.hex()}:{kind}:{lowest}:{tail}:{';'.join(symbols) or '-'}"


def answer(order, section):
    records, at = [], 0
    try:
        while at < len(section):
            if at + 4 > len(section):
                raise Refused(f"refused 11 2 128 {at}")
            size = int.from_bytes(section[at : at + 4], order)
            if at + 4 + size > len(section):
                raise Refused(f"refused 6 2 128 {at}")
            records.append(Record(order, section[at + 4 : at + 4 + size]).read())
            at += 4 + size
    except Refused as refused:
        return str(refused)
    return " ".join([f"records {len(records)}", *records])


# ---- the writer


def u32(order, n):
    return struct.pack(ORDERS[order] + "I", n)


def u64(order, n):
    return struct.pack(ORDERS[order] + "Q", n)


def symbol(order, address, length, name):
    return u64(order, address) + u32(order, length) + name + b"\0"


def front(order, path, kind, lowest=0x1000, symbols=(), count=None):
    count = len(symbols) if count is None else count
    return (
        path + b"\0" + u32(order, kind) + u64(order, lowest) + u32(order, count)
        + b"".join(symbol(order, *s) for s in symbols)
    )


def offsets(order, *ns):
    return u32(order, len(ns)) + b"".join(u64(order, n) for n in ns)


def sized(order, record):
    return u32(order, len(record)) + record


SYMBOLS = [(0x1000, 16, b"main"), (LARGEST, 0xFFFFFFFF, b""), (0, 0, "µ_start".encode())]


def good(order):
    """Records of every type, with and without symbols and something behind the tail."""
    for kind in range(6):
        tails = {
            DEX: [offsets(order), offsets(order, 0x28), offsets(order, 1, 0, LARGEST)],
            ELF: [b"", u64(order, 0), u64(order, 0x3000), u64(order, LARGEST)],
            MODULE: [b"", u64(order, 0), u64(order, 0x4000)],
        }.get(kind, [b""])
        for tail in tails:
            for symbols in ([], SYMBOLS[:1], SYMBOLS):
                record = front(order, b"/lib/a.so", kind, symbols=symbols) + tail
                yield record
                # behind an elf's or a module's empty tail nothing can stand: it would be the tail
                if tail or kind not in (ELF, MODULE):
                    yield record + b"\0"
                    yield record + b"behind the tail"


def cases(order):
    yield b""
    whole = list(good(order))
    for record in whole:
        yield sized(order, record)
    yield b"".join(sized(order, record) for record in whole[::5])
    # the next record starts where the length says, also where what is left would be a record itself
    inner = sized(order, front(order, b"inner", KERNEL))
    yield sized(order, front(order, b"outer", UNKNOWN) + inner) + sized(order, front(order, b"next", MAP))
    yield sized(order, b"") + sized(order, whole[0])
    # lengths that are cut short, or reach past the section
    for n in range(1, 4):
        yield b"\0" * n
        yield sized(order, whole[0]) + b"\0" * n
    for n in (1, 2, 0x7FFFFFFF, 0xFFFFFFFF):
        yield u32(order, n)
        yield sized(order, whole[0]) + u32(order, n) + b"\0" * (n if n == 1 else 0)
    # tails of one to seven bytes, and of eight
    for kind in (MODULE, ELF):
        for n in range(1, 10):
            yield sized(order, front(order, b"t", kind) + b"\xff" * n)
            yield sized(order, front(order, b"t", kind, symbols=SYMBOLS) + b"\x01" * n)
    # types
    for kind in (6, 7, 0x80000000, 0xFFFFFFFF):
        yield sized(order, front(order, b"t", kind))
        yield sized(order, b"t\0" + u32(order, kind))
    # counts
    for n in (1, 2, 12, 13, 0xFFFFFFFF):
        yield sized(order, front(order, b"c", KERNEL, count=n))
        yield sized(order, front(order, b"c", KERNEL, count=n) + b"\0" * 13)
        yield sized(order, front(order, b"c", DEX) + u32(order, n))
        yield sized(order, front(order, b"c", DEX) + u32(order, n) + b"\0" * 13)
    for n in range(4):
        yield sized(order, front(order, b"c", DEX) + u32(order, n) + b"\x07" * 16)
        yield sized(order, front(order, b"c", KERNEL, count=n) + symbol(order, 1, 2, b"x") * 2)
    # texts: none, empty, ill formed, with no NUL, and both of these
    bad = [b"\x80", b"a\xff", b"\xc0\x80", b"\xed\xa0\x80", b"\xf4\x90\x80\x80", b"\xe2\x82", b"ok\xf0\x9f\x98"]
    for text in [b"", "ü€😀".encode(), *bad]:
        yield sized(order, front(order, text, KERNEL))
        yield sized(order, text)
        symbols = [(1, 2, b"first"), (3, 4, text)]
        yield sized(order, front(order, b"p", KERNEL, symbols=symbols))
        yield sized(order, front(order, b"p", KERNEL, symbols=symbols)[:-1])
    # the first fault is the answer
    yield sized(order, front(order, b"\xff", 9))
    yield sized(order, front(order, b"p", 9, count=0xFFFFFFFF))
    yield sized(order, front(order, b"\xff", KERNEL)) + b"\0"
    yield sized(order, whole[0]) + sized(order, front(order, b"\xff", KERNEL)) + u32(order, 99)
    # every cut of good records, with the length set right and as it was
    for record in (front(order, b"/p", DEX, symbols=SYMBOLS[:2]) + offsets(order, 5, 6), front(order, b"", ELF, symbols=SYMBOLS[2:]) + u64(order, 7)):
        for n in range(len(record)):
            yield sized(order, record[:n])
            yield sized(order, record)[: n + 4]


def damaged(order, chance):
    whole = [sized(order, record) for record in good(order)]
    for _ in range(100):
        section = bytearray(b"".join(chance.choices(whole, k=chance.randint(1, 3))))
        for _ in range(chance.randint(1, 3)):
            at = chance.randrange(len(section))
            section[at] = chance.choice([0, 1, 2, 3, 5, 6, 0x7F, 0x80, 0xC3, 0xFF, chance.randrange(256)])
        if chance.random() < 0.2:
            section = section[: chance.randrange(len(section) + 1)]
        yield bytes(section)


def main():
    chance = random.Random(128)
    lines, answers = [], []
    for order in ORDERS:
        for section in [*cases(order), *damaged(order, chance)]:
            lines.append(f"{order} x{section.hex()}")
            answers.append(answer(order, section))
    # each section once more in the other order
    for line in lines[::9]:
        order, text = line.split(" x")
        other = "big" if order == "little" else "little"
        lines.append(f"{other} x{text}")
        answers.append(answer(other, bytes.fromhex(text)))
    folder = pathlib.Path(__file__).resolve().parent.parent / "crates" / "simpleperf_cases"
    (folder / "stdin").write_text("".join(line + "\n" for line in lines))
    (folder / "stdout").write_text("".join(line + "\n" for line in answers))


if __name__ == "__main__":
    main()
