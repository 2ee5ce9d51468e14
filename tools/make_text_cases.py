#!/usr/bin/env python3
"""Writes the cases of the crate text_cases: crates/text_cases/stdin and stdout.

Each line of stdin has the bytes of a text, in hexadecimal. The line of stdout that belongs to it says whether the text is
well formed, and has the bytes of its shown form. What is expected comes from Python's own decoder, never from our program:
bytes.decode is strict about what is well formed, and with errors='replace' puts one U+FFFD in place of each maximal
ill-formed subpart.

The texts: for each row of the Unicode Standard's Table 3-7 and each byte of it the first and last of its range, one below
and one above, the other bytes at the low and at the high end of theirs; each row cut off, at the end of a text and before
another character; overlong forms, surrogates and numbers above 10FFFF; every first byte alone and before 80; the standard's
own examples of replacements; sequences, whole and broken, in a run of ASCII at the ends of its blocks.

Usage: python3 tools/make_text_cases.py, from the top of the repository.
"""

from pathlib import Path

TAIL = (0x80, 0xBF)
TABLE = [
    [(0x00, 0x7F)],
    [(0xC2, 0xDF), TAIL],
    [(0xE0, 0xE0), (0xA0, 0xBF), TAIL],
    [(0xE1, 0xEC), TAIL, TAIL],
    [(0xED, 0xED), (0x80, 0x9F), TAIL],
    [(0xEE, 0xEF), TAIL, TAIL],
    [(0xF0, 0xF0), (0x90, 0xBF), TAIL, TAIL],
    [(0xF1, 0xF3), TAIL, TAIL, TAIL],
    [(0xF4, 0xF4), (0x80, 0x8F), TAIL, TAIL],
]

SINGLE = """
F0 9F 41
E2 82
C0 80
C1 BF
E0 80 80
E0 9F BF
F0 80 80 80
F0 8F BF BF
ED A0 80
ED BF BF
ED A0 80 ED B0 80
F4 90 80 80
F5 80 80 80
F8 88 80 80 80
FC 84 80 80 80 80
FE FF
63 61 66 C3 A9 20 E2 82 AC 20 F0 9F 98 80
EF BF BD
EF BB BF 61
61 00 62
C0 AF E0 80 BF F0 81 82 41
ED A0 80 ED BF BF ED AF 41
F4 91 92 93 FF 41 80 BF 42
E1 80 E2 F0 91 92 F1 BF 41
61 F1 80 80 E1 80 C2 62 80 63 80 BF 64
""".strip().split("\n")


def corners(row):
    for at, (low, high) in enumerate(row):
        for byte in (low - 1, low, high, high + 1):
            if 0 <= byte <= 0xFF:
                for end in (0, 1):
                    text = [ends[end] for ends in row]
                    text[at] = byte
                    yield bytes(text)


def cuts(row):
    for length in range(1, len(row)):
        begun = bytes(low for low, _ in row[:length])
        yield begun
        yield begun + b"A"
        yield begun + begun
        yield bytes(high for _, high in row[:length]) + "é".encode()
    yield bytes(low for low, _ in row) + b"\x80"


def texts():
    yield b""
    for row in TABLE:
        yield from corners(row)
        yield from cuts(row)
    for byte in range(0x80, 0x100):
        yield bytes([byte])
        yield bytes([byte, 0x80])
    for line in SINGLE:
        yield bytes.fromhex(line)
    yield from runs()


def runs():
    for before in (7, 8, 30, 31, 32, 33, 63, 64):
        for inner in ("é".encode(), "€".encode(), "😀".encode(), b"\xC3", b"\xE2\x82", b"\xF0\x9F\x98", b"\x80"):
            for after in (0, 1, 40):
                yield b"a" * before + inner + b"b" * after


def hexadecimal(text):
    return text.hex(" ").upper()


def well_formed(text):
    try:
        text.decode("utf-8")
        return True
    except UnicodeDecodeError:
        return False


def answer(text):
    word = "well formed:" if well_formed(text) else "ill formed:"
    return (word + " " + hexadecimal(text.decode("utf-8", errors="replace").encode())).rstrip()


def main():
    folder = Path("crates/text_cases")
    cases = list(dict.fromkeys(texts()))
    folder.joinpath("stdin").write_text("".join(hexadecimal(text) + "\n" for text in cases))
    folder.joinpath("stdout").write_text("".join(answer(text) + "\n" for text in cases))


main()
