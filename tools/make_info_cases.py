#!/usr/bin/env python3
"""Writes crates/info_cases/stdin and stdout: images in hexadecimal, one a line, and what perf_info has to print of each.

Run it from the top of the repository. The head of the sample is that of heads.py, and what is said of a section is what
crates/perf_info/stdout, which was checked against perf, says of the recording's section of that number: a head has it
in another length. The other images are written by hand, after docs/FORMATS.md and docs/REFUSALS.md.
"""

import re

from images import read_any


def facts(printed):
    """What perf_info prints of a recording: for each section its name, and all that stands behind its length."""
    found = {}
    for block in re.split(r"\n(?=[ 0-9]{3} [A-Z])", printed)[1:]:
        number, name, rest = re.match(r" *(\d+) (\S+) \(\d+ bytes\)(.*)", block, re.S).groups()
        found[int(number)] = (name, rest.rstrip("\n"))
    return found


def of_head(head, said):
    """What perf_info has to print of a head, whose recording it prints as said."""
    _, sections = read_any(head)
    lines = ["head image, little-endian"]
    for number in sorted(sections):
        name, rest = said[number]
        lines.append(f"{number:>3} {name} ({len(sections[number])} bytes){rest}")
    return "\n".join(lines) + "\n"


HAND = [
    # no section, in each kind of image
    ("5052480100", "head image, little-endian\n"),
    ("50455246494c45321000000000000000", "pipe image, little-endian\n"),
    ("32454c4946524550" "0000000000000010", "pipe image, big-endian\n"),
    # of perf stat
    ("5052480100" "130000000000", "head image, little-endian\n 19 STAT (0 bytes): of perf stat\n"),
    # processors, 4 of 8 online
    ("5052480100" "070008000000" "0800000004000000", "head image, little-endian\n  7 NRCPUS (8 bytes): 4 online, 8 available\n"),
    # an empty section of a number without a name, which in a recording through a pipe is perf's end mark, and one of a byte
    ("50455246494c4532" "1000000000000000" "5000000000001000" "2000000000000000", "pipe image, little-endian\n 32 end mark (0 bytes)\n"),
    ("50455246494c4532" "1000000000000000" "5000000000001100" "2000000000000000" "61", "pipe image, little-endian\n 32 unknown (1 bytes)\n"),
    (
        "50455246494c4532" "6800000000000000" + "00" * 24 + "6800000000000000" + "00" * 24 + "0000000001000000" + "00" * 40,
        "file image, little-endian\n 32 unknown (0 bytes)\n",
    ),
    # another version, an entry that is cut short, one that no head carries, and no image at all
    ("5052480200", "refused 2 256 0\n"),
    ("5052480100" "130001000000", "refused 17 256 5\n"),
    ("5052480100" "0c0000000000", "refused 17 256 5\n"),
    ("", "refused 1 256 0\n"),
]


def main():
    with open("crates/perf_head/stdin", "rb") as recording, open("crates/perf_info/stdin", "rb") as sample:
        assert recording.read() == sample.read()
    with open("crates/perf_head/stdout", "rb") as out:
        head = out.read()
    with open("crates/perf_info/stdout") as out:
        said = facts(out.read())
    cases = [(head.hex(), of_head(head, said))] + HAND
    with open("crates/info_cases/stdin", "w") as out:
        out.writelines(image + "\n" for image, _ in cases)
    with open("crates/info_cases/stdout", "w") as out:
        out.writelines(text for _, text in cases)


main()
