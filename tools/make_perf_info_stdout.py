#!/usr/bin/env python3
"""Writes crates/perf_info/stdout: what perf_info has to print of its sample, by the independent reader in images.py.

Run it from the top of the repository, with the output of 'perf report --header-only -I' on the sample as standard
input. What perf prints has to agree: the features that it calls missing are those with a name that the reader finds no
section of, and the texts are those that it prints.
"""

import re
import struct
import sys

from images import PERF, read_any

# simpleperf's record_file.h from 128 on
SIMPLEPERF = "FILE META_INFO DEBUG_UNWIND DEBUG_UNWIND_FILE FILE2".split()
NAMES = dict(enumerate(PERF, 1)) | {n: "SIMPLEPERF_" + name for n, name in enumerate(SIMPLEPERF, 128)}


# the sections that are header texts, with perf's words for them
TEXTS = {3: "hostname", 4: "os release", 5: "perf version", 6: "arch", 8: "cpudesc", 9: "cpuid"}


def header_text(order, section, at=0):
    """A u32 length and that many bytes, cut at the first NUL; with the offset behind it."""
    end = at + 4 + struct.unpack_from(order + "I", section, at)[0]
    return section[at + 4 : end].split(b"\0")[0].decode(), end


def words(order, section):
    at, found = 4, []
    for _ in range(struct.unpack_from(order + "I", section)[0]):
        word, at = header_text(order, section, at)
        found.append(word)
    return found


def pmu_names(order, section):
    """A u32 count, and for each a u32 number and a header text."""
    at, names = 4, {}
    for _ in range(struct.unpack_from(order + "I", section)[0]):
        number = struct.unpack_from(order + "I", section, at)[0]
        names[number], at = header_text(order, section, at + 4)
    return names


# what 'perf buildid-list' prints of the sample, with the name that each program goes by
BUILD_IDS = """db6f8d381dd5f673a9a1cbbfb2295f617368d91b [kernel.kallsyms] ([kernel.kallsyms])
68798ba5321d76f976ab5c3b71007e3b4101ede5 [vdso] ([vdso])
7ebc65e52f2bbea498b4040fa92f7238377aaba9 /usr/lib/x86_64-linux-gnu/ld-linux-x86-64.so.2 (ld-linux-x86-64.so.2)
""".splitlines()


def build_ids(order, section):
    """The list above, each of whose ids and paths has to stand in the section."""
    for line in BUILD_IDS:
        ident, path, _ = line.split(" ")
        assert bytes.fromhex(ident) in section and path.encode() + b"\0" in section, line
    return f": {len(BUILD_IDS)} programs" + "".join("\n    " + line for line in BUILD_IDS)


def fact(order, number, section, printed):
    """What stands behind a section's length, if anything."""
    if number in TEXTS:
        text, _ = header_text(order, section)
        assert printed[TEXTS[number]] == text, (number, text)
        return ": " + text
    if number == 7:
        available, online = struct.unpack_from(order + "II", section)
        assert (printed["nrcpus avail"], printed["nrcpus online"]) == (str(available), str(online))
        return f": {online} online, {available} available"
    if number == 10:
        kilobytes = struct.unpack_from(order + "Q", section)[0]
        assert printed["total memory"] == f"{kilobytes} kB"
        return f": {kilobytes} kB"
    if number == 21:
        first, last = struct.unpack_from(order + "QQ", section)
        assert printed["time of first sample"] == f"{first // 10**9}.{first % 10**9 // 1000:06}", first
        return f": {first} ns to {last} ns"
    if number == 2:
        return build_ids(order, section)
    if number == 16:
        names = pmu_names(order, section)
        said = dict(item.split(" = ") for item in printed["pmu mappings"].split(", "))
        assert said == {name: str(n) for n, name in names.items()}, names
        return f": {len(names)} names" + "".join(f"\n    {names[n]} = {n}" for n in sorted(names))
    if number == 11:
        found = words(order, section)
        assert printed["cmdline"].split() == found, found
        return ": " + " ".join(found)
    return ""


def main():
    with open("crates/perf_info/stdin", "rb") as sample:
        order, sections = read_any(sample.read())
    printed = dict(re.findall(r"^# ([a-z ]+?) *: (.*)$", sys.stdin.read(), re.M))
    missing = printed["missing features"].split()
    ours = [name for n, name in NAMES.items() if n < 128 and n not in sections]
    assert missing == ours, (missing, ours)
    lines = ["file image, " + {"<": "little-endian", ">": "big-endian"}[order]]
    for n in sorted(sections):
        name = NAMES.get(n, "unknown")
        lines.append(f"{n:>3} {name} ({len(sections[n])} bytes)" + fact(order, n, sections[n], printed))
    with open("crates/perf_info/stdout", "w") as out:
        out.writelines(line + "\n" for line in lines)


main()
