#!/usr/bin/env python3
"""Writes the cases of the crate build_ids_cases: crates/build_ids_cases/stdin and stdout.

The answers are worked out here from the rules as docs/FORMATS.md states them, with Python's own decoder for the shown form,
and never come from our program. The build ids of the two recordings are checked against what `perf buildid-list` prints
for them, which stands below.

Usage: python3 tools/make_build_ids_cases.py, from the top of the repository.
"""

import random
import struct
from pathlib import Path

from images import read_file, read_pipe

MODES = {1: "kernel", 2: "user", 3: "hypervisor", 4: "guest kernel", 5: "guest user"}
KINDS = ["Kernel", "GuestKernel", "Vdso32", "VdsoX32", "Vdso64", "Vsyscall", "KernelModule", "User"]
WHOLE = {b"[vdso32]": "Vdso32", b"[vdsox32]": "VdsoX32", b"[vdso]": "Vdso64", b"[vsyscall]": "Vsyscall"}
NAMES = {
    "Kernel": b"[kernel.kallsyms]",
    "GuestKernel": b"[guest.kernel.kallsyms]",
    "Vdso32": b"[vdso32]",
    "VdsoX32": b"[vdsox32]",
    "Vdso64": b"[vdso]",
    "Vsyscall": b"[vsyscall]",
}

# perf buildid-list -i crates/perf_info/stdin
LISTED = """
db6f8d381dd5f673a9a1cbbfb2295f617368d91b [kernel.kallsyms]
7ebc65e52f2bbea498b4040fa92f7238377aaba9 /usr/lib/x86_64-linux-gnu/ld-linux-x86-64.so.2
68798ba5321d76f976ab5c3b71007e3b4101ede5 [vdso]
"""


def shown(text):
    return text.decode("utf-8", errors="replace").encode()


def detect(path, number):
    """The kind of key and what it goes by, or None."""
    mode = MODES.get(number, "unknown")
    kernel = mode in ("kernel", "guest kernel")
    if path in (b"//anon", b"[stack]", b"[heap]", b"[vvar]"):
        return None
    if path.startswith(b"[kernel.kallsyms]"):
        return ("GuestKernel" if mode == "guest kernel" else "Kernel", b"")
    if path.startswith(b"[guest.kernel.kallsyms"):
        return ("GuestKernel", b"")
    if path in WHOLE:
        return (WHOLE[path], b"")
    if kernel and path.startswith(b"["):
        return ("KernelModule", shown(path))
    file = path.rsplit(b"/", 1)[-1]
    if kernel and file.endswith(b".ko"):
        return ("KernelModule", b"[" + shown(file[:-3]) + b"]")
    if kernel:
        return ("Kernel" if mode == "kernel" else "GuestKernel", b"")
    if mode in ("user", "guest user"):
        return ("User", path)
    return None


def name_of(key):
    kind, text = key
    if kind == "KernelModule":
        return text
    if kind == "User":
        return shown(text.rsplit(b"/", 1)[-1])
    return NAMES[kind]


def least(path, key):
    return next(m for m in range(6) if detect(path, m) == key)


def build_id(misc, raw):
    if misc & 0x8000:
        return raw[: min(raw[20], 20)]
    groups = [raw[i : i + 4] for i in range(0, 20, 4)]
    while groups and groups[-1] == bytes(4):
        groups.pop()
    return b"".join(groups)


def records(order, section):
    at = 0
    while len(section) - at >= 36:
        _kind, misc, size, _pid = struct.unpack_from(order + "IHHI", section, at)
        size = max(size, 36)
        if len(section) - at < size:
            return
        path = section[at + 36 : at + size].split(b"\0", 1)[0]
        yield misc, build_id(misc, section[at + 12 : at + 36]), path
        at += size


def table(order, section):
    entries = {}
    for misc, ident, path in records(order, section):
        key = detect(path, misc % 8)
        if key is not None:
            entries[key] = (path, ident)
    return sorted(entries.items(), key=lambda e: (KINDS.index(e[0][0]), e[0][1]))


CASES = []


def ask(line, answer):
    CASES.append((line, answer))


def ask_key(misc, path):
    key = detect(path, misc % 8)
    answer = "none"
    if key is not None:
        answer = f"{key[0]} least {least(path, key)} name x{name_of(key).hex()}"
    ask(f"key {misc} x{path.hex()}", answer)


def ask_name(misc, room, path):
    key = detect(path, misc % 8)
    before = b"\xAA" * room
    if key is None:
        said, after = "none", before
    elif len(name_of(key)) > room:
        said, after = "refused 32 4 256 0", before
    else:
        name = name_of(key)
        said, after = str(len(name)), name + before[len(name) :]
    ask(f"name {misc} {room} x{path.hex()}", f"{said} x{after.hex()}")


def ask_section(order, rows, section):
    word = {"<": "little", ">": "big"}[order]
    entries = table(order, section)
    if len(entries) > rows:
        answer = "refused 31 4 2 0"
    else:
        answer = str(len(entries))
        for key, (path, ident) in entries:
            answer += f" {key[0]} {least(path, key)} x{path.hex()} x{ident.hex()}"
    ask(f"section {word} {rows} x{section.hex()}", answer)


def record(order, misc, path, raw, size=None, kind=67, pid=0xFFFFFFFF):
    raw = raw.ljust(24, b"\0")
    return struct.pack(order + "IHHI", kind, misc, 36 + len(path) if size is None else size, pid) + raw + path


PATHS = [
    b"//anon", b"[stack]", b"[heap]", b"[vvar]", b"//anon2", b"[stack", b"[heap]x", b"[vvar",
    b"[kernel.kallsyms]", b"[kernel.kallsyms]_text", b"[kernel.kallsyms", b"x[kernel.kallsyms]",
    b"[guest.kernel.kallsyms]", b"[guest.kernel.kallsyms.7]", b"[guest.kernel.kallsyms", b"[guest.kernel.kallsym",
    b"[vdso32]", b"[vdsox32]", b"[vdso]", b"[vsyscall]", b"[vdso]x", b"[vdso", b"[vsyscall]x",
    b"[", b"[]", b"[snd]", b"[a/b.ko", b"[a]/b.ko", b"[\xff\xfe]", b"[\xe2\x82",
    b"/a/snd-seq-device.ko", b"snd.ko", b".ko", b"/.ko", b"a.ko/", b"a.ko/b", b"/x/a.ko.xz", b"ko", b"/a/ko", b".k",
    b"/x/\xffa\xc3.ko", b"/x/a\xf0\x9f\x98.ko",
    b"", b"/", b"//", b"a", b"/usr/bin/ls", b"usr/lib/", b"/boot/vmlinux", b"vmlinux", b"/a/\xe2\x82\xac",
    b"/a/\xed\xa0\x80", b"/\xff/a", b"\xff", b"/a\nb", b"/usr/lib/libc.so.6",
]


def keys():
    for path in PATHS:
        for misc in range(8):
            ask_key(misc, path)
    for misc in (0x8001, 0x8002, 0xFFF9, 0x4004, 10, 255, 65535):
        for path in (b"/a/x.ko", b"/a/b", b"[kernel.kallsyms]"):
            ask_key(misc, path)


def names():
    for path in PATHS:
        for misc in (1, 2, 4):
            key = detect(path, misc)
            length = len(name_of(key)) if key else 3
            for room in sorted({0, max(length - 1, 0), length, length + 1, length + 5}):
                ask_name(misc, room, path)


def sections():
    twenty = bytes(range(1, 21))
    one = bytes([1]) + bytes(19)
    ids = [
        (0x8000, twenty + bytes([20])),
        (0x8000, twenty + bytes([255])),
        (0x8000, twenty + bytes([7])),
        (0x8000, twenty + bytes([0])),
        (0x8000, bytes(20) + bytes([20])),
        (0x8000, bytes(24)),
        (0, twenty + bytes([7, 9, 9, 9])),
        (0, one),
        (0, bytes(24)),
        (0, bytes(20) + bytes([255] * 4)),
        (0, bytes(16) + bytes([0, 0, 0, 5])),
        (0, bytes([1, 2, 3, 4, 0, 0, 0, 0, 5]) + bytes(11)),
        (0, bytes([0] * 15 + [1])),
    ]
    for order in "<>":
        for flag, raw in ids:
            ask_section(order, 2, record(order, flag | 2, b"/a/b\0\0\0\0", raw))
        ask_section(order, 2, b"")
        for n in (1, 8, 35):
            ask_section(order, 2, bytes(n))
        ask_section(order, 2, bytes(36))
        ask_section(order, 2, record(order, 1, b"", twenty, size=0))
        ask_section(order, 2, record(order, 1, b"", twenty, size=35) * 2)
        ask_section(order, 2, record(order, 2, b"/a\0b\0c", twenty))
        ask_section(order, 2, record(order, 2, b"\0/a", twenty))
        whole = record(order, 2, b"/a/b", twenty)
        for cut in (1, 4, 5, 39):
            ask_section(order, 3, record(order, 1, b"/m.ko", one) + whole[:-cut])
        ask_section(order, 3, record(order, 2, b"/a/b", twenty, size=41))
        ask_section(order, 3, record(order, 2, b"/a/b", twenty, size=39) + whole)
        # the same path as a module and as a file
        both = record(order, 0x8001, b"/a/snd-seq-device.ko", twenty) + record(order, 0x8002, b"/a/snd-seq-device.ko", one)
        ask_section(order, 2, both)
        ask_section(order, 1, both)
        ask_section(order, 0, both)
        ask_section(order, 1, record(order, 1, b".ko", twenty))
        # a key given again takes the later path and id
        again = record(order, 1, b"/a/snd.ko", twenty) + record(order, 4, b"[snd]", one) + record(order, 1, b"/boot/vmlinux", one)
        ask_section(order, 2, again)
        ask_section(order, 9, again + record(order, 1, b"[kernel.kallsyms]", twenty))
        # names are compared as they are shown
        ill = record(order, 1, b"/a/\xff.ko", twenty) + record(order, 1, "[\ufffd]".encode(), one)
        ask_section(order, 4, ill + record(order, 1, b"[\xee]", one) + record(order, 1, b"[a", one) + record(order, 1, b"[", one))
        # every way to a key, in every mode
        every = b"".join(record(order, misc, path.split(b"\0")[0], one) for path in PATHS for misc in range(6))
        ask_section(order, 200, every)
        ask_section(order, len(table(order, every)), every)
        ask_section(order, len(table(order, every)) - 1, every)
        for rows in (0, 3):
            ask(f"absent {'little' if order == '<' else 'big'} {rows} x", "absent")
    rng = random.Random(2)
    for _ in range(60):
        order = rng.choice("<>")
        section = b""
        for _ in range(rng.randrange(12)):
            raw = bytes(rng.choice((0, 0, 0, 1, 20, 255)) for _ in range(24))
            path = rng.choice(PATHS) + rng.choice((b"", b"\0", b"\0x"))
            section += record(order, rng.choice((0, 1, 2, 3, 4, 5, 0x8001, 0x8002, 0x8004)), path, raw)
        ask_section(order, rng.randrange(14), section[: len(section) - rng.choice((0, 0, 0, 1, 5))])


def recordings():
    order, features = read_file(Path("crates/perf_info/stdin").read_bytes())
    listed = [tuple(line.split(" ", 1)) for line in LISTED.strip().split("\n")]
    read = [(ident.hex(), path.decode()) for _misc, ident, path in records(order, features[2])]
    assert read == listed, (read, listed)
    ask_section(order, 8, features[2])
    # perf buildid-list prints no id for the other one: it has no such section
    _order, features = read_pipe(Path("samples/recording.pipe").read_bytes())
    assert 2 not in features


keys()
names()
sections()
recordings()
out = Path("crates/build_ids_cases")
(out / "stdin").write_text("".join(line + "\n" for line, _ in CASES))
(out / "stdout").write_text("".join(answer + "\n" for _, answer in CASES))
print(len(CASES), "cases")
