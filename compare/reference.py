#!/usr/bin/env python3
"""The rules of docs/FORMATS.md and docs/REFUSALS.md once more, in Python: reads questions, writes answers.

    compare/reference.py < LINES > ANSWERS

It speaks the protocol of compare/README.md and gives refusals with number, layer, feature and offset. It follows the
rules step by step and shares no code with the library or with the Rust crate: it is a third opinion where those two
disagree, and its answers serve as expected ones.
"""

import sys

MOST_ROWS = 65536
NO_OFFSET = 2**64 - 1


class Refused(Exception):
    def __init__(self, number, layer, feature, offset):
        super().__init__(f"refused {number} {layer} {feature} {offset}")


class BadLine(Exception):
    pass


# Texts. The nine rows of the table of well-formed sequences, known by their first byte; no two rows share one.

TABLE = [
    [(0x00, 0x7F)],
    [(0xC2, 0xDF), (0x80, 0xBF)],
    [(0xE0, 0xE0), (0xA0, 0xBF), (0x80, 0xBF)],
    [(0xE1, 0xEC), (0x80, 0xBF), (0x80, 0xBF)],
    [(0xED, 0xED), (0x80, 0x9F), (0x80, 0xBF)],
    [(0xEE, 0xEF), (0x80, 0xBF), (0x80, 0xBF)],
    [(0xF0, 0xF0), (0x90, 0xBF), (0x80, 0xBF), (0x80, 0xBF)],
    [(0xF1, 0xF3), (0x80, 0xBF), (0x80, 0xBF), (0x80, 0xBF)],
    [(0xF4, 0xF4), (0x80, 0x8F), (0x80, 0xBF), (0x80, 0xBF)],
]
BEGINS = {first: row for row in TABLE for first in range(row[0][0], row[0][1] + 1)}
SUBSTITUTE = b"\xef\xbf\xbd"


def step(text, at):
    """The length of what stands at a place of a text, and whether it is a well-formed sequence."""
    row = BEGINS.get(text[at])
    if row is None:
        return 1, False
    fitting = 1
    while fitting < len(row) and at + fitting < len(text) and row[fitting][0] <= text[at + fitting] <= row[fitting][1]:
        fitting += 1
    return fitting, fitting == len(row)


def well_formed(text):
    at = 0
    while at < len(text):
        length, well = step(text, at)
        if not well:
            return False
        at += length
    return True


def shown(text):
    out, at = bytearray(), 0
    while at < len(text):
        length, well = step(text, at)
        out += text[at : at + length] if well else SUBSTITUTE
        at += length
    return bytes(out)


def cut(text):
    nul = text.find(b"\0")
    return text if nul < 0 else text[:nul]


# Numbers and header texts of a section.


class Section:
    def __init__(self, data, order, feature, layer=2):
        self.data, self.order, self.feature, self.layer, self.at = data, order, feature, layer, 0

    def refuse(self, number, offset):
        raise Refused(number, self.layer, self.feature, offset)

    def left(self):
        return len(self.data) - self.at

    def number(self, size, refusal=11):
        if self.left() < size:
            self.refuse(refusal, self.at)
        value = int.from_bytes(self.data[self.at : self.at + size], self.order)
        self.at += size
        return value

    def text(self, length, refusal):
        """The bytes of a text before its first NUL, not checked yet, and where they begin."""
        start = self.at
        if self.left() < length:
            self.refuse(refusal, start)
        self.at += length
        return cut(self.data[start : start + length]), start

    def header_text(self):
        text, start = self.text(self.number(4, 7), 9)
        if not well_formed(text):
            self.refuse(10, start)
        return text

    def nul_text(self):
        """A text that ends in NUL, as symbol records have them."""
        start = self.at
        end = self.data.find(b"\0", start)
        if end < 0:
            self.refuse(15, start)
        text = self.data[start:end]
        if not well_formed(text):
            self.refuse(10, start)
        self.at = end + 1
        return text


# The questions. Each is handed a section and the rows, and answers with words.


def hexed(text):
    return "x" + text.hex()


def listed(word, items):
    return " ".join([word, str(len(items))] + items)


def rowed(section, rows, items):
    if len(items) > rows:
        raise Refused(31, 4, section.feature, 0)
    return listed("rows", items)


def header_text(section, rows):
    return "text " + hexed(section.header_text())


def cmdline(section, rows):
    count = section.number(4, 8)
    texts = []
    # Each text takes four bytes at least, so a count of billions ends at the section's end.
    while len(texts) < count:
        texts.append(hexed(section.header_text()))
    return listed("texts", texts)


def fixed(*sizes):
    def answer(section, rows):
        return " ".join(["numbers"] + [str(section.number(size)) for size in sizes])

    return answer


def single(section, rows):
    if section.left() < 8:
        section.refuse(6, 0)
    return f"numbers {section.number(8)}"


def clock_data(section, rows):
    if section.number(4) != 1:
        section.refuse(12, 0)
    return fixed(4, 8, 8)(section, rows)


def is_stats(section, rows):
    return "present"


def pmu_mappings(section, rows):
    names = {}
    left = section.number(4)
    while left:
        key = section.number(4)
        name, _ = section.text(section.number(4), 11)
        if well_formed(name):
            names[key] = name
        left -= 1
    return rowed(section, rows, [f"{key}:{hexed(names[key])}" for key in sorted(names)])


def meta_info(section, rows):
    pieces, start = [], 0
    for piece in section.data.split(b"\0"):
        pieces.append((start, piece))
        start += len(piece) + 1
    pairs = {}
    for k in range(0, len(pieces) - 1, 2):
        for start, piece in pieces[k : k + 2]:
            if not well_formed(piece):
                section.refuse(10, start)
        pairs[pieces[k][1]] = pieces[k + 1][1]
    return rowed(section, rows, [f"{hexed(key)}:{hexed(pairs[key])}" for key in sorted(pairs)])


# Build ids. A key is its kind and what tells keys of that kind apart: a module's name, a user file's path.

KINDS = ["Kernel", "GuestKernel", "Vdso32", "VdsoX32", "Vdso64", "Vsyscall", "KernelModule", "User"]
NAMES = {
    "Kernel": b"[kernel.kallsyms]",
    "GuestKernel": b"[guest.kernel.kallsyms]",
    "Vdso32": b"[vdso32]",
    "VdsoX32": b"[vdsox32]",
    "Vdso64": b"[vdso]",
    "Vsyscall": b"[vsyscall]",
}
WHOLE = {NAMES[kind]: kind for kind in ("Vdso32", "VdsoX32", "Vdso64", "Vsyscall")}
KERNEL, USER, GUEST_KERNEL, GUEST_USER = 1, 2, 4, 5


def detect(path, misc):
    """The kind and the name of the file at a path, or nothing."""
    mode = misc % 8
    if path in (b"//anon", b"[stack]", b"[heap]", b"[vvar]"):
        return None
    if path.startswith(b"[kernel.kallsyms]"):
        return named("GuestKernel" if mode == GUEST_KERNEL else "Kernel")
    if path.startswith(b"[guest.kernel.kallsyms"):
        return named("GuestKernel")
    if path in WHOLE:
        return named(WHOLE[path])
    last = path[path.rfind(b"/") + 1 :]
    if mode in (KERNEL, GUEST_KERNEL):
        if path.startswith(b"["):
            return "KernelModule", shown(path)
        if last.endswith(b".ko"):
            return "KernelModule", b"[" + shown(last[:-3]) + b"]"
        return named("Kernel" if mode == KERNEL else "GuestKernel")
    if mode in (USER, GUEST_USER):
        return "User", shown(last)
    return None


def named(kind):
    return kind, NAMES[kind]


def trimmed(data):
    while data and data[-4:] == bytes(4):
        data = data[:-4]
    return data


def build_ids(section, rows):
    entries = {}
    while section.left() >= 36:
        start = section.at
        section.number(4)
        misc, size = section.number(2), section.number(2)
        end = start + max(size, 36)
        if end > len(section.data):
            break
        stored = section.data[start + 12 : start + 36]
        found = stored[: min(stored[20], 20)] if misc & 0x8000 else trimmed(stored[:20])
        path = cut(section.data[start + 36 : end])
        section.at = end
        key = detect(path, misc)
        if key:
            kind, name = key
            apart = {"KernelModule": name, "User": path}.get(kind, b"")
            entries[KINDS.index(kind), apart] = f"{kind}:{hexed(name)}:{hexed(path)}:{hexed(found)}"
    return rowed(section, rows, [entries[key] for key in sorted(entries)])


# Symbol tables.


def symbol_tables(section, rows):
    records = []
    while section.left():
        start = section.at
        length = section.number(4)
        if section.left() < length:
            section.refuse(6, start)
        data = section.data[section.at : section.at + length]
        records.append(symbol_record(Section(data, section.order, section.feature, 3)))
        section.at += length
    return listed("records", records)


def counted(record):
    start = record.at
    count = record.number(4)
    if count > record.left():
        record.refuse(14, start)
    return count


def symbol_record(record):
    path = record.nul_text()
    start = record.at
    kind = record.number(4)
    if kind > 5:
        record.refuse(13, start)
    lowest = record.number(8)
    symbols = []
    for _ in range(counted(record)):
        address = record.number(8)
        length = record.number(4)
        symbols.append(f"{address},{length},{hexed(record.nul_text())}")
    tail = "-"
    if kind == 3:
        tail = "dex=" + ",".join([str(record.number(8)) for _ in range(counted(record))])
    elif kind in (1, 2):
        word = "module" if kind == 1 else "elf"
        tail = f"{word}={record.number(8) if record.left() else NO_OFFSET}"
    return f"{hexed(path)}:{kind}:{lowest}:{tail}:{';'.join(symbols) or '-'}"


# Lines.

QUESTIONS = {
    "hostname": (3, header_text),
    "os_release": (4, header_text),
    "perf_version": (5, header_text),
    "arch": (6, header_text),
    "cpu_desc": (8, header_text),
    "cpu_id": (9, header_text),
    "cmdline": (11, cmdline),
    "nr_cpus": (7, fixed(4, 4)),
    "total_mem": (10, single),
    "sample_time_range": (21, fixed(8, 8)),
    "clock_frequency": (23, single),
    "compression_info": (27, fixed(4, 4, 4, 4, 4)),
    "clock_data": (29, clock_data),
    "is_stats": (19, is_stats),
    "pmu_mappings": (16, pmu_mappings),
    "meta_info": (129, meta_info),
    "build_ids": (2, build_ids),
    "symbol_tables": (128, symbol_tables),
}
ORDERS = {"le": "little", "be": "big"}


def decimal(text):
    if not (text.isascii() and text.isdigit()) or int(text) > MOST_ROWS:
        raise BadLine
    return int(text)


def unhexed(text):
    if text[:1] != "x" or len(text) % 2 == 0 or not set(text[1:]) <= set("0123456789abcdef"):
        raise BadLine
    return bytes.fromhex(text[1:])


def answer(line):
    try:
        fields = line.split(" ")
        if len(fields) != 4 or fields[1] not in ORDERS:
            raise BadLine
        question, order, number, data = fields[0], ORDERS[fields[1]], decimal(fields[2]), fields[3]
        if question == "shown":
            return "text " + hexed(shown(unhexed(data)))
        if question == "detect":
            if number > 65535:
                raise BadLine
            key = detect(unhexed(data), number)
            return f"key {key[0]} {hexed(key[1])}" if key else "absent"
        if question not in QUESTIONS:
            raise BadLine
        feature, asked = QUESTIONS[question]
        if data == "-":
            return "absent"
        return asked(Section(unhexed(data), order, feature), number)
    except Refused as refusal:
        return str(refusal)
    except BadLine:
        return "bad line"


def main():
    # Line by line, so that it can also be asked by hand; bytes that are no text make a bad line, as any others would.
    for line in sys.stdin.buffer:
        print(answer(line.rstrip(b"\n").decode("latin-1")))


if __name__ == "__main__":
    main()
