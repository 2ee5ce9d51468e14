#!/usr/bin/env python3
"""Writes questions for the comparison, one a line (the protocol: compare/README.md).

    compare/lines.py [SEED [COUNT]] > LINES

First come the lines that do not depend on the seed: short sections without a gap, every path shape and mode, every cut
of good sections, the sections of the two recordings of this repository under every question. The rest up to COUNT is
random: good sections, sections with numbers off by a little or by much, damaged copies. No line comes twice. A COUNT
below the number of the first lines takes a random part of them.
"""

import itertools
import pathlib
import random
import sys

ROOT = pathlib.Path(__file__).resolve().parent.parent
sys.path.insert(0, str(ROOT / "tools"))
import images  # noqa: E402

SEED, COUNT = 1, 200_000
ORDERS = {"le": "little", "be": "big"}
ALL_ROWS = 65536
TEXT_QUESTIONS = ["hostname", "os_release", "perf_version", "arch", "cpu_desc", "cpu_id"]
FIXED = {
    "nr_cpus": [4, 4],
    "total_mem": [8],
    "sample_time_range": [8, 8],
    "clock_frequency": [8],
    "compression_info": [4, 4, 4, 4, 4],
    "clock_data": [4, 4, 8, 8],
}
TABLES = ["pmu_mappings", "meta_info", "build_ids"]
QUESTIONS = TEXT_QUESTIONS + ["cmdline"] + list(FIXED) + ["is_stats"] + TABLES + ["symbol_tables"]
FEATURES = {
    2: "build_ids",
    3: "hostname",
    4: "os_release",
    5: "perf_version",
    6: "arch",
    7: "nr_cpus",
    8: "cpu_desc",
    9: "cpu_id",
    10: "total_mem",
    11: "cmdline",
    16: "pmu_mappings",
    21: "sample_time_range",
}

# One byte on each side of every bound of the table of well-formed sequences.
TELLING = bytes.fromhex("00417f808f909fa0bfc0c1c2dfe0e1ecedeeeff0f1f3f4f5ff")
SMALL_TELLING = bytes.fromhex("0061807fbfc2c1e0a0ed9ff090f48fff")


def question(name, order, data, rows=ALL_ROWS):
    return f"{name} {order} {rows} " + ("-" if data is None else "x" + data.hex())


def strings(alphabet, most):
    for length in range(most + 1):
        for string in itertools.product(alphabet, repeat=length):
            yield bytes(string)


class Build:
    """Builds sections in an order. With `off` above 0, that part of its lengths and counts is wrong."""

    def __init__(self, rng, order, off=0.0):
        self.rng, self.order, self.off = rng, order, off

    def number(self, size, value):
        return (value % 256**size).to_bytes(size, ORDERS[self.order])

    def counted(self, value):
        """A u32 that counts something, and may be wrong."""
        rng = self.rng
        if self.off and rng.random() < self.off:
            near = [value - 1, value + 1, value - 2, value + 2, value + 4, value + 8, value - 4, 0, 1, value * 2]
            far = [2**16, 2**24, value << 24, value << 8]
            huge = [2**26, 2**30, 2**31, 2**32 - 1, 2**32 - 4]
            # Few huge ones: each may cost the Rust's worker its life, and a new one takes its time.
            value = rng.choice(rng.choices([near, far, huge], [90, 8, 2])[0])
        return self.number(4, value)

    def any_number(self, size):
        rng = self.rng
        top = 256**size
        bounds = [0, 1, 2, 255, 256, top - 1, top // 2, top // 2 - 1]
        return self.number(size, rng.choice(bounds + [rng.randrange(top), rng.randrange(1000)]))

    def header_text(self, text):
        return self.counted(len(text)) + text

    def list_of_texts(self, texts):
        return self.counted(len(texts)) + b"".join([self.header_text(text) for text in texts])

    def pmu_mappings(self, pairs):
        items = [self.number(4, key) + self.header_text(name) for key, name in pairs]
        return self.counted(len(items)) + b"".join(items)

    def build_id(self, path, misc, stored, size=None, kind=67):
        size = 36 + len(path) if size is None else size
        rng = self.rng
        if self.off and rng.random() < self.off:
            size = rng.choice([size - 1, size + 1, size + 4, size - 4, 0, 8, 35, 36, 37, 65535, size + 36])
        header = self.number(4, kind) + self.number(2, misc) + self.number(2, size)
        return header + self.number(4, 2**32 - 1) + stored + path

    def symbol_record(self, path, kind, symbols, tail=b""):
        """`tail` is None for one that fits the kind."""
        record = path + b"\0" + self.number(4, kind) + self.any_number(8) + self.counted(len(symbols))
        for name in symbols:
            record += self.any_number(8) + self.any_number(4) + name + b"\0"
        if tail is None:
            tail = b""
            if kind == 3:
                count = self.rng.randrange(4)
                tail = self.counted(count) + b"".join([self.any_number(8) for _ in range(count)])
            elif kind in (1, 2) and self.rng.random() < 0.7:
                tail = self.any_number(8)
        return record + tail

    def symbol_tables(self, records):
        return b"".join([self.counted(len(record)) + record for record in records])


# Paths.

SPECIAL = [
    b"//anon", b"[stack]", b"[heap]", b"[vvar]", b"[kernel.kallsyms]", b"[kernel.kallsyms]_text",
    b"[kernel.kallsyms]_stext", b"[guest.kernel.kallsyms]", b"[guest.kernel.kallsyms.123]", b"[guest.kernel.kallsyms",
    b"[vdso32]", b"[vdsox32]", b"[vdso]", b"[vsyscall]", b"[kernel]", b"[ext4]", b"[kernel.vmlinux]", b"[]", b"[",
    b"]", b"", b"/", b"//", b"///", b".ko", b"/.ko", b".ko/", b"a.ko", b"/a.ko", b"/a/b.ko", b"/a.ko/b", b"a.ko/",
    b"a.kO", b".k", b"ko", b"a.ko.xz", b"a.ko.gz", b"a.koo", b"[a.ko]", b"[a].ko", b"[a.ko", b"/[a.ko", b"/[vdso]",
    b"/[kernel.kallsyms]", b"x[kernel.kallsyms]", b"/anon", b"anon", b"///anon", b"vmlinux", b"/boot/vmlinux-6.1.0",
    b"/lib/modules/6.1/kernel/sound/core/snd-seq-device.ko", b"/usr/lib/libc.so.6", b"/usr/bin/ls", b"ls", b"./ls",
    b"/usr/bin/", b"/tmp/perf-1.map", b"inode:[123]", b"/memfd:a (deleted)", b"/a\xff.ko", b"\xf0\x9f.ko", b"[\xff]",
    b"[\xc3\xa9]", b"/\xc3\xa9", b"/\xc3/\xa9", b"\xc3/.ko", b"\xe2\x82\xac.ko", b"\xe2\x82.ko", b"/\xed\xa0\x80",
    b"a\0b.ko", b"\0", b"[vdso]\0", b"/a\0/b", b"[ext4]\0.ko",
]


def neighbours(path):
    """The path and those a byte away from it at its ends."""
    yield path
    yield path[:-1]
    yield path[1:]
    for byte in (b"a", b"/", b"[", b"]", b"\0", b".ko"):
        yield path + byte
        yield byte + path


MISCS = list(range(8)) + [0x8000 + mode for mode in range(8)] + [8, 9, 0x7FF9, 0x4002, 0xFFF8, 0xFFFF]


# The first lines.


def shown_lines():
    for text in strings(TELLING, 3):
        yield question("shown", "le", text, 0)
    follow = bytes.fromhex("7f808f909fa0bfc2")
    for text in itertools.product(bytes.fromhex("c2e0e1edeff0f1f3f441"), follow, follow, follow):
        yield question("shown", "le", bytes(text), 0)


def detect_lines():
    for path in sorted({near for path in SPECIAL for near in neighbours(path)}):
        for misc in MISCS:
            yield question("detect", "le", path, misc)


def text_lines(build):
    for order in ORDERS:
        build.order = order
        for name in TEXT_QUESTIONS:
            yield question(name, order, None)
            for data in strings(b"\0\1a", 4):
                yield question(name, order, data)
            for length in list(range(9)) + [255, 256, 2**24, 2**31, 2**32 - 1]:
                for text in (b"", b"a", b"ab\0c", b"abcd\0\xff", b"\xc3", b"\0\xff\xff"):
                    yield question(name, order, build.number(4, length) + text)
    build.order = "le"
    for text in strings(SMALL_TELLING, 3):
        yield question("hostname", "le", build.header_text(text))


def list_pieces(build):
    text = build.header_text
    return [
        text(b"a"), text(b""), text(b"a\0\xff"), text(b"\xff"), text(b"\xc3\xa9"), build.number(4, 9) + b"a",
        build.number(4, 2) + b"a", b"\1\0\0", b"\0",
    ]


def cmdline_lines(build):
    yield question("cmdline", "le", None)
    for data in strings(b"\0\1a", 5):
        yield question("cmdline", "le", data)
    for order in ORDERS:
        build.order = order
        pieces = list_pieces(build)
        for count in range(5):
            for several in strings(range(len(pieces)), 3):
                if len(several) < 3 or order == "le" or count == 3:
                    yield question("cmdline", order, build.number(4, count) + b"".join([pieces[k] for k in several]))
        for count in (2**16, 2**24, 2**26 - 1, 2**26, 2**26 + 1, 2**31, 2**32 - 1):
            yield question("cmdline", order, build.number(4, count) + pieces[0] * 2)


def pmu_lines(build):
    yield question("pmu_mappings", "le", None)
    for data in strings(b"\0\1a", 5):
        yield question("pmu_mappings", "le", data)
    for order in ORDERS:
        build.order = order
        texts = list_pieces(build)
        pieces = [build.number(4, k % 3) + text for k, text in enumerate(texts)]
        pieces += [build.number(4, 0) + build.header_text(b"b"), build.number(4, 2**32 - 1) + texts[0], b"\0\0\0"]
        for count in range(5):
            for several in strings(range(len(pieces)), 3):
                if len(several) < 3 or count == 3:
                    data = build.number(4, count) + b"".join([pieces[k] for k in several])
                    yield question("pmu_mappings", order, data)
                    if len(several) == 2 or several[:1] == b"\0":
                        yield question("pmu_mappings", order, data, len(several) - 1)
        for count in (2**16, 2**24, 2**25 - 1, 2**25, 2**25 + 1, 2**31, 2**32 - 1):
            yield question("pmu_mappings", order, build.number(4, count) + pieces[0] * 2)
            yield question("pmu_mappings", order, build.number(4, 1) + bytes(4) + build.number(4, count) + b"abc")


def meta_lines():
    yield question("meta_info", "be", None)
    for data in strings(b"\0ab\xc3\xa9", 5):
        yield question("meta_info", "le", data)
    for data in strings(b"\0a\xff", 7):
        yield question("meta_info", "be", data)
    for data in strings(b"\0a", 9):
        yield question("meta_info", "le", data)
        yield question("meta_info", "le", data, 1)


def fixed_lines(build):
    for order in ORDERS:
        build.order = order
        for name, sizes in FIXED.items():
            yield question(name, order, None)
            for fill in (b"\0", b"\1", b"\xff", bytes(range(1, 200))):
                for length in range(sum(sizes) + 10):
                    yield question(name, order, (fill * 40)[:length])
        for version in (0, 1, 2, 255, 256, 2**24, 2**31, 2**32 - 1):
            for length in range(27):
                data = build.number(4, version) + bytes(range(0xE0, 0xFF))
                yield question("clock_data", order, data[:length])
        for data in (None, b"", b"\0", b"\xff" * 9):
            yield question("is_stats", order, data)


IDS = [
    bytes(24), b"\1" + bytes(23), bytes(3) + b"\1" + bytes(20), bytes(4) + b"\1" + bytes(19),
    bytes(range(1, 21)) + b"\0\0\0\0", bytes(range(1, 21)) + b"\x08\xff\xff\xff", b"\xaa" * 24,
    bytes(range(1, 17)) + bytes(8), bytes(range(1, 18)) + bytes(7), bytes(19) + b"\1" + b"\x14\0\0\0",
    bytes(16) + b"\0\0\0\1" + b"\x15\0\0\0", b"\1\2\3\4" + bytes(16) + b"\4\0\0\0", bytes(20) + b"\xff\xff\xff\xff",
]


def build_id_lines(build):
    for order in ORDERS:
        build.order = order
        yield question("build_ids", order, None)
        for path in SPECIAL:
            for misc in MISCS:
                yield question("build_ids", order, build.build_id(path, misc, IDS[4]))
        for stored in IDS:
            for misc in (1, 2, 0x8001, 0x8002, 0x8000, 0x7FFA):
                yield question("build_ids", order, build.build_id(b"/a", misc, stored))
            for length in range(256):
                flagged = stored[:20] + bytes([length]) + stored[21:]
                if stored is IDS[6] or length in (0, 1, 19, 20, 21, 255):
                    yield question("build_ids", order, build.build_id(b"/a", 0x8002, flagged))
                    yield question("build_ids", order, build.build_id(b"/a", 2, flagged))
        records = [build.build_id(path, 2, IDS[5]) for path in (b"/b", b"/a\0\0", b"/b")]
        several = b"".join(records) + build.build_id(b"[kernel.kallsyms]", 1, IDS[0]) + records[0]
        for end in range(len(several) + 1):
            yield question("build_ids", order, several[:end])
        for rows in range(5):
            yield question("build_ids", order, several, rows)
        # Sizes around the least record, with more bytes behind it than any of them takes.
        for size in list(range(60)) + [255, 256, 2**15, 2**16 - 1]:
            yield question("build_ids", order, build.build_id(b"/abc", 2, IDS[5], size) + records[0] * 2)
            yield question("build_ids", order, build.build_id(b"", 1, IDS[5], size))
        pairs = [(b"/a", 2), (b"/a/", 2), (b"/a", 5), (b"/a", 1), (b"/m.ko", 1), (b"[m]", 4), (b"[m\xff]", 1)]
        pairs += [(b"/m\xfe.ko", 1), (b"/m\xff.ko", 4), (b"[vdso]", 0), (b"//anon", 2), (b"[heap]", 1), (b"", 2)]
        for both in itertools.product(pairs, repeat=2):
            made = [build.build_id(path, misc, IDS[4 + k]) for k, (path, misc) in enumerate(both)]
            yield question("build_ids", order, b"".join(made))
            yield question("build_ids", order, b"".join(made), 1)
        for kinds in itertools.permutations(pairs[3:8] + [(b"/m", 2)], 4):
            made = [build.build_id(path, misc, IDS[4]) for path, misc in kinds]
            yield question("build_ids", order, b"".join(made))


def symbol_lines(build):
    texts = [b"", b"a", b"\xc3\xa9", b"\xff", b"\xc3"]
    for order in ORDERS:
        build.order = order
        yield question("symbol_tables", order, None)
        for data in strings(b"\0\1", 7):
            yield question("symbol_tables", order, data)
        for kind in list(range(8)) + [255, 256, 2**24, 2**31, 2**32 - 1]:
            for path in texts:
                for symbols in ([], [b"s"], [b"s", b""], [b"s", b"\xff"], [b"\xed\xa0\x80", b"t"]):
                    for length in (0, 1, 7, 8, 9):
                        record = build.symbol_record(path, kind, symbols, bytes(range(1, 1 + length)))
                        yield question("symbol_tables", order, build.symbol_tables([record]))
        for kind in range(8):
            for count in range(4):
                # A tail of a count and offsets, with up to nine bytes missing or over.
                for length in range(8 * count + 5):
                    tail = (build.number(4, count) + b"\1" * 24)[:length]
                    record = build.symbol_record(b"/d", kind, [b"s"] if count % 2 else [], tail)
                    yield question("symbol_tables", order, build.symbol_tables([record]))
            good = [build.symbol_record(b"/d", kind, [b"s", b"tu"], None)]
            good.append(build.symbol_record(b"e", 5 - kind, [b""], None))
            section = build.symbol_tables(good)
            for end in range(len(section) + 1):
                yield question("symbol_tables", order, section[:end])
            # The same cut once more as a record of its own, so that the record and not the section ends early.
            for end in range(len(good[0]) + 1):
                yield question("symbol_tables", order, build.symbol_tables([good[0][:end], good[1]]))
            for count in list(range(40)) + [2**16, 2**31, 2**32 - 1]:
                head = b"/d\0" + build.number(4, kind) + build.number(8, 7) + build.number(4, count)
                for rest in (b"", b"\1" * 13, b"\1" * 12 + b"\0" + b"\2" * 13, bytes(39)):
                    yield question("symbol_tables", order, build.symbol_tables([head + rest]))
                dex = build.symbol_record(b"/d", 3, [b"s"], build.number(4, count) + b"\1" * 16)
                yield question("symbol_tables", order, build.symbol_tables([dex]))


def real_lines():
    for place in ("crates/perf_info/stdin", "samples/recording.pipe"):
        order, sections = images.read_any((ROOT / place).read_bytes())
        order = {"<": "le", ">": "be"}[order]
        for number, data in sections.items():
            for name in QUESTIONS:
                for each in ORDERS:
                    yield question(name, each, data)
            if number in FEATURES:
                for end in range(len(data)):
                    yield question(FEATURES[number], order, data[:end])


def large_lines(build):
    for order in ORDERS:
        build.order = order
        yield question("hostname", order, build.header_text(b"h" * 65531))
        yield question("cmdline", order, build.list_of_texts([b"%d" % k for k in range(5000)]))
        pairs = [(k * 7919 % 3000, b"p%d" % k) for k in range(3500)]
        yield question("pmu_mappings", order, build.pmu_mappings(pairs))
        yield question("pmu_mappings", order, build.pmu_mappings(pairs), 2999)
        yield question("pmu_mappings", order, build.pmu_mappings(pairs), 3000)
        meta = b"".join([b"k%d\0v%d\0" % (k * 7919 % 2000, k) for k in range(2500)])
        yield question("meta_info", order, meta)
        yield question("meta_info", order, meta, 1999)
        path = b"/" + b"d" * (65535 - 36 - 1)
        yield question("build_ids", order, build.build_id(path, 2, IDS[4]))
        yield question("build_ids", order, build.build_id(path[:-1], 2, IDS[4], 65535))
        paths = [build.build_id(b"/lib/l%d.so" % (k * 7919 % 900), k % 6, IDS[4]) for k in range(1200)]
        yield question("build_ids", order, b"".join(paths))
        record = build.symbol_record(b"/lib/l.so", 2, [b"s%d" % k for k in range(2500)], None)
        yield question("symbol_tables", order, build.symbol_tables([record, record[:60]]))
        yield question("symbol_tables", order, build.symbol_tables([build.symbol_record(b"/e", 2, [], None)] * 1500))


BAD_LINES = [
    "", " ", "hostname", "hostname le", "hostname le 65536", "hostname le 65536 x 00", "hostname le 65536 x0",
    "hostname le 65536 xg0", "hostname le 65536 00", "hostname me 65536 x", "hostnames le 65536 x", "none be 1 -",
    "hostname le -1 x", "hostname le ten x", "x00", "- - - -",
]


def first_lines():
    build = Build(random.Random(0), "le")
    yield from BAD_LINES
    yield from shown_lines()
    yield from detect_lines()
    yield from text_lines(build)
    yield from cmdline_lines(build)
    yield from pmu_lines(build)
    yield from meta_lines()
    yield from fixed_lines(build)
    yield from build_id_lines(build)
    yield from symbol_lines(build)
    yield from real_lines()
    yield from large_lines(build)


# The random lines.

GOOD_CHARACTERS = list("aZ0/.- \u00e9\u07ff\u0800\u20ac\ud7ff\ue000\uffff\U00010000\U0010ffff")
WORDS = [b"x86_64", b"6.1.0-37-amd64", b"perf", b"record", b"cpu", b"software", b"GenuineIntel,6,85,7", b"-o", b"main"]


def random_text(rng, ill=0.15):
    """A text; `ill` is how often its bytes may be ill formed."""
    if rng.random() < ill:
        return bytes([rng.choice(TELLING) for _ in range(rng.randrange(8))])
    if rng.random() < 0.5:
        return rng.choice(WORDS)
    return "".join([rng.choice(GOOD_CHARACTERS) for _ in range(rng.randrange(10))]).encode()


def padded(rng, text):
    kind = rng.random()
    if kind < 0.4:
        return text
    if kind < 0.7:
        return text + bytes(rng.randrange(1, 9))
    if kind < 0.9:
        return text + b"\0" + random_text(rng, 0.6)
    return text + bytes(-len(text) % 64)


def random_path(rng):
    kind = rng.random()
    if kind < 0.4:
        return rng.choice(SPECIAL)
    if kind < 0.5:
        return rng.choice(list(neighbours(rng.choice(SPECIAL))))
    parts = [random_text(rng, 0.2) for _ in range(rng.randrange(1, 4))]
    end = rng.choice([b"", b".ko", b"]", b".so", b"/", b".k"])
    return rng.choice([b"/", b"", b"[", b"//"]) + b"/".join(parts) + end


def random_stored(rng):
    if rng.random() < 0.4:
        return rng.choice(IDS)
    groups = [bytes([rng.choice([0, 0, 0, 1, 255]) for _ in range(4)]) for _ in range(5)]
    return b"".join(groups) + bytes([rng.choice([0, 1, 4, 8, 16, 19, 20, 21, 255, rng.randrange(256)])]) + b"\0\0\0"


def random_section(rng, name, build):
    some = rng.choice([0, 1, 1, 2, 2, 3, 4, 7])
    if name in TEXT_QUESTIONS:
        return build.header_text(padded(rng, random_text(rng)))
    if name == "cmdline":
        ill = rng.choice([0, 0.1])
        return build.list_of_texts([padded(rng, random_text(rng, ill)) for _ in range(some)])
    if name in FIXED:
        sizes = FIXED[name]
        data = b"".join([build.any_number(size) for size in sizes])
        if name == "clock_data" and rng.random() < 0.8:
            data = build.number(4, 1) + data[4:]
        return data
    if name == "is_stats":
        return bytes(some)
    if name == "pmu_mappings":
        keys = [0, 1, 2, 4, 5, 255, 256, 2**16, 2**24, 2**31, 2**32 - 1, rng.randrange(2**32)]
        return build.pmu_mappings([(rng.choice(keys), padded(rng, random_text(rng))) for _ in range(some)])
    if name == "meta_info":
        ill = rng.choice([0, 0, 0.1])
        keys = [random_text(rng, ill) for _ in range(3)] + [b"a", b"ab", b"", b"b"]
        pieces = []
        for _ in range(some):
            pieces += [rng.choice(keys), random_text(rng, ill)]
        return b"\0".join(pieces) + rng.choice([b"", b"\0", b"\0", b"\0\xff", b"\0k"])
    if name == "build_ids":
        miscs = [1, 2, 2, 4, 5, 0x8001, 0x8002, rng.choice(MISCS), rng.randrange(65536)]
        made = []
        for _ in range(some):
            path = random_path(rng) + rng.choice([b"", b"\0", bytes(4), b"\0x"])
            made.append(build.build_id(path, rng.choice(miscs), random_stored(rng)))
        return b"".join(made)
    if name == "symbol_tables":
        ill = rng.choice([0, 0, 0.05])
        made = []
        for _ in range(some):
            symbols = [random_text(rng, ill) for _ in range(rng.choice([0, 1, 2, 3, 6]))]
            kind = rng.choice([0, 1, 2, 3, 4, 5] * 5 + [6, 2**31])
            record = build.symbol_record(random_text(rng, ill), kind, symbols, None)
            made.append(record + rng.choice([b"", b"", b"\0", b"ab"]))
        return build.symbol_tables(made)
    raise ValueError(name)


def damaged(rng, data):
    kind = rng.randrange(7)
    at = rng.randrange(len(data) + 1)
    if kind == 0:
        return data[:at]
    if kind == 1:
        return data[at:]
    if kind == 2 and at < len(data):
        return data[:at] + bytes([rng.choice(TELLING)]) + data[at + 1 :]
    if kind == 3 and at < len(data):
        return data[:at] + bytes([data[at] ^ 1 << rng.randrange(8)]) + data[at + 1 :]
    if kind == 4:
        return data[:at] + bytes([rng.choice(TELLING)]) + data[at:]
    if kind == 5:
        return data[:at] + data[at + 1 :]
    return data + bytes([rng.choice(TELLING) for _ in range(rng.randrange(1, 9))])


def random_line(rng):
    name = rng.choices(QUESTIONS + ["detect", "shown"], [2] * 6 + [12] + [2] * 6 + [0.1] + [12, 12, 16] + [20, 6, 6])[0]
    if name == "shown":
        text = b"".join([random_text(rng, 0.6) for _ in range(rng.randrange(1, 5))])
        text += bytes([rng.randrange(256) for _ in range(rng.randrange(6))])
        return question(name, "le", text, 0)
    if name == "detect":
        return question(name, "le", random_path(rng), rng.choice(MISCS + [rng.randrange(65536)]))
    order = rng.choice(["le", "be"])
    build = Build(rng, order, rng.choice([0, 0, 0.1, 0.3]))
    data = random_section(rng, name, build)
    while rng.random() < 0.3:
        data = damaged(rng, data)
    if rng.random() < 0.02:
        order = rng.choice(["le", "be"])
    rows = ALL_ROWS
    if name in TABLES and rng.random() < 0.1:
        rows = rng.randrange(5)
    return question(name, order, data, rows)


def lines(seed=SEED, count=COUNT):
    first = list(dict.fromkeys(first_lines()))
    rng = random.Random(seed)
    if count < len(first):
        yield from (first[k] for k in sorted(rng.sample(range(len(first)), count)))
        return
    yield from first
    seen = set(first)
    left = count - len(first)
    while left:
        line = random_line(rng)
        if line not in seen:
            seen.add(line)
            left -= 1
            yield line


def main():
    sys.stdout.writelines(line + "\n" for line in lines(*map(int, sys.argv[1:3])))


if __name__ == "__main__":
    main()
