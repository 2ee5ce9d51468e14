"""The same facts in many bytes: sections and images that differ in all that does not count.

A recording is a dict from carried features to facts: a text, its numbers, a list of texts, a dict of names or of pairs, a
list of builds (path, mode, id), a list of symbol tables (path, kind, lowest, symbols, tail). A Disguise writes it in an
order and a kind of image, with padding, with other values for a key before the one that stands, in any order where the
order does not count, and with sections and records that no head carries.
"""

import pathlib
import sys

import images

ROOT = pathlib.Path(__file__).resolve().parent.parent
sys.path.insert(0, str(ROOT / "compare"))
import lines  # noqa: E402
import reference  # noqa: E402

SIGN = {"le": "<", "be": ">"}
NO_OFFSET = reference.NO_OFFSET
TEXTS = (3, 4, 5, 6, 8, 9)
NUMBERS = {7: (4, 4), 10: (8,), 23: (8,)}
# Present in a store, but no question that a head carries asks for them.
NOT_CARRIED = (0, 1, 12, 13, 15, 17, 18, 20, 21, 27, 29, 32, 127, 130, 131, 133, 255)

RECORDINGS = [
    {},
    {19: True},
    {3: b"vm", 4: b"6.1.0-37-amd64", 5: b"", 6: b"x86_64", 8: b"\xc3\xa9 \xf0\x9f\x98\x80", 9: b"GenuineIntel,6,85,7"},
    {7: (2, 2**32 - 1), 10: (2**64 - 1,), 19: True, 23: (4_000,), 11: [b"/usr/bin/perf", b"record", b"", b"-o"]},
    {16: {4: b"cpu", 1: b"software", 2**31: b"", 0: b"\xe2\x82\xac", 2**32 - 1: b"kprobe"}, 11: []},
    {129: {b"simpleperf_version": b"1.build", b"a": b"", b"ab": b"c", b"": b"none", b"\xc3\xa9": b"e"}, 16: {}},
    {
        2: [
            (b"[kernel.kallsyms]_text", 1, bytes(range(1, 21))), (b"[guest.kernel.kallsyms.1]", 2, b""),
            (b"[vdso32]", 2, b"\1"), (b"[vdsox32]", 1, bytes(8)), (b"[vdso]", 2, bytes(20)), (b"[vsyscall]", 0, b"\1" * 4),
            (b"/lib/a.ko", 4, b"\2" * 16), (b"/lib/\xff.ko", 1, b"\3" * 19), (b"[ext4]", 1, bytes(3) + b"\4" + bytes(4)),
            (b"/lib/a.ko", 2, b"\5" * 12), (b"/usr/bin/ls", 5, b"\6" * 5), (b"", 2, b"\7" * 20), (b"/\xed\xa0\x80", 5, b"\0"),
        ],
    },
    {2: [(b"vmlinux", 1, b"\1" * 20), (b"vmlinux.guest", 4, b"\2" * 18)], 129: {}, 128: []},
    {
        128: [
            (b"/system/lib64/libc.so", 2, 0x1000, [(0x1000, 16, b"malloc"), (0x1010, 2**32 - 1, b"")], NO_OFFSET),
            (b"/vendor/m.ko", 1, 0, [], 0x40), (b"[kernel.kallsyms]", 0, 2**64 - 1, [(2**64 - 1, 0, b"_text")], None),
            (b"/data/base.vdex", 3, 7, [(8, 9, b"\xc3\xa9")], [1, 2**64 - 1, 0]), (b"", 3, 0, [], []), (b"/a", 2, 1, [], 5),
            (b"/jit", 4, 0, [(0, 0, b"")] * 3, None), (b"?", 5, 1, [], None), (b"/m", 1, 2, [(3, 4, b"s")], NO_OFFSET),
        ],
        3: b"phone",
    },
]
# All facts at once: those of the recordings, one after the other.
RECORDINGS.append({number: fact for recording in RECORDINGS for number, fact in recording.items() if fact})


def shuffled(rng, items):
    return rng.sample(items, len(items))


def key_of(path, misc):
    """The key of a path: that of a user file is its path, any other is known by its kind and name."""
    found = reference.detect(path, misc)
    return ("User", path) if found and found[0] == "User" else found


def modes_of(path, key):
    return [mode for mode in range(8) if key_of(path, mode) == key]


class Disguise:
    def __init__(self, rng, order):
        self.rng, self.order, self.build = rng, order, lines.Build(rng, order)

    def some(self, *choices):
        return self.rng.choice(choices)

    def junk(self, most=6):
        return self.rng.randbytes(self.rng.randrange(most + 1))

    def number(self, size, value):
        return self.build.number(size, value)

    def padded(self, text):
        return text + self.some(b"", b"\0", bytes(-len(text) % 8), b"\0" + self.junk())

    def text(self, text):
        return self.build.header_text(self.padded(text)) + self.junk()

    def texts(self, texts):
        return self.build.list_of_texts([self.padded(text) for text in texts]) + self.junk()

    def names(self, names):
        given = shuffled(self.rng, list(names.items()))
        earlier = [(key, self.some(b"", b"other")) for key, _ in given if self.rng.random() < 0.4]
        items = earlier + given
        for _ in range(self.rng.randrange(3)):
            skipped = self.some(5, *names), self.some(b"\xff", b"a\xc3", b"\xed\xa0\x80\0")
            items.insert(self.rng.randrange(len(items) + 1), skipped)
        return self.build.pmu_mappings([(key, self.padded(name)) for key, name in items]) + self.junk()

    def pairs(self, pairs):
        given = shuffled(self.rng, list(pairs.items()))
        earlier = [(key, b"other") for key, _ in given if self.rng.random() < 0.4]
        pieces = b"\0".join(piece for pair in earlier + given for piece in pair)
        lone = self.some(b"", b"\xff\xff", b"key without value")
        return pieces + self.some(b"", b"\0" + lone) if given else lone

    def stored(self, found):
        """An id as its 24 bytes, with a flag for misc."""
        rng = self.rng
        if len(found) % 4 == 0 and found[-4:] != bytes(4) and rng.random() < 0.5:
            return 0, found.ljust(20, b"\0") + rng.randbytes(4)
        length = len(found) if len(found) < 20 else rng.randrange(20, 256)
        return 0x8000, found + rng.randbytes(20 - len(found)) + bytes([length]) + rng.randbytes(3)

    def record(self, path, mode, found):
        rng = self.rng
        flag, stored = self.stored(found)
        path += self.some(b"", b"\0", b"\0" + self.junk())
        misc = flag | rng.randrange(2**12) << 3 | mode
        size = 36 + len(path) if path else rng.randrange(37)
        front = [(4, self.some(67, 0, 2**32 - 1)), (2, misc), (2, size), (4, self.some(0, 7, 2**32 - 1))]
        return b"".join(self.number(*each) for each in front) + stored + path

    def builds(self, builds):
        rng = self.rng
        given, earlier = [], []
        for path, mode, found in builds:
            key = key_of(path, mode)
            given.append(self.record(path, rng.choice(modes_of(path, key)), found))
            # another path may have the same key: a module's name, for the file of the module
            other = rng.choice([each for each in (path, key[1]) if modes_of(each, key)])
            if rng.random() < 0.4:
                earlier.append(self.record(other, rng.choice(modes_of(other, key)), rng.randbytes(rng.randrange(21))))
        records = earlier + shuffled(rng, given)
        for _ in range(rng.randrange(3)):
            none = self.record(*self.some((b"//anon", 2), (b"[heap]", 1), (b"/usr/bin/ls", 0), (b"/a.ko", 7)), b"\1\2")
            records.insert(rng.randrange(len(records) + 1), none)
        unfit = self.some(b"", rng.randbytes(35), self.record(b"/usr/bin/cut", 2, b"\1")[:-1])
        return b"".join(records) + unfit

    def table(self, path, kind, lowest, symbols, tail):
        front = path + b"\0" + self.number(4, kind) + self.number(8, lowest) + self.number(4, len(symbols))
        for address, length, name in symbols:
            front += self.number(8, address) + self.number(4, length) + name + b"\0"
        if kind == 3:
            front += self.number(4, len(tail)) + b"".join(self.number(8, offset) for offset in tail)
        elif kind in (1, 2):
            if tail == NO_OFFSET and self.rng.random() < 0.5:
                return front
            front += self.number(8, tail)
        return front + self.junk()

    def section(self, feature, fact):
        if feature in TEXTS:
            return self.text(fact)
        if feature in NUMBERS:
            return b"".join(map(self.number, NUMBERS[feature], fact)) + self.junk()
        if feature == 19:
            return self.junk()
        if feature == 128:
            return self.build.symbol_tables([self.table(*each) for each in fact])
        return {2: self.builds, 11: self.texts, 16: self.names, 129: self.pairs}[feature](fact)

    def sections(self, recording):
        return {feature: self.section(feature, fact) for feature, fact in recording.items()}

    def others(self):
        return {feature: self.junk(30) for feature in self.rng.sample(NOT_CARRIED, self.rng.randrange(5))}

    def file(self, recording):
        gap = self.junk(20)
        sections = self.sections(recording) | self.others()
        return images.file_image(SIGN[self.order], sections, data_size=len(gap), gap=gap)

    def pipe(self, recording):
        sign, rng = SIGN[self.order], self.rng
        sections = self.sections(recording) | self.others()
        records = [images.feature(sign, number, self.junk()) for number in sections if rng.random() < 0.3]
        records += [images.feature(sign, *each) for each in shuffled(rng, list(sections.items()))]
        for _ in range(rng.randrange(4)):
            other = self.some(
                images.record(sign, self.some(1, 79, 81, 2**31 + 80), self.junk(20), misc=rng.randrange(2**16)),
                images.feature(sign, self.some(256, 2**8 + 3, 2**32 + 3, 2**63 + 7), self.junk()),
            )
            records.insert(rng.randrange(len(records) + 1), other)
        return images.pipe_image(sign, *records)

    def head(self, recording):
        """A head image whose sections are not in their settled form; it is little-endian."""
        assert self.order == "le"
        return images.head_image(*[images.entry(*each) for each in sorted(self.sections(recording).items())])


def kinds(recording, rng):
    """A recording in each kind of image and each order."""
    for order in ("le", "be"):
        disguise = Disguise(rng, order)
        yield disguise.file(recording)
        yield disguise.pipe(recording)
    yield Disguise(rng, "le").head(recording)
