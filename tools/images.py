"""An independent reader of the three kinds of image, for expected answers, and builders of such images.

The reader was written from the formats as docs/FORMATS.md states them and shares nothing with the library: it slices with
Python's integers and struct, and finds a feature's table entry by counting bits.
"""

import struct

LIMIT = 16_777_216
# The features of perf's header.h, from 1 on.
PERF = """TRACING_DATA BUILD_ID HOSTNAME OSRELEASE VERSION ARCH NRCPUS CPUDESC CPUID TOTAL_MEM CMDLINE EVENT_DESC
CPU_TOPOLOGY NUMA_TOPOLOGY BRANCH_STACK PMU_MAPPINGS GROUP_DESC AUXTRACE STAT CACHE SAMPLE_TIME MEM_TOPOLOGY CLOCKID
DIR_FORMAT BPF_PROG_INFO BPF_BTF COMPRESSED CPU_PMU_CAPS CLOCK_DATA HYBRID_TOPOLOGY PMU_CAPS""".split()
CARRIED = set(range(2, 12)) | {16, 19, 23, 128, 129}
MARKS = {b"PERFILE2": "<", b"2ELIFREP": ">"}


class Refused(Exception):
    pass


def refuse(number, offset=0):
    raise Refused(f"refused {number} 1 256 {offset}")


def sized(image, least):
    if len(image) > LIMIT:
        refuse(3)
    if len(image) < least:
        refuse(1)


def marked(image, size):
    order = MARKS.get(image[:8])
    if order is None or struct.unpack_from(order + "Q", image, 8)[0] != size:
        refuse(2)
    return order


def read_file(image):
    sized(image, 104)
    order = marked(image, 104)
    data, size = struct.unpack_from(order + "QQ", image, 40)
    words = struct.unpack_from(order + "QQQQ", image, 72)
    features = [n for n in range(256) if words[n // 64] >> n % 64 & 1]
    table = data + size
    if table + 16 * len(features) > len(image):
        refuse(4, 40)
    sections = {}
    for k, n in enumerate(features):
        start, length = struct.unpack_from(order + "QQ", image, table + 16 * k)
        if start + length > len(image):
            refuse(4, table + 16 * k)
        sections[n] = image[start : start + length]
    return order, sections


def read_pipe(image):
    sized(image, 16)
    order = marked(image, 16)
    at, sections = 16, {}
    while at < len(image):
        if len(image) - at < 8:
            refuse(5, at)
        kind, _misc, size = struct.unpack_from(order + "IHH", image, at)
        if size < 8 or at + size > len(image) or (kind == 80 and size < 16):
            refuse(5, at)
        if kind == 80:
            number = struct.unpack_from(order + "Q", image, at + 8)[0]
            if number < 256:
                sections[number] = image[at + 16 : at + size]
        at += size
    return order, sections


def read_head(image):
    sized(image, 5)
    if image[:3] != b"PRH" or image[3:5] != b"\1\0":
        refuse(2)
    at, last, sections = 5, -1, {}
    while at < len(image):
        if len(image) - at < 6:
            refuse(17, at)
        number, length = struct.unpack_from("<HI", image, at)
        if number not in CARRIED or number <= last or at + 6 + length > len(image):
            refuse(17, at)
        sections[number] = image[at + 6 : at + 6 + length]
        at, last = at + 6 + length, number
    return "<", sections


def read_any(image):
    if image[:3] == b"PRH":
        return read_head(image)
    order = MARKS.get(image[:8])
    if order and len(image) >= 16 and struct.unpack_from(order + "Q", image, 8)[0] == 16:
        return read_pipe(image)
    return read_file(image)


READERS = {"any": read_any, "file": read_file, "pipe": read_pipe, "head": read_head}


def answer(kind, image):
    try:
        order, sections = READERS[kind](image)
    except Refused as refusal:
        return str(refusal)
    name = {"<": "little", ">": "big"}[order]
    return " ".join([name] + [f"{n}:x{sections[n].hex()}" for n in sorted(sections)])


# Builders. They also build images that are to be refused: a size, a length or a place can be set to anything.


def mark(order):
    return {v: k for k, v in MARKS.items()}[order]


def file_image(order, sections, size=104, data=104, data_size=0, gap=b""):
    """A file image whose table stands behind the header, and its sections behind the table."""
    words = [sum(1 << n % 64 for n in sections if n // 64 == w) for w in range(4)]
    front = mark(order) + struct.pack(order + "8Q", size, 0, 0, 0, data, data_size, 0, 0)
    image = front + struct.pack(order + "4Q", *words) + gap
    at = len(image) + 16 * len(sections)
    table, body = b"", b""
    for n in sorted(sections):
        table += struct.pack(order + "QQ", at + len(body), len(sections[n]))
        body += sections[n]
    return image + table + body


def record(order, kind, body, size=None, misc=0):
    return struct.pack(order + "IHH", kind, misc, 8 + len(body) if size is None else size) + body


def feature(order, number, section, size=None):
    return record(order, 80, struct.pack(order + "Q", number) + section, size)


def pipe_image(order, *records):
    return mark(order) + struct.pack(order + "Q", 16) + b"".join(records)


def entry(number, section, length=None):
    return struct.pack("<HI", number, len(section) if length is None else length) + section


def head_image(*entries):
    return b"PRH\1\0" + b"".join(entries)
