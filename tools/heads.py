"""The head of an image, once more in Python, for expected answers: the settled byte form of the facts it carries.

    tools/heads.py [ROWS [ROOM]] < IMAGE

prints the head in hexadecimal, or the refusal. It follows the rules of docs/FORMATS.md and docs/REFUSALS.md and shares nothing
with the library. Images are taken apart by images.py, and sections read by compare/reference.py. A head is written here
from the fifteen answers alone, so that stores that answer alike have one head by construction; that a head answers as its
store did is for `speaks` to try.

Refusals, in this order: those of the image; 16 where feature 132 is present; those of the carried features by rising
numbers, each the fault of its section and then 31; 32 where the head is longer than the room or than any image may be.
"""

import pathlib
import sys

import images

ROOT = pathlib.Path(__file__).resolve().parent.parent
sys.path.insert(0, str(ROOT / "compare"))
import reference  # noqa: E402

QUESTIONS = {feature: name for name, (feature, _) in reference.QUESTIONS.items() if feature in images.CARRIED}
ORDERS = {"<": "le", ">": "be"}
SECOND_FORMAT = 132
# The rows and the room of the program perf_head, which takes images of at most that room.
ROWS, ROOM = 4_096, 65_536


class Refused(Exception):
    pass


# The writer. Each function is handed the words of an answer, without the first and without a count.


def number(size, value):
    return value.to_bytes(size, "little")


def unhexed(word):
    assert word[0] == "x"
    return bytes.fromhex(word[1:])


def text(word):
    data = unhexed(word)
    return number(4, len(data)) + data


def header_text(words):
    return text(words[0])


def counted(words, item):
    return number(4, len(words)) + b"".join(map(item, words))


def texts(words):
    return counted(words, text)


def numbers(*sizes):
    return lambda words: b"".join(number(size, int(word)) for size, word in zip(sizes, words, strict=True))


def pmu_name(word):
    key, name = word.split(":")
    return number(4, int(key)) + text(name)


def pmu_names(words):
    return counted(words, pmu_name)


def pair(word):
    return b"".join(unhexed(part) + b"\0" for part in word.split(":"))


def least_mode(path, key):
    return min(mode for mode in range(6) if reference.detect(path, mode) == key)


def build(word):
    kind, *parts = word.split(":")
    name, path, found = map(unhexed, parts)
    misc = 0x8000 + least_mode(path, (kind, name))
    front = number(4, 67) + number(2, misc) + number(2, 36 + len(path)) + number(4, 0)
    return front + found.ljust(20, b"\0") + bytes([len(found), 0, 0, 0]) + path


def symbol(word):
    address, length, name = word.split(",")
    return number(8, int(address)) + number(4, int(length)) + unhexed(name) + b"\0"


def tail(word):
    """The offsets of dex files with their count, the one number of a module or an ELF file, or nothing."""
    if word == "-":
        return b""
    kind, _, values = word.partition("=")
    values = [number(8, int(value)) for value in values.split(",") if value]
    assert kind == "dex" or len(values) == 1
    return (number(4, len(values)) if kind == "dex" else b"") + b"".join(values)


def symbol_table(word):
    path, kind, lowest, last, symbols = word.split(":")
    symbols = [] if symbols == "-" else symbols.split(";")
    front = unhexed(path) + b"\0" + number(4, int(kind)) + number(8, int(lowest))
    record = front + counted(symbols, symbol) + tail(last)
    return number(4, len(record)) + record


def each(item):
    return lambda words: b"".join(map(item, words))


WRITERS = {
    "build_ids": each(build),
    "hostname": header_text,
    "os_release": header_text,
    "perf_version": header_text,
    "arch": header_text,
    "nr_cpus": numbers(4, 4),
    "cpu_desc": header_text,
    "cpu_id": header_text,
    "total_mem": numbers(8),
    "cmdline": texts,
    "pmu_mappings": pmu_names,
    "is_stats": each(None),
    "clock_frequency": numbers(8),
    "symbol_tables": each(symbol_table),
    "meta_info": each(pair),
}
COUNTED = ("texts", "rows", "records")


def written(question, answer):
    """The bytes of an answer in a head."""
    first, *words = answer.split(" ")
    if first in COUNTED:
        count, *words = words
        assert int(count) == len(words)
    return WRITERS[question](words)


# Answers and heads.


def answers(store, rows):
    """What a store answers to the fifteen questions, by their features; a fault of a section is an answer too."""
    order, sections = store
    for feature in sorted(QUESTIONS):
        section = "x" + sections[feature].hex() if feature in sections else "-"
        yield feature, reference.answer(f"{QUESTIONS[feature]} {ORDERS[order]} {rows} {section}")


def head_of(store, rows, room):
    if SECOND_FORMAT in store[1]:
        raise Refused("refused 16 2 132 0")
    entries = []
    for feature, answer in answers(store, rows):
        if answer.startswith("refused"):
            raise Refused(answer)
        if answer != "absent":
            entries.append(images.entry(feature, written(QUESTIONS[feature], answer)))
    head = images.head_image(*entries)
    if len(head) > min(room, images.LIMIT):
        raise Refused("refused 32 4 256 0")
    return head


def image_head(image, rows=reference.MOST_ROWS, room=images.LIMIT):
    return head_of(images.read_any(image), rows, room)


def line(image, rows, room):
    try:
        return "head x" + image_head(image, rows, room).hex()
    except (images.Refused, Refused) as refusal:
        return str(refusal)


def speaks(head, store, rows):
    """Whether a head, read as a store, answers as the store did, and is its own head."""
    again = images.read_head(head)
    return list(answers(again, rows)) == list(answers(store, rows)) and head_of(again, rows, len(head)) == head


def main():
    given = [int(word) for word in sys.argv[1:3]]
    rows, room = given + [ROWS, ROOM][len(given) :]
    print(line(sys.stdin.buffer.read(), rows, room))


if __name__ == "__main__":
    main()
