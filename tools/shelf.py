"""A shelf once more in Python, for expected answers: requests of docs/SHELF.md, one a line, answered one a line.

    tools/shelf.py [again] < REQUESTS

It follows docs/SHELF.md and docs/REFUSALS.md and shares nothing with the library; heads are made by heads.py. Where `again` is
said, every `open` makes a new shelf, as shelf_cases has it; else `open` may be the first line alone, as for intake. A count of
4,294,967,295 is not reached by requests, so refusal 35 has no place here.
"""

import pathlib
import sys

import heads

# Where a relative path begins.
ROOT = pathlib.Path()
STRIP, FIRST, BYTES = 65_536, 1, 4_194_304
ROWS, MOST_ROWS = 4_096, 65_536
LONGEST_STRIP, MOST_STRIPS = 65_536, 64
LAST_NUMBER = 2**32 - 1
ROOM = "refused 32 4 256 0"
FULL = "refused 33 4 256 0"
NOT_HELD = "refused 34 4 256 0"
USED_UP = "refused 36 4 256 0"
BAD_OPENING = "refused 37 4 256 0"
BAD_LINE = "bad line"


class Shelf:
    def __init__(self, strip, first, size):
        self.groups = {}  # number -> (head, count)
        self.is_open = 5 <= strip <= LONGEST_STRIP and 0 < first <= LAST_NUMBER and strip <= size
        self.strip = strip if self.is_open else 0
        self.next = first
        self.strips = min(MOST_STRIPS, size // strip) if self.is_open else 0

    def opened(self):
        return f"opened {self.strips}" if self.is_open else BAD_OPENING

    def file(self, image, rows, work):
        answer = heads.line(image, rows, self.strip)
        if answer.startswith("refused"):
            return answer
        if work < self.strip:
            return ROOM
        for number, (head, count) in self.groups.items():
            if head == answer:
                self.groups[number] = head, count + 1
                return f"group {number}"
        if len(self.groups) == self.strips:
            return FULL
        if self.next > LAST_NUMBER:
            return USED_UP
        number, self.next = self.next, self.next + 1
        self.groups[number] = answer, 1
        return f"group {number}"

    def release(self, number):
        if number not in self.groups:
            return NOT_HELD
        head, count = self.groups.pop(number)
        if count > 1:
            self.groups[number] = head, count - 1
        return f"released {number}"

    def count(self, number):
        return f"count {self.groups[number][1]}" if number in self.groups else NOT_HELD

    def show(self, number, room):
        if number not in self.groups:
            return NOT_HELD
        head = self.groups[number][0]
        return head if (len(head) - len("head x")) // 2 <= room else ROOM


def numbers(words, fewest, most):
    """Some decimal numbers of at most 64 bits, or none where the words are no such."""
    if not fewest <= len(words) <= most:
        return None
    if not all(word.isascii() and word.isdigit() and int(word) < 2**64 for word in words):
        return None
    return [int(word) for word in words]


def image_of(source):
    """The bytes of a source: of its digits or of the file; None where the digits are none."""
    if not source.startswith("x"):
        return (ROOT / source).read_bytes()
    digits = source[1:]
    if len(digits) % 2 or set(digits) - set("0123456789abcdef"):
        return None
    return bytes.fromhex(digits)


def filed(shelf, source, words):
    given = numbers(words, 0, 2)
    if given is None or len(given) == 1 or not source or (given and given[0] > MOST_ROWS):
        return BAD_LINE
    rows, work = given or (ROWS, LONGEST_STRIP)
    try:
        image = image_of(source)
    except OSError:
        return f"cannot read {source}"
    return BAD_LINE if image is None else shelf.file(image, rows, work)


def answer(shelf, line):
    name, *words = line.split(" ")
    if name == "file" and words:
        return filed(shelf, words[0], words[1:])
    most = {"release": 1, "count": 1, "show": 2}.get(name)
    given = most and numbers(words, 1, most)
    if not given:
        return BAD_LINE
    if name == "show":
        return shelf.show(given[0], *(given[1:] or [LONGEST_STRIP]))
    return (shelf.release if name == "release" else shelf.count)(given[0])


def opening(line):
    name, *words = line.split(" ")
    return numbers(words, 3, 3) if name == "open" else None


def answers(lines, again):
    shelf = None
    for line in lines:
        given = opening(line)
        if given and (again or shelf is None):
            shelf = Shelf(given[0], given[1], min(given[2], BYTES))
            yield shelf.opened()
            continue
        shelf = shelf or Shelf(STRIP, FIRST, BYTES)
        yield BAD_LINE if given else answer(shelf, line)


def main():
    for reply in answers(sys.stdin.read().split("\n")[:-1], sys.argv[1:] == ["again"]):
        print(reply)


if __name__ == "__main__":
    main()
