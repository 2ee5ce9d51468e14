#!/usr/bin/env python3
"""Writes 3,000 questions with the Rust's answers, for the gate, which has no Rust at hand.

    compare/stored.py THEIRS

crates/replay/stdin gets a question, a tab and the answer of THEIRS in each line: every question in both orders, with
every kind of answer and every refusal that it has, short lines only; crates/replay/stdout gets the counts that are due.
Nothing is written if the Rust and compare/reference.py differ in a way that compare.py does not know, or if a known
one, a question or a refusal has no line.
"""

import collections
import itertools
import random
import sys

import compare
import lines as questions
import reference

FROM, MOST = 150_000, 3_000
LONGEST = 300
# What a question on a section can be refused with (docs/REFUSALS.md).
REFUSALS = set(range(6, 16)) | {31}


def kind(line, answer):
    """Lines of one kind test much the same."""
    if answer == "bad line":
        return answer
    question, order, number, data = line.split(" ")
    words = answer.split(" ")
    rest = []
    if words[0] == "refused":
        rest = words[1:3]
    elif words[0] in ("rows", "records", "texts"):
        rest = [str(min(int(words[1]), 4))]
    if question == "shown":
        rest = [data[1:2], str(min(answer.count("efbfbd"), 3))]
    elif question == "detect":
        rest = words[1:2] + [str(int(number) % 8)]
    elif question == "build_ids":
        rest += sorted({word.split(":")[0] for word in words[2:]})[:2]
    return " ".join([question, order, words[0]] + rest)


def sample(rng):
    """Lines of every kind, as many of each as of any other as long as there are."""
    kinds = collections.defaultdict(list)
    for place, line in enumerate(questions.lines(questions.SEED, FROM)):
        if len(line) <= LONGEST:
            kinds[kind(line, reference.answer(line))].append((place, line))
    for lines in kinds.values():
        rng.shuffle(lines)
    turn = 0
    while any(turn < len(lines) for lines in kinds.values()):
        yield from (lines[turn] for lines in kinds.values() if turn < len(lines))
        turn += 1


def complete(lines):
    """Whether every question is there, and every refusal that one can give."""
    asked = {line.split(" ")[0] for line in lines}
    refused = {int(words[1]) for words in (reference.answer(line).split(" ") for line in lines) if words[0] == "refused"}
    return asked >= {*questions.QUESTIONS, "detect", "shown"} and refused == REFUSALS


def checked(lines, theirs):
    """How many lines are of each known difference."""
    by_name = collections.Counter()
    for line, their in zip(lines, theirs):
        our = reference.answer(line)
        if compare.equal(line, our, their):
            continue
        name = compare.known(line, our, their)
        if name is None:
            sys.exit(f"{line}\nreference: {our}\ntheirs: {their}")
        by_name[name] += 1
    for name, _, _ in compare.KNOWN:
        if not by_name[name]:
            sys.exit(f"no line has the known difference: {name}")
    return by_name


def tally(count, by_name):
    """What has to be said of as many lines: all are equal but those of a known difference."""
    yield f"{count - by_name.total()} equal"
    for name, apart, _ in compare.KNOWN:
        yield f"{by_name[name]} {'not comparable' if apart else 'known difference'}: {name}"
    yield "0 other differences"


def write(path, lines):
    (questions.ROOT / path).write_text("".join(line + "\n" for line in lines), encoding="ascii")


def main():
    if len(sys.argv) != 2:
        sys.exit(__doc__)
    lines = [line for _, line in sorted(itertools.islice(sample(random.Random(questions.SEED)), MOST))]
    theirs = compare.asked(sys.argv[1], lines)
    if len(theirs) != len(lines):
        sys.exit(f"{sys.argv[1]}: {len(theirs)} answers to {len(lines)} lines")
    if not complete(lines):
        sys.exit("a question or a refusal is missing")
    by_name = checked(lines, theirs)
    write("crates/replay/stdin", [f"{line}\t{their}" for line, their in zip(lines, theirs)])
    write("crates/replay/stdout", tally(len(lines), by_name))
    print(f"{len(lines)} lines, " + ", ".join(f"{n} {name}" for name, n in by_name.items()))


if __name__ == "__main__":
    main()
