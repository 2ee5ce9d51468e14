#!/usr/bin/env python3
"""Asks two programs the same questions and compares every answer.

    compare/compare.py OURS THEIRS [SEED [COUNT]]

Each program reads the lines of compare/lines.py from standard input and writes an answer a line. A refusal of THEIRS
without a number, as the Rust gives it, is equal to any refusal of OURS; one with its number alone to those of that
number; one with number and place to the same. The status is 1 if there is a difference that the table KNOWN does not
have, or if an answer is missing.
"""

import collections
import pathlib
import re
import subprocess
import sys
import tempfile

import lines as questions

IN_FULL = 50
SECONDS = 900
TABLES = {"pmu_mappings": 16, "meta_info": 129, "build_ids": 2}
REFUSAL = re.compile(r"refused [0-9]+ [1-4] [0-9]+ [0-9]+")


def too_few_rows(line, ours, theirs):
    """The Rust has no rows, so it goes on where ours refuses with 31: its answer has more rows than were handed in."""
    question, _, rows, _ = line.split(" ")
    if ours != f"refused 31 4 {TABLES.get(question)} 0" or not theirs.startswith("rows "):
        return False
    return int(theirs.split(" ")[1]) > int(rows)


def too_much_memory(line, ours, theirs):
    """The Rust asks for memory by a count or a length before it looks whether the section can hold as much.

    Where it asks for more than 1 GiB it has no answer. No section holds so much, so ours refuses.
    """
    fitting = {"cmdline": r"refused (7|9|10) 2 11 [0-9]+", "pmu_mappings": r"refused 11 2 16 [0-9]+"}
    pattern = fitting.get(line.split(" ")[0])
    return theirs == "rust: too much memory" and pattern is not None and re.fullmatch(pattern, ours) is not None


# Name, whether the lines count as not comparable rather than as a difference, and the test.
KNOWN = [
    ("too few rows", True, too_few_rows),
    ("too much memory", False, too_much_memory),
]


def known(line, ours, theirs):
    for name, _, test in KNOWN:
        if test(line, ours, theirs):
            return name
    return None


def equal(line, ours, theirs):
    if ours.startswith("refused"):
        alike = ("refused", " ".join(ours.split(" ")[:2]), ours)
        return REFUSAL.fullmatch(ours) is not None and theirs in alike
    if ours != theirs:
        return False
    # The Rust cannot tell that rows ran out, so this is asked of ours alone.
    fields = line.split(" ")
    return not (fields[0] in TABLES and ours.startswith("rows ") and int(ours.split(" ")[1]) > int(fields[2]))


def answers(program, path):
    # A bare name is that of a file here, never of a command.
    command = [pathlib.Path(program).resolve()]
    with open(path, "rb") as lines:
        done = subprocess.run(command, stdin=lines, stdout=subprocess.PIPE, timeout=SECONDS, check=False)
    if done.returncode:
        print(f"{program}: status {done.returncode}")
    return done.stdout.decode("latin-1").removesuffix("\n").split("\n")


def asked(program, lines):
    """The answers of a program to the lines."""
    with tempfile.TemporaryDirectory() as folder:
        path = pathlib.Path(folder) / "lines"
        path.write_text("".join(line + "\n" for line in lines), encoding="ascii")
        return answers(program, path)


def shortened(text):
    return text if len(text) <= 400 else f"{text[:400]}.. ({len(text)} characters)"


def main():
    if len(sys.argv) not in (3, 4, 5):
        sys.exit(__doc__)
    ours_program, theirs_program = sys.argv[1:3]
    lines = list(questions.lines(*map(int, sys.argv[3:5])))
    ours, theirs = asked(ours_program, lines), asked(theirs_program, lines)
    for program, given in ((ours_program, ours), (theirs_program, theirs)):
        if len(given) != len(lines):
            print(f"{program}: {len(given)} answers to {len(lines)} lines")
            if len(given) < len(lines):
                print(f"    the first without one: {shortened(lines[len(given)])}")
            sys.exit(1)

    same, refusals, by_name, differing = 0, 0, collections.Counter(), []
    for line, our, their in zip(lines, ours, theirs):
        if equal(line, our, their):
            same += 1
            refusals += our.startswith("refused")
        elif name := known(line, our, their):
            by_name[name] += 1
        else:
            differing.append((line, our, their))

    print(f"{len(lines)} lines")
    print(f"{same} equal, {refusals} of them refusals")
    for name, apart, _ in KNOWN:
        print(f"{by_name[name]} {'not comparable' if apart else 'known difference'}: {name}")
    print(f"{len(differing)} other differences")
    for line, our, their in differing[:IN_FULL]:
        print(f"\n    {shortened(line)}\n    ours:   {shortened(our)}\n    theirs: {shortened(their)}")
    if len(differing) > IN_FULL:
        print("\nAll differences by question:")
        for question, count in collections.Counter(line.split(" ")[0] for line, _, _ in differing).most_common():
            print(f"    {count} {question}")
    sys.exit(1 if differing else 0)


if __name__ == "__main__":
    main()
