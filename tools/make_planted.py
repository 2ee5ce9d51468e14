#!/usr/bin/env python3
"""Writes the list of docs/PLANTED.md anew: the edits that the gate tries, each by the first line of its own file.

An edit's first line says in words what is wrong with the program so edited. The list stands behind the heading LIST, up
to the next heading of its rank.

Usage: python3 tools/make_planted.py, from the top of the repository. With --check it writes nothing, and its status is 1
where an edit has no first line of words or the list is not that of the edits.
"""
import pathlib
import sys

PAGE = pathlib.Path("docs/PLANTED.md")
LIST = "## What the gate tries\n"


def first_line(edit):
    """The edit's first line, and the source file that it changes first."""
    lines = edit.read_text(encoding="utf-8").splitlines()
    where = next(line for line in lines if line.startswith("file: ")).removeprefix("file: ").strip()
    words = lines[0].strip()
    if words.startswith(("file:", "old:", "new:")) or not words:
        return None, where
    return words, where


def listed():
    """The list, and the edits that have no first line of words."""
    out, wordless, total = [], [], 0
    crates = sorted({edit.parents[1] for edit in pathlib.Path("crates").glob("*/must-fail/*.edit")})
    for crate in crates:
        edits = sorted(crate.glob("must-fail/*.edit"))
        total += len(edits)
        out += [f"### `{crate.name}`", "", "| edit | what is wrong | where |", "|---|---|---|"]
        for edit in edits:
            words, where = first_line(edit)
            if words is None:
                wordless.append(edit)
                words = ""
            words = words.replace("|", "\\|")
            out.append(f"| {edit.stem} | {words} | {where} |")
        out.append("")
    front = [f"{total} edits in {len(crates)} crates.", ""]
    return "\n".join(front + out), wordless


def main():
    page = PAGE.read_text(encoding="utf-8")
    before, _, rest = page.partition(LIST)
    if not rest:
        sys.exit(f"{PAGE} has no heading {LIST.strip()!r}")
    _, heading, after = rest.partition("\n## ")
    text, wordless = listed()
    for edit in wordless:
        print(f"{edit}: no first line that says in words what is wrong", file=sys.stderr)
    new = before + LIST + "\n" + text + (heading + after if heading else "")
    if "--check" in sys.argv[1:]:
        sys.exit(1 if wordless or new != page else 0)
    PAGE.write_text(new, encoding="utf-8")


main()
