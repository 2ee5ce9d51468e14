#!/usr/bin/env python3
"""Makes recordings with Debian's perf and compares what perf and perf_info say of each.

    compare/perf.py PERF_INFO [RECORDING ..]

Where recordings are given, those are compared in place of new ones. The two samples of the repository always are. For
each recording it prints how many facts were equal, and everything that differs. The status is 1 if a difference is not
in the table KNOWN, if perf cannot make or read a recording, or if a fact of FACTS was in none.
"""

import collections
import pathlib
import re
import subprocess
import sys
import tempfile

ROOT = pathlib.Path(__file__).resolve().parent.parent
sys.path.insert(0, str(ROOT / "tools"))
from images import PERF  # noqa: E402

SAMPLES = [ROOT / "crates/perf_info/stdin", ROOT / "samples/recording.pipe"]
TEXTS = {
    "HOSTNAME": "hostname",
    "OSRELEASE": "os release",
    "VERSION": "perf version",
    "ARCH": "arch",
    "CPUDESC": "cpudesc",
    "CPUID": "cpuid",
    "TOTAL_MEM": "total memory",
}
COMPRESSIONS = {"0": "Unknown", "1": "Zstd"}

# No hardware counter is needed for these. OUT stands for the recording; `-` is a pipe, whose output is kept.
RECORDINGS = {
    "file": "record -N -e cpu-clock -o OUT -- ls /",
    "file with all build ids": "record -N --buildid-all -e cpu-clock -o OUT -- ls /",
    "file without build ids": "record -B -e task-clock -o OUT -- ls /",
    "file with a clock, compressed": "record -N -k monotonic -z -e cpu-clock -o OUT -- ls -l /",
    "file of two events": "record -N -e cpu-clock,page-faults -c 1 -o OUT -- ls /",
    "file with odd words": ["record", "-N", "-e", "cpu-clock", "-o", "OUT", "--", "true", "a b", "", "é"],
    "pipe": "record -e cpu-clock -o - -- ls /",
    "pipe without build ids": "record -B -e task-clock -o - -- ls /",
    "stat": "stat record -e task-clock,page-faults -o OUT -- ls /",
}

# What is compared: the features that perf_info reads and perf prints, and which features perf calls missing.
FACTS = list(TEXTS) + "NRCPUS CMDLINE PMU_MAPPINGS SAMPLE_TIME STAT CLOCKID COMPRESSED CLOCK_DATA BUILD_ID missing".split()


def run(*command, out=None):
    done = subprocess.run(command, stdout=out or subprocess.PIPE, stderr=subprocess.PIPE, check=False)
    if done.returncode:
        raise OSError(f"{' '.join(map(str, command))}: {done.stderr.decode(errors='replace').strip()}")
    return "" if out else done.stdout.decode()


def record(words, path):
    words = words.split() if isinstance(words, str) else words
    with open(path if "-" in words else "/dev/null", "wb") as out:
        run("perf", *[str(path) if word == "OUT" else word for word in words], out=out)


def seconds(ns, digits):
    return f"{ns // 10**9}.{ns % 10**9 // 10 ** (9 - digits):0{digits}}"


def unescaped(text):
    return re.sub(r"\\u\{([0-9a-f]+)\}", lambda found: chr(int(found[1], 16)), text)


# Ours: the lines of perf_info, each as the fact that perf would print for it.


def sections(program, path):
    """For each section's name what perf_info says behind its length, and its lines below that."""
    with open(path, "rb") as image:
        done = subprocess.run([pathlib.Path(program).resolve()], stdin=image, stdout=subprocess.PIPE, check=True)
    kind, *lines = done.stdout.decode().splitlines()
    found = {}
    for line in lines:
        if line.startswith("    "):
            found[name][1].append(line.strip())
        else:
            name, said = re.fullmatch(r" *[0-9]+ (\S+) \([0-9]+ bytes\)(?:: (.*))?", line).groups()
            found[name] = (said or "", [])
    return kind, found


def our_fact(name, said, below):
    numbers = [int(number) for number in re.findall(r"[0-9]+", said)]
    if name == "CMDLINE":
        return [unescaped(word) for word in said.split(" ")]
    if name == "SAMPLE_TIME":
        return [seconds(ns, 6) for ns in numbers]
    if name == "CLOCKID":
        return f"{numbers[0] * 1000} MHz"
    if name == "COMPRESSED":
        return f"{COMPRESSIONS.get(str(numbers[1]))}, level = {numbers[2]}, ratio = {numbers[3]}"
    if name == "CLOCK_DATA":
        clock, at, wall = numbers
        return [str(clock), seconds(wall, 6), seconds(at, 9)]
    if name == "PMU_MAPPINGS":
        return sorted(below)
    if name == "BUILD_ID":
        return sorted(line.rsplit(" (", 1)[0] for line in below)
    return said


def our_facts(found, is_pipe):
    facts = {name: our_fact(name, *found[name]) for name in FACTS if name in found}
    if not is_pipe:
        facts["missing"] = set(found)
    return facts


# Perf's.


def perf_facts(path, is_pipe):
    header = run("perf", "report", "--header-only", "-I", "-f", "-i", path)
    printed = dict(re.findall(r"^# ([a-z ]+?) *: (.*)$", header, re.M))
    facts = {name: printed[words] for name, words in TEXTS.items() if words in printed}
    if "nrcpus avail" in printed:
        facts["NRCPUS"] = f"{printed['nrcpus online']} online, {printed['nrcpus avail']} available"
    if "cmdline" in printed:
        # perf puts a space behind each word, so a word with a space is two of them here; see `equal`.
        facts["CMDLINE"] = printed["cmdline"].removesuffix(" ")
    if "pmu mappings" in printed:
        facts["PMU_MAPPINGS"] = sorted(printed["pmu mappings"].split(", "))
    if "time of first sample" in printed:
        facts["SAMPLE_TIME"] = [printed["time of first sample"], printed["time of last sample"]]
    if "# contains stat data" in header:
        facts["STAT"] = "of perf stat"
    if "clockid frequency" in printed:
        facts["CLOCKID"] = printed["clockid frequency"]
    if "compressed" in printed:
        facts["COMPRESSED"] = printed["compressed"]
    if "clockid" in printed:
        clock = re.search(r"\((-?[0-9]+)\)", printed["clockid"])[1]
        times = re.search(r"= ([0-9.]+) \(TOD\) = ([0-9.]+) ", printed["reference time"])
        facts["CLOCK_DATA"] = [clock, times[1], times[2]]
    builds = [line.strip() for line in run("perf", "buildid-list", "-f", "-i", path).splitlines() if line.strip()]
    if builds:
        facts["BUILD_ID"] = sorted(builds)
    if not is_pipe:
        facts["missing"] = set(printed["missing features"].split())
    return facts


def equal(name, ours, theirs):
    if ours is None or theirs is None:
        return ours is theirs
    if name == "CMDLINE":
        return " ".join(ours) == theirs.replace("\\'", "'")
    if name == "missing":
        return ours.isdisjoint(theirs) and ours | theirs == set(PERF)
    return ours == theirs


def no_section_of_build_ids(name, ours, theirs):
    """Where a recording has no section 2, perf lists the files that its events name, with the ids that these carry."""
    return name == "BUILD_ID" and ours is None


KNOWN = [("perf lists files of a recording without build ids", no_section_of_build_ids)]


def compared(program, title, path, totals):
    """Prints and counts the facts of one recording."""
    kind, found = sections(program, path)
    is_pipe = kind.startswith("pipe")
    ours, theirs = our_facts(found, is_pipe), perf_facts(path, is_pipe)
    same, lines = 0, []
    for name in FACTS:
        our, their = ours.get(name), theirs.get(name)
        if our is None and their is None:
            continue
        if equal(name, our, their):
            same += 1
            totals["seen", name] += 1
            continue
        known = next((words for words, test in KNOWN if test(name, our, their)), None)
        totals["known" if known else "other"] += 1
        lines.append(f"    known: {known}" if known else f"    {name}\n        ours: {our}\n        perf: {their}")
    totals["equal"] += same
    print("\n".join([f"{title}: {kind}, {len(found)} sections, {same} facts equal"] + lines))


def main():
    if len(sys.argv) < 2:
        sys.exit(__doc__)
    program, given = sys.argv[1], [(path, path) for path in sys.argv[2:]]
    totals = collections.Counter()
    with tempfile.TemporaryDirectory() as folder:
        if not given:
            for number, (title, words) in enumerate(RECORDINGS.items()):
                path = pathlib.Path(folder) / f"{number}.data"
                record(words, path)
                given.append((title, path))
        for title, path in given + [(path.relative_to(ROOT), path) for path in SAMPLES]:
            compared(program, title, path, totals)
    print(f"{totals['equal']} facts equal, {totals['known']} known differences, {totals['other']} other differences")
    unseen = [name for name in FACTS if not totals["seen", name]] if len(sys.argv) == 2 else []
    if unseen:
        print(f"in no recording: {' '.join(unseen)}")
    sys.exit(1 if totals["other"] or unseen else 0)


if __name__ == "__main__":
    main()
