#!/usr/bin/env python3
"""Writes crates/hello/stdout: what hello has to print of its sample, which is that of perf_info. Run it from the top of the
repository. The two facts are those of crates/perf_info/stdout, which was checked against perf; the head is that of heads.py."""

import re

from heads import image_head


def main():
    with open("crates/hello/stdin", "rb") as own, open("crates/perf_info/stdin", "rb") as sample:
        recording = own.read()
        assert recording == sample.read()
    with open("crates/perf_info/stdout") as out:
        said = out.read()
    name = re.search(r"HOSTNAME \(\d+ bytes\): (.*)", said).group(1)
    online, available = re.search(r"NRCPUS \(8 bytes\): (\d+) online, (\d+) available", said).groups()
    head = image_head(recording)
    with open("crates/hello/stdout", "w") as out:
        out.write(f"host name {name}\n{online} of {available} processors online\nhead of {len(head)} bytes x{head.hex()}\n")


main()
