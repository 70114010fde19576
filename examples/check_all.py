#!/usr/bin/env python3
"""Holds the transcripts of folders against the claims that `dc check` decides, and counts its answers.

Usage: check_all.py [--each] PROGRAM FOLDER ..     PROGRAM is the built `dc`; the transcripts of a FOLDER are its files NAME.txt

For each folder it prints how many transcripts there are, and how many got each answer: `ok`, the name of the claim that does not
hold, `outside the grammar`, or the fault text. With --each the answer to each transcript stands before that. The exit status is 0
where each transcript was answered by one line and the status that belongs to it.
"""
import collections
import pathlib
import re
import subprocess
import sys

# The statuses that belong to an answer on standard output, and to a fault text.
HOLDS, BAD_LINE, FAILS = 0, 2, 7
FAULTS = {3: "dc: read fault", 4: "dc: write fault", 5: "dc: out of memory", 6: "dc: too long"}


def answer(program, path):
    """The answer to a transcript in a word or a few, the line that was written, and whether line and status belong together."""
    with path.open("rb") as source:
        run = subprocess.run([program, "check"], stdin=source, capture_output=True)
    written, fault = run.stdout.decode(), run.stderr.decode()
    if run.returncode == HOLDS and re.fullmatch(r"ok: \d+ entries; [^\n]*\n", written) and not fault:
        return "ok", written, True
    if run.returncode == FAILS and (claim := re.fullmatch(r"line \d+: (\w+): [^\n]*\n", written)) and not fault:
        return claim[1], written, True
    if run.returncode == BAD_LINE and re.fullmatch(r"dc: line \d+ column \d+: not in the grammar\n", fault) and not written:
        return "outside the grammar", fault, True
    if f"{FAULTS.get(run.returncode)}\n" == fault and not written:
        return fault.strip(), fault, True
    return f"status {run.returncode}", (written + fault) or "\n", False


def main():
    words = sys.argv[1:]
    each = words[:1] == ["--each"]
    words = words[each:]
    if len(words) < 2:
        sys.exit(__doc__)
    all_fit = True
    for folder in map(pathlib.Path, words[1:]):
        counts = collections.Counter()
        for path in sorted(folder.glob("*.txt")):
            named, line, fits = answer(words[0], path)
            counts[named] += 1
            all_fit = all_fit and fits
            if each:
                print(f"{path.stem}: {line}", end="")
        print(f"{folder.name}: {counts.total()} transcripts")
        for named, count in counts.most_common():
            print(f"{count:7} {named}")
    sys.exit(not all_fit)


main()
