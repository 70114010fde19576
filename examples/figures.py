#!/usr/bin/env python3
"""Times the cases of `figures`, and prints the seconds of a processor and the peak memory of each.

Usage: figures.py PROGRAM [CASE ..]     PROGRAM is the built `figures`; CASE, by default each, one of:

lost-run       a tunnel: 100,000 numbers are lost in one run, and their PDUs come again under later numbers, each with an ack and
               a delivery status
closing-gaps   a tunnel: 130,000 numbers are lost, each between two that come; then they come in no order, each with an ack and a
               delivery status
keys           the book of keys: 200,000 roots, and five million claims by 32 identities
legs           two legs with 131,072 data PDUs outstanding on each and 1,000 control PDUs on one; the data PDUs are acked and
               settled one by one, in no order and in order
Seconds and peak memory are what GNU time (/usr/bin/time) tells.
"""
import subprocess
import sys
import tempfile

# The most seconds that a case is to take.
CASES = {"lost-run": 1, "closing-gaps": 1, "keys": 5, "legs": 1}


def timed(program, case):
    """What a case prints, its seconds of a processor and its peak memory in KiB. GNU time, which is small, starts the program."""
    with tempfile.NamedTemporaryFile() as told:
        command = ["/usr/bin/time", "-q", "-f", "%U %S %M", "-o", told.name, program, case]
        printed = subprocess.run(command, capture_output=True, check=True).stdout.decode().strip()
        user, system, peak = told.read().decode().split()
        return printed, float(user) + float(system), int(peak)


def main():
    if len(sys.argv) < 2:
        sys.exit(__doc__)
    late = False
    for case in sys.argv[2:] or CASES:
        printed, seconds, peak = timed(sys.argv[1], case)
        late = late or seconds > CASES[case]
        print(f"{printed}: {seconds:.2f} s of at most {CASES[case]} s, {peak / 1024:.0f} MiB", flush=True)
    sys.exit(late)


main()
