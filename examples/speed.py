#!/usr/bin/env python3
"""Measures `dc run` where payloads are large, where a link is long, and what it keeps, and prints a line for each.

Usage: speed.py PROGRAM     PROGRAM is the built `dc`; `openssl` is measured beside it where it is there

octets   a bearer at the master with payloads of 1,400 octets under 128-NEA2, each delivered and confirmed: payload octets that went up
         per second of a processor, beside AES-128 in counter mode as `openssl speed` has it for blocks of 1,400 octets
clear    the same without a cipher
random   100,000 flights on one air link, taken in random order: seconds of the steps alone
The transcript goes to /dev/null. The seconds of a processor and peak memory are what GNU time (/usr/bin/time) tells.
"""
import random
import re
import subprocess
import sys
import tempfile

ROOT = 64 * "0"
PAYLOADS = 20000
FLIGHTS = 100000


def timed(program, text):
    """Seconds of a processor and peak KiB of a run of this script."""
    with tempfile.TemporaryFile() as script:
        script.write(text.encode())
        script.seek(0)
        ran = subprocess.run(["/usr/bin/time", "-f", "%U %S %M", program, "run"], stdin=script, stdout=subprocess.DEVNULL, stderr=subprocess.PIPE)
    user, system, peak = ran.stderr.split()[-3:]
    if ran.returncode:
        sys.exit(f"status {ran.returncode}")
    return float(user) + float(system), int(peak)


def large(cipher):
    payload = 1400 * "a5"
    # a script has at most 16 MiB
    turns = min(PAYLOADS, (2**24 - 1000) // (len(payload) + 12))
    lines = [f"dcs1 {cipher} 0 {ROOT}", "bearer 1 18 0 mm 0 0", "drain"]
    for _ in range(turns):
        lines += [f"dl 1 {payload}", "drain"]
    return "\n".join(lines) + "\n", 1400 * turns


def long_link(steps):
    numbers = random.Random(1)
    lines = [f"dcs1 nea0 0 {ROOT}", "bearer 1 18 0 mm 0 0", "drain"]
    lines += [f"dl 1 {k % 256:02x}" for k in range(FLIGHTS)]
    if steps:
        lines += [f"step mt.air {numbers.randrange(FLIGHTS - k)}" for k in range(FLIGHTS)]
    return "\n".join(lines) + "\n"


def openssl():
    try:
        ran = subprocess.run(["openssl", "speed", "-elapsed", "-seconds", "1", "-bytes", "1400", "-evp", "aes-128-ctr"], capture_output=True, text=True)
    except FileNotFoundError:
        return None
    found = re.search(r"aes-128-ctr\s+([0-9.]+)k", ran.stdout, re.IGNORECASE)
    return float(found.group(1)) * 1000 if found else None


def main():
    if len(sys.argv) != 2:
        print(__doc__)
        return 2
    program = sys.argv[1]
    for name, cipher in (("octets", "nea2"), ("clear", "nea0")):
        text, octets = large(cipher)
        seconds, peak = timed(program, text)
        print(f"{name:8} {octets / seconds / 1e6:8.1f} MB/s of payload, {seconds:.2f} s, peak {peak} KiB")
    other = openssl()
    if other:
        print(f"openssl  {other / 1e6:8.1f} MB/s")
    alone, _ = timed(program, long_link(False))
    whole, peak = timed(program, long_link(True))
    print(f"random   {whole - alone:8.2f} s for {FLIGHTS} steps, peak {peak} KiB")
    return 0


if __name__ == "__main__":
    sys.exit(main())
