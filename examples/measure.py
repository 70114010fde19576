#!/usr/bin/env python3
"""Times `dc run` on made scripts, and prints events per second of a processor and peak memory.

Usage: measure.py PROGRAM [LOG2 ..]     PROGRAM is the built `dc`; each LOG2 (default 14 16 18 20) a number of events, 2^LOG2

one-bearer     a bearer at the master: downlink payloads, each delivered and confirmed, in clear
ciphered       the same under 128-NEA2
tunnel         a split bearer (`mxm`): each eighth turn loses a packet of the tunnel and repeats another; delivery statuses
               confirm and ask again, a report each turn confirms the repeats. After 16 turns, which are a few hundred events,
               the bearer gets a new generation with the other primary leg (`mxs`, `mxm`), and so a new tunnel: a delivery
               status lists each number lost in its generation (TS 38.425, 5.4.2), and would grow with the run otherwise
moving         32 bearers: about each hundredth event moves one, from the master to the secondary and back
Each run has at most as many events as is said, as close as whole rounds of 64 turns allow. The transcript goes to
/dev/null. The seconds of a processor and peak memory are what GNU time (/usr/bin/time) tells.
"""
import subprocess
import sys
import tempfile

ROOT = 64 * "0"


def payload(turn):
    return f"{turn:08x}"


def one_bearer(turn):
    return [f"dl 1 {payload(turn)}", "drain"]


def tunnel(turn):
    lines = [f"dl 1 {payload(4 * turn + k)}" for k in range(4)]
    if turn % 8 == 7:
        lines += ["lose ma.tun 0", "again ma.tun 0"]
    lines += ["drain", "report t 1", "drain"]
    if turn % 16 == 15:
        shape = "mxs" if turn // 16 % 2 == 0 else "mxm"
        lines += [f"shape 1 {shape}", "drain"]
    return lines


def moving(turn):
    bearer = turn % 32 + 1
    shape = "ss" if turn // 32 % 2 == 0 else "mm"
    lines = [f"dl {(turn + k) % 32 + 1} {payload(turn)}" for k in range(21)]
    return lines + [f"shape {bearer} {shape}", "drain"]


def opening(bearers, commands, cipher="nea0"):
    lines = [f"dcs1 {cipher} 0 {ROOT}"]
    for bearer in range(1, bearers + 1):
        lines += [f"bearer {bearer} 18 0 mm 0 0", "drain"]
    for command in commands:
        lines += [command, "drain"]
    return lines


KINDS = {
    "one-bearer": (opening(1, []), one_bearer),
    "ciphered": (opening(1, [], "nea2"), one_bearer),
    "tunnel": (opening(1, ["add a", "shape 1 mxm"]), tunnel),
    "moving": (opening(32, ["add a"]), moving),
}


def script(kind, turns):
    lines, turn = KINDS[kind]
    return "\n".join(lines + [line for k in range(turns) for line in turn(k)]) + "\n"


def refused_and_events(program, text):
    made = subprocess.run([program, "run"], input=text.encode(), capture_output=True).stdout
    lines = made.split(b"\n")
    return sum(line.startswith(b"= no") for line in lines), sum(line.startswith(b"> ") for line in lines)


def turns_for(program, kind, events):
    """The most turns whose run has at most as many events, in steps of 64, after which all goes as before."""
    first, second = (refused_and_events(program, script(kind, turns))[1] for turns in (64, 128))
    return 64 + max(0, events - first) // (second - first) * 64


def timed(program, text):
    """Seconds of a processor, peak memory in KiB and exit status of a run. GNU time, which is small, starts it: a program that is
    started from here would have the memory of this one as its peak."""
    with tempfile.TemporaryFile() as source, tempfile.NamedTemporaryFile() as told:
        source.write(text.encode())
        source.seek(0)
        command = ["/usr/bin/time", "-q", "-f", "%U %S %M", "-o", told.name, program, "run"]
        run = subprocess.run(command, stdin=source, stdout=subprocess.DEVNULL)
        user, system, peak = told.read().decode().split()
        return float(user) + float(system), int(peak), run.returncode


def main():
    if len(sys.argv) < 2:
        print(__doc__)
        return 2
    program = sys.argv[1]
    print("run         events  seconds  events/s  peak KiB  refused  status")
    for kind in KINDS:
        for log in [int(word) for word in sys.argv[2:]] or [14, 16, 18, 20]:
            text = script(kind, turns_for(program, kind, 2**log))
            refused, events = refused_and_events(program, text)
            seconds, peak, status = timed(program, text)
            print(f"{kind:10} {events:7} {seconds:8.2f} {events / seconds:9.0f} {peak:9} {refused:8} {status:7}", flush=True)
    return 0


sys.exit(main())
