#!/usr/bin/env python3
"""Runs the kit's gate from nothing, and tells how many minutes of a processor each crate takes.

    python3 tools/gate_minutes.py [--cores 0,1] [--log FILE] [CRATE...]

runs `rt ci --anew` at the top of the repository, on these processors alone where --cores names some, and prints a table: for each
crate the minutes for its proof, for the proof of its tests, and for its must-fail edits, and how many edits it has. What the
compiler and the linker take is in the proof's column. Then come all minutes together, the minutes that passed, and the verdict.
Four times a second it looks at which processes of rt are running; what one takes after the last look is missed. Needs Linux.
"""
import argparse
import collections
import glob
import os
import subprocess
import sys
import time

TICKS = os.sysconf("SC_CLK_TCK")


def processes():
    """The process, its parent, its arguments and its processor time in seconds, of each process that can be read."""
    for name in filter(str.isdigit, os.listdir("/proc")):
        try:
            with open(f"/proc/{name}/stat") as stat, open(f"/proc/{name}/cmdline") as line:
                fields = stat.read().rpartition(")")[2].split()
                yield int(name), int(fields[1]), line.read().split("\0"), sum(map(int, fields[11:15])) / TICKS
        except (FileNotFoundError, ProcessLookupError):
            continue


def phase_of(process, arguments):
    """The crate that a process works on, and which part of the gate that is; or None."""
    if "--crate-name" not in arguments:
        return None
    crate = arguments[arguments.index("--crate-name") + 1]
    try:
        folder = os.readlink(f"/proc/{process}/cwd")
    except OSError:
        return None
    if "rt-edit-" in folder:
        return crate, "edits"
    return crate, "tests" if "--test" in arguments else "proof"


def look(gate, seen):
    """Notes the processor time of each process below the gate."""
    found = list(processes())
    below = {gate}
    for _ in range(6):
        below |= {process for process, parent, _, _ in found if parent in below}
    for process, _, arguments, seconds in found:
        if process in below:
            phase = phase_of(process, arguments)
            if phase:
                seen[process, phase] = seconds


def print_table(seen, passed, verdict):
    spent = collections.defaultdict(collections.Counter)
    for (_, (crate, part)), seconds in seen.items():
        spent[crate][part] += seconds / 60
    print("| crate | proof | tests | edits | number of edits | all |")
    print("|---|---|---|---|---|---|")
    for crate, parts in sorted(spent.items(), key=lambda item: -sum(item[1].values())):
        edits = len(glob.glob(f"crates/{crate}/must-fail/*.edit"))
        cells = [f"{parts[part]:.1f}" if parts[part] else "" for part in ("proof", "tests", "edits")]
        print(f"| `{crate}` | {' | '.join(cells)} | {edits or ''} | {sum(parts.values()):.1f} |")
    together = sum(sum(parts.values()) for parts in spent.values())
    print(f"\n{together:.0f} minutes of a processor, in {passed:.1f} minutes. {verdict}")


def main():
    parser = argparse.ArgumentParser(description="Tells how many minutes of a processor each crate takes in the gate.")
    parser.add_argument("--cores")
    parser.add_argument("--log", default="/dev/null")
    parser.add_argument("crates", nargs="*")
    options = parser.parse_args()
    if options.cores:
        os.sched_setaffinity(0, set(map(int, options.cores.split(","))))
    os.chdir(os.path.join(os.path.dirname(os.path.abspath(__file__)), ".."))
    seen, begin = {}, time.time()
    with open(options.log, "w+") as log:
        gate = subprocess.Popen(["rt", "ci", "--anew", *options.crates], stdout=log, stderr=subprocess.STDOUT)
        while gate.poll() is None:
            look(gate.pid, seen)
            time.sleep(0.25)
    with open(options.log) as log:
        verdict = ([""] + log.read().split("\n"))[-2] if options.log != "/dev/null" else f"status {gate.returncode}"
    print_table(seen, (time.time() - begin) / 60, verdict)
    return gate.returncode


if __name__ == "__main__":
    sys.exit(main())
