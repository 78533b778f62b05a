#!/usr/bin/env python3
"""Measures a whole session: the processor time of a program that reads a stream, and the most memory that was resident.

    bench/measure.py [--runs N] [--beside 'OTHER WORDS'] STREAM PROGRAM [WORDS ..]

Each of N runs (5 where none is told) reads STREAM as standard input; what is written is thrown away. With --beside another
program reads the same stream, right before each run, and two ratios are told: that of the least times, and the middle one
of the pairs of neighbouring runs. A run that doesn't end with the status 0 ends the measurement with the status 1.
Memory is read of /proc, so it is told on Linux alone, and not of a run that ends within some milliseconds.
"""
import os
import shlex
import statistics
import subprocess
import sys
import time


def run(words, stream):
    """The processor seconds of one run, and the megabytes that were resident at most."""
    with open(stream, "rb") as file:
        child = subprocess.Popen(words, stdin=file, stdout=subprocess.DEVNULL, stderr=subprocess.DEVNULL)
    most = 0
    while True:
        done, status, used = os.wait4(child.pid, os.WNOHANG)
        if done:
            break
        try:
            with open(f"/proc/{child.pid}/status") as lines:
                most = max([most] + [int(line.split()[1]) for line in lines if line.startswith("VmHWM")])
        except OSError:
            pass
        time.sleep(0.002)
    status = os.waitstatus_to_exitcode(status)
    if status != 0:
        sys.exit(f"measure: {words[0]} ended with the status {status}")
    return used.ru_utime + used.ru_stime, most / 1024


def told(name, runs):
    times = [seconds * 1000 for seconds, _ in runs]
    most = max(megabytes for _, megabytes in runs)
    print(f"{name}\tleast {min(times):.1f} ms\tmiddle {statistics.median(times):.1f} ms\tmemory {most:.1f} MB")
    return times


def main():
    words, count, other = sys.argv[1:], 5, None
    while words and words[0] in ("--runs", "--beside"):
        if len(words) < 2:
            sys.exit(__doc__)
        if words[0] == "--runs":
            count = int(words[1])
        else:
            other = shlex.split(words[1])
        words = words[2:]
    if len(words) < 2 or count < 1:
        sys.exit(__doc__)
    stream, program = words[0], words[1:]
    ours, theirs = [], []
    for _ in range(count):
        if other:
            theirs.append(run(other, stream))
        ours.append(run(program, stream))
    times = told(program[0], ours)
    if other:
        beside = told(other[0], theirs)
        pairs = [a / max(b, 0.001) for a, b in zip(times, beside)]
        print(f"ratio\tleast {min(times) / max(min(beside), 0.001):.2f}\tmiddle {statistics.median(pairs):.2f}")


main()
