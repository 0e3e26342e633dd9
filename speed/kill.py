#!/usr/bin/env python3
"""Kills a program in the middle of commits to a file, again and again, and sees each time that the count which
it then finds there is the last that it had acknowledged, or one more.

    (cd crates/speed && rt run -- store 20) && speed/kill.py [TIMES [FOLDER]]
"""
import os
import random
import signal
import subprocess
import sys
import tempfile
import time

PROGRAM = os.path.join(os.path.dirname(os.path.abspath(__file__)), "..", "crates", "speed", "out", "speed")


def counts_after_kill(name, wait):
    """The counts that the program printed until it was killed, the one that it found first."""
    run = subprocess.Popen([PROGRAM, "keep", name], stdin=subprocess.PIPE, stdout=subprocess.PIPE)
    found = run.stdout.readline().decode().strip()
    run.stdin.write(b"\n" * 4000)
    run.stdin.flush()
    time.sleep(wait)
    run.send_signal(signal.SIGKILL)
    rest = run.stdout.read().decode()
    run.wait()
    whole = rest[: rest.rfind("\n") + 1]
    return [found] + whole.split()


def main():
    times = int(sys.argv[1]) if len(sys.argv) > 1 else 200
    folder = sys.argv[2] if len(sys.argv) > 2 else None
    random.seed(1)
    last, commits, more, wrong = 0, 0, 0, 0
    with tempfile.TemporaryDirectory(dir=folder) as place:
        name = os.path.join(place, "journal")
        for turn in range(times + 1):
            # The last turn only sees what the last kill left.
            counts = counts_after_kill(name, random.uniform(0.0, 0.05) if turn < times else 0)
            if counts[0] not in (str(last), str(last + 1)) or not all(word.isdigit() for word in counts):
                wrong += 1
                print(f"acknowledged {last}, found {counts[0]}")
            more += counts[0] == str(last + 1)
            if turn < times:
                last = int(counts[-1])
                commits += len(counts) - 1
    print(f"{times} kills, {commits} commits acknowledged, {more} times one more was there, {wrong} wrong")
    return 1 if wrong else 0


sys.exit(main())
