#!/usr/bin/env python3
"""How many report steps a second matter_node plays, with 48 subscriptions of 16 fabrics: three of each to On/Off of endpoint 1, every one of
which a step asks in its turn. `few`: an On/Off toggle once in 4,800 steps. `many`: once in 48, so that every step finds a change.
       speed/reports.py [STEPS]
It takes crates/matter_node as `rt run` builds it, and a configuration of speed/data."""
import subprocess
import sys
import tempfile
import time
from pathlib import Path

TOP = Path(__file__).resolve().parent.parent
SUBSCRIBE = '15290024010024023c3603172402012403062404001818290724ff0118'
TOGGLE = '1528002801360215370024000124010624020218350118181824ff0118'
FABRICS = range(1, 17)


def recording(steps, between):
    """So many report steps, with a toggle before each of so many."""
    lines = ['matter-record 1']
    for fabric in FABRICS:
        lines += [f'A 5 {fabric} 0000000000000001 03 {SUBSCRIBE}'] * 3
    names = [(fabric, number) for fabric in FABRICS for number in (1, 2, 3)]
    for step in range(steps):
        if step % between == 0:
            lines.append(f'A {6 + step} 1 0000000000000001 08 {TOGGLE}')
        fabric, number = names[step % 48]
        lines.append(f'R {6 + step} {fabric} {number}')
    return '\n'.join(lines) + '\n'


def main():
    steps = int(sys.argv[1]) if len(sys.argv) > 1 else 200_000
    config = TOP / 'speed/data/all-entries.json'
    with tempfile.TemporaryDirectory() as folder:
        for name, between in (('few', 4800), ('many', 48)):
            for size in (0, steps // 10, steps):
                text = Path(folder, 'day.txt')
                text.write_text(recording(size, between))
                begin = time.monotonic()
                done = subprocess.run([TOP / 'crates/matter_node/out/matter_node', 'replay', config, text], capture_output=True)
                took = time.monotonic() - begin
                told = sum(1 for line in done.stdout.split(b'\n') if line.split(b' ')[3:4] == [b'05'])
                print(f'{name}: {size} steps, {told} reports, status {done.returncode}, {took:.3f} s, {size / took:.0f} a second')


if __name__ == '__main__':
    main()
