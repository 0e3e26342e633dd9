#!/usr/bin/env python3
"""Makes the events of a soak apart from the program, has matter_node replay them, counts its output, and compares with what matter_node says of
the soak. With `time`, tells how many events a second are soaked, and the memory that it takes.
       speed/recount.py BEGIN COUNT CONFIG
       speed/recount.py time CONFIG
It takes crates/matter_node as `rt run` builds it, or the program that PROGRAM names."""
import collections
import hashlib
import json
import os
import resource
import subprocess
import sys
import tempfile
import time
from pathlib import Path

TOP = Path(__file__).resolve().parent.parent
PROGRAM = os.environ.get('PROGRAM', str(TOP / 'crates/matter_node/out/matter_node'))


def number(tag, value):
    """An unsigned number under a context tag, or under none, in the fewest bytes."""
    width = next(w for w in range(4) if value < 1 << 8 * (1 << w))
    control = 0x04 + width if tag is None else 0x24 + width
    return bytes([control] + ([] if tag is None else [tag])) + value.to_bytes(1 << width, 'little')


def truth(tag, value):
    return bytes([0x29 if value else 0x28, tag])


def octets(tag, value):
    return bytes([0x30, tag, len(value)]) + value


def text(tag, value):
    return bytes([0x2c, tag, len(value)]) + value


def container(kind, tag, *members):
    """kind: 5 structure, 6 array, 7 list."""
    head = [0x10 + kind] if tag is None else [0x30 + kind, tag]
    return bytes(head) + b''.join(members) + b'\x18'


def path(*leaves):
    return container(7, None, *(number(tag, value) for tag, value in leaves))


END = number(255, 1)
ON_OFF = ((2, 1), (3, 6), (4, 0))


def read(leaves, filtered):
    return container(5, None, container(6, 0, path(*leaves)), truth(3, filtered), END)


def write(leaves, value):
    item = container(5, None, container(7, 1, *(number(t, v) for t, v in leaves)), value)
    return container(5, None, truth(0, False), truth(1, False), container(6, 2, item), END)


def events(begin, count, fabrics):
    x, asked = begin, collections.Counter()

    def draw():
        nonlocal x
        x = (x * 6364136223846793005 + 1442695040888963407) % 2 ** 64
        return x >> 32

    for i in range(1, count + 1):
        a, b = draw(), draw() % 8
        fabric = 1 + a % fabrics if fabrics else 0
        ask = None
        if fabrics == 0 or b == 7:
            yield f'T {100 * i}'
            continue
        if b == 0:
            ask = '02', read(ON_OFF, True)
        elif b == 1:
            command = container(7, 0, number(0, 1), number(1, 6), number(2, 2))
            ask = '08', container(5, None, truth(0, False), truth(1, False),
                                  container(6, 2, container(5, None, command, container(5, 1))), END)
        elif b == 2:
            ask = '06', write(((2, 0), (3, 0x28), (4, 5)), text(2, f'n{i}'.encode()))
        elif b == 3:
            ask = '02', read(((2, 1),), True)
        elif b == 4:
            item = container(5, None, text(1, b'k'), octets(2, i.to_bytes(8, 'big')))
            ask = '06', write(((2, 1), (3, 0xfff1fc00), (4, 0)), container(6, 2, item))
        elif b == 5:
            ask = '02', read(((2, 0), (3, 0x1f), (4, 0)), False)
        elif asked[fabric] < 3:
            asked[fabric] += 1
            ask = '03', container(5, None, truth(0, True), number(1, 0), number(2, 60),
                                  container(6, 3, path(*ON_OFF)), truth(7, True), END)
        else:
            yield f'R {100 * i} {fabric} {1 + i % 3}'
            continue
        yield f'A {100 * i} {fabric} {1:016x} {ask[0]} {ask[1].hex()}'


def element(data, at):
    """One element: its tag, its value, and where the next stands. Containers are lists of pairs; the end is None."""
    control = data[at]
    at += 1
    if control == 0x18:
        return None, None, at
    kind, tag = control & 31, None
    if control >> 5:
        tag = data[at]
        at += 1
    if kind < 8:
        width = 1 << kind % 4
        return tag, int.from_bytes(data[at:at + width], 'little', signed=kind < 4), at + width
    if kind in (8, 9, 20):
        return tag, {8: False, 9: True, 20: None}[kind], at
    if kind in (12, 13, 16, 17):
        width = 1 << kind % 4
        length = int.from_bytes(data[at:at + width], 'little')
        return tag, data[at + width:at + width + length], at + width + length
    members = []
    while data[at] != 0x18:
        name, value, at = element(data, at)
        members.append((name, value))
    return tag, members, at + 1


def codes(opcode, payload):
    """The status codes of a payload."""
    top = element(payload, 0)[1]
    fields = dict(top)
    if opcode == 0x01:
        return [fields[0]]
    if opcode == 0x05:
        items = [dict(item[1]) for tag in (1, 2) if tag in fields for item in fields[tag]]
        return [dict(dict(item[0])[1])[0] for item in items if 0 in item]
    if opcode == 0x07:
        return [dict(dict(item[1])[1])[0] for item in fields[0]]
    if opcode == 0x09:
        items = [dict(item[1]) for item in fields[1]]
        return [dict(dict(item[1])[1])[0] for item in items if 1 in item]
    return []


def recounted(begin, count, config):
    fabrics = len(json.loads(Path(config).read_text())['fabrics'])
    with tempfile.TemporaryDirectory() as folder:
        recording = Path(folder, 'recording.txt')
        recording.write_text('\n'.join(['matter-record 1', *events(begin, count, fabrics)]) + '\n')
        done = subprocess.run([PROGRAM, 'replay', config, recording], capture_output=True, check=True)
    lines = done.stdout.decode().splitlines()
    told = collections.Counter()
    for line in lines:
        letter, *fields = line.split(' ')
        if letter == 'P':
            told.update(codes(int(fields[2], 16), bytes.fromhex(fields[3])))
    return [f'events {count}', f'sent {len(lines)}', *(f'status {code:02x} {told[code]}' for code in sorted(told)),
            'sha256 ' + hashlib.sha256(done.stdout).hexdigest()]


def main():
    if sys.argv[1] == 'time':
        for count in (1_000, 10_000, 100_000):
            begin = time.monotonic()
            subprocess.run([PROGRAM, 'soak', '7', str(count), sys.argv[2]], capture_output=True, check=True)
            took = time.monotonic() - begin
            most = resource.getrusage(resource.RUSAGE_CHILDREN).ru_maxrss
            print(f'{count} events: {took:.3f} s, {count / took:.0f} a second, {most} KiB at most so far')
        return
    begin, count, config = int(sys.argv[1]), int(sys.argv[2]), sys.argv[3]
    wanted = recounted(begin, count, config)
    said = subprocess.run([PROGRAM, 'soak', str(begin), str(count), config], capture_output=True, check=True).stdout.decode().splitlines()
    for one, other in zip(wanted, said):
        print('same  ' if one == other else 'DIFFER', one, '' if one == other else other)
    sys.exit(0 if wanted == said else 1)


if __name__ == '__main__':
    main()
