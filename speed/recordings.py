#!/usr/bin/env python3
"""The recordings that are measured, and how fast they are played.
       speed/recordings.py configuration NAME
       speed/recordings.py recording NAME LINES
       speed/recordings.py time [NAME ..]
The first two print what matter_node is given to play a recording of the table speed/data/recordings.txt. `time` plays each, or those that
are named, in growing lengths, and tells the lines, the status and the seconds; then it lets the first be compared with itself by what
fabric 1 sees. It takes crates/matter_node as `rt run` builds it, or the program that PROGRAM names.

A row of the table is `NAME CONFIGURATION RECORDING SESSIONS`: the files of the configuration and of a recording whose lines, all at time 0,
are said again and again, each a millisecond behind the one before; a line that stops the disk has no time. Where there are sessions, so many ask by turns what its last line asks,
in datagrams that are sealed here, apart from the program."""
import functools
import itertools
import operator
import os
import subprocess
import sys
import tempfile
import time
from pathlib import Path

TOP = Path(__file__).resolve().parent.parent
DATA = TOP / 'speed/data'
PROGRAM = os.environ.get('PROGRAM', str(TOP / 'crates/matter_node/out/matter_node'))
PLAYED = 2_000, 20_000, 200_000
COMPARED = 1_000, 10_000, 100_000
HEADER = 'matter-record 1'

# The cipher AES-128 (FIPS 197). A state is sixteen bytes, column by column.


def doubled(byte):
    """A byte times x in the field."""
    return byte << 1 ^ (0x11b if byte & 0x80 else 0)


def s_box():
    """For each byte its inverse in the field, moved by the affine map. The powers of 3 are all bytes but 0."""
    powers = [1]
    while len(powers) < 255:
        powers.append(powers[-1] ^ doubled(powers[-1]))
    box = bytearray([0x63] * 256)
    for place, byte in enumerate(powers):
        inverse = powers[-place % 255]
        spread = inverse ^ inverse << 1 ^ inverse << 2 ^ inverse << 3 ^ inverse << 4
        box[byte] = (spread ^ spread >> 8) & 0xff ^ 0x63
    return bytes(box)


BOX = s_box()
TWICE = bytes(map(doubled, range(256)))
THRICE = bytes(byte ^ doubled(byte) for byte in range(256))
# Of a state whose rows are shifted, the bytes of each column so many rows below.
BELOW = [operator.itemgetter(*((4 * (column + row) + row) % 16 for column in range(4) for row in ((top + down) % 4 for top in range(4))))
         for down in range(4)]


def xor(one, *others):
    sum_of_all = int.from_bytes(one, 'big')
    for other in others:
        sum_of_all ^= int.from_bytes(other, 'big')
    return sum_of_all.to_bytes(len(one), 'big')


@functools.lru_cache(maxsize=None)
def round_keys(key):
    words, constant = [key[at:at + 4] for at in range(0, 16, 4)], 1
    while len(words) < 44:
        word = words[-1]
        if len(words) % 4 == 0:
            word = xor((word[1:] + word[:1]).translate(BOX), bytes([constant, 0, 0, 0]))
            constant = doubled(constant)
        words.append(xor(words[-4], word))
    return [b''.join(words[at:at + 4]) for at in range(0, 44, 4)]


def aes(key, block):
    first, *middle, last = round_keys(key)
    state = xor(block, first)
    for each in middle:
        state = state.translate(BOX)
        state = xor(each, BELOW[0](state.translate(TWICE)), BELOW[1](state.translate(THRICE)), BELOW[2](state), BELOW[3](state))
    return xor(last, BELOW[0](state.translate(BOX)))


# Sealing by AES-CCM (SP 800-38C), with a nonce of thirteen bytes and a tag of sixteen.


def padded(data):
    return data + bytes(-len(data) % 16)


def sealed(key, nonce, head, plain):
    """What is sealed of a plaintext, and its tag, which is of the head too. The head is not empty."""
    blocks = b'\x79' + nonce + len(plain).to_bytes(2, 'big') + padded(len(head).to_bytes(2, 'big') + head) + padded(plain)
    tag = bytes(16)
    for at in range(0, len(blocks), 16):
        tag = aes(key, xor(tag, blocks[at:at + 16]))
    masks = [aes(key, b'\x01' + nonce + count.to_bytes(2, 'big')) for count in range(1 + -(-len(plain) // 16))]
    return xor(plain, b''.join(masks[1:])[:len(plain)]) + xor(tag, masks[0])


# The recordings.


def row_of(name):
    for row in (DATA / 'recordings.txt').read_text().splitlines():
        if row.split(' ')[0] == name:
            return row.split(' ')[1:]
    sys.exit(f'there is no recording of the name {name}')


def number(value, width):
    return value.to_bytes(width, 'little')


def datagram(index, before, payload):
    """The next read request over a session, whose peer has asked so often before. It acknowledges what was answered last. The peer counts
    from 1000, and the node from 5000."""
    head = b'\0' + number(index + 1, 2) + b'\0' + number(1000 + before, 4)
    nonce = b'\0' + number(1000 + before, 4) + number(1, 8)
    # It begins exchange 7 of protocol 1, is reliable, and may acknowledge.
    plain = bytes([7 if before else 5, 2]) + number(7, 2) + number(1, 2) + (number(4999 + before, 4) if before else b'')
    return head + sealed(bytes([index] * 16), nonce, head, plain + payload)


def lines_of(name):
    """The lines of a recording without an end."""
    _, recording, sessions = row_of(name)
    repeated = (DATA / recording).read_text().splitlines()[1:]
    yield HEADER
    if sessions == '0':
        for ms, line in enumerate(itertools.cycle(repeated)):
            yield line if line.startswith('X') else line.replace(' 0', f' {ms}', 1)
    payload = bytes.fromhex(repeated[-1].split(' ')[-1])
    for ms in itertools.count():
        before, index = divmod(ms, int(sessions))
        yield f'D {ms} {bytes(16).hex()}{5540:04x} {datagram(index, before, payload).hex()}'


def recording_of(name, count):
    return ''.join(f'{line}\n' for line in itertools.islice(lines_of(name), count + 1))


def configuration_of(name):
    return (DATA / row_of(name)[0]).read_text()


def tell_time(name, sizes, command):
    """How long matter_node takes for a recording of each of these lengths, which a command names as often as it wants."""
    with tempfile.TemporaryDirectory() as folder:
        config, recording = Path(folder, 'config.json'), Path(folder, 'recording.txt')
        config.write_text(configuration_of(name))
        for count in sizes:
            recording.write_text(recording_of(name, count))
            words = [PROGRAM, *(word.format(config=config, recording=recording) for word in command.split(' '))]
            begin = time.monotonic()
            status = subprocess.run(words, stdout=subprocess.DEVNULL, check=False).returncode
            took = time.monotonic() - begin
            print(f'{name}, {command.split(" ")[0]}: {count} lines, status {status}, {took:.3f} s, {count / took:.0f} a second', flush=True)


def main(words):
    if len(words) == 2 and words[0] == 'configuration':
        print(configuration_of(words[1]), end='')
    elif len(words) == 3 and words[0] == 'recording':
        print(recording_of(words[1], int(words[2])), end='')
    elif words[:1] == ['time']:
        names = words[1:] or [row.split(' ')[0] for row in (DATA / 'recordings.txt').read_text().splitlines()]
        for name in names:
            tell_time(name, PLAYED, 'replay {config} {recording}')
        tell_time(names[0], COMPARED, 'compare 1 {config} {recording} {recording}')
    else:
        sys.exit(__doc__)


if __name__ == '__main__':
    main(sys.argv[1:])
