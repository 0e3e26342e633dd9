#!/usr/bin/env python3
"""Serves for an hour of the node's own time in a few minutes, and tells what the node then has in memory.

    speed/serve_hour.py PROGRAM [--factor 30] [--minutes 60] [--requests 60] [--folder FOLDER]

speed/serve_hour.c hands the node a clock that goes FACTOR times faster. In each minute of that, two sessions, of two fabrics, ask REQUESTS times in all:
they read, write a label, toggle and subscribe again; reports are confirmed, and the rest of the minute passes with time steps, resends and reports.
Every ten minutes are quiet for one. At the end of each minute, with nothing under way, the pieces of memory that the node has are counted, and their
bytes; the record tells how many entries its book then had, and how many of these are datagrams. What a book has grows with its entries; nothing else may."""
import argparse
import os
import struct
import subprocess
import time
from pathlib import Path

from served import NODE_LABEL, ON_OFF, TOP, Peer, Server, fill_up, make_config, matter, program_of, temporary_folder

COUNTS = struct.Struct('=qq')


def shim(folder):
    """What stands before the C library, built."""
    path = Path(folder) / 'hour.so'
    subprocess.run(['gcc', '-O2', '-shared', '-fPIC', TOP / 'speed/serve_hour.c', '-o', path], check=True)
    return path


class Minutes:
    """The node's time, by which all is paced."""

    def __init__(self, factor):
        self.factor, self.begin = factor, time.monotonic()

    def past(self):
        """How much of it is past, in seconds."""
        return (time.monotonic() - self.begin) * self.factor

    def left(self, until):
        """How long it is until then, by this machine's clock."""
        return max(0.0, (until - self.past()) / self.factor)


def resident(process):
    """The memory of a process, in KiB."""
    with open(f'/proc/{process.pid}/status', encoding='ascii') as file:
        return next(int(line.split()[1]) for line in file if line.startswith('VmRSS'))


def request(number):
    """One of the requests, by turns."""
    return ((matter.READ, matter.read_request(ON_OFF, NODE_LABEL)),
            (matter.INVOKE, matter.invoke_request(1, 6, 2)),
            (matter.WRITE, matter.write_request((NODE_LABEL, f'lamp {number % 10}'))),
            (matter.SUBSCRIBE, matter.subscribe_request(0, 60, ON_OFF, NODE_LABEL)))[number % 4]


def confirm_all(peers, minutes, until):
    """Confirms reports until then."""
    while minutes.past() < until:
        for peer in peers:
            message = peer.report(time.monotonic() + min(0.01, minutes.left(until)))
            if message and message.opcode == matter.REPORT:
                peer.say(message.exchange, False, matter.STATUS_RESPONSE, matter.status_response(0), message.counter, reliable=False)
            elif message:
                peer.acknowledge(message)


def counts_of(name):
    """How many pieces of memory the node has, and how many bytes."""
    return COUNTS.unpack(name.read_bytes())


def entries_by(record, times):
    """How many lines of a record, and how many datagrams among them, were done up to each of these times, in ms."""
    told, place, lines, datagrams = [], 0, 0, 0
    rows = [line.split(' ', 2) for line in record.read_text(encoding='ascii').splitlines()[1:]]
    for until in times:
        while place < len(rows) and int(rows[place][1]) <= until:
            lines += 1
            datagrams += rows[place][0] == 'D'
            place += 1
        told.append((lines, datagrams))
    return told


def main():
    words = argparse.ArgumentParser()
    words.add_argument('program')
    words.add_argument('--factor', type=int, default=30)
    words.add_argument('--minutes', type=int, default=60)
    words.add_argument('--requests', type=int, default=60)
    words.add_argument('--folder')
    asked = words.parse_args()
    with temporary_folder(asked.folder) as folder:
        config, counts = make_config.configuration_of((1,)), Path(folder) / 'counts'
        counts.write_bytes(bytes(COUNTS.size))
        environment = os.environ | {'LD_PRELOAD': str(shim(folder)), 'HOUR_FACTOR': str(asked.factor), 'HOUR_COUNTS': str(counts)}
        server = Server(program_of(asked.program), folder, config, 2, 1 << 20, environment=environment)
        server.wait_until_bound()
        minutes, seen, number = Minutes(asked.factor), [], 0
        peers = [Peer(row, server.port) for row in config['sessions']]
        for minute in range(1, asked.minutes + 1):
            for _ in range(asked.requests if minute % 10 else 0):
                peers[number % 2 * 2].ask(*request(number // 2))
                number += 1
            confirm_all(peers, minutes, minute * 60 - 2)
            time.sleep(minutes.left(minute * 60 - 0.5))
            seen.append((minute, *counts_of(counts), resident(server.process)))
        fill_up(server)
        status = server.wait(30)
        print(f'the node ended with status {status}, and its replay with {server.replayed()[0]}; {number} requests')
        tell(seen, entries_by(server.record, [(minute * 60 - 0.5) * 1000 for minute, *_ in seen]))


def tell(seen, entries):
    """A line for each fifth minute; then what was more in memory behind each ten minutes for each datagram of theirs, and behind the quiet minutes."""
    print('minute  entries  datagrams    pieces        bytes  resident KiB')
    rows = [row + counted for row, counted in zip(seen, entries)]
    for minute, pieces, held, kib, lines, datagrams in rows:
        if minute % 5 == 0 or minute == 1:
            print(f'{minute:6} {lines:8} {datagrams:10} {pieces:9} {held:12} {kib:13}')
    for before, behind in zip(rows[9::10], rows[19::10]):
        many = behind[5] - before[5]
        print(f'minutes {before[0]} to {behind[0]}: {(behind[1] - before[1]) / many:.3f} pieces more for each of {many} datagrams')
    for before, behind in ((rows[place - 1], rows[place]) for place in range(9, len(rows), 10)):
        print(f'minute {behind[0]}, a quiet one: {behind[4] - before[4]} entries and {behind[5] - before[5]} datagrams, '
              f'{behind[1] - before[1]} pieces and {behind[2] - before[2]} bytes more')


if __name__ == '__main__':
    main()
