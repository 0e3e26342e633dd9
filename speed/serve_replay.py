#!/usr/bin/env python3
"""Speaks with a node that serves over many sessions at once, well and badly, and sees that a replay of its record, which does one thing after the
other, sends each peer exactly what that received of the threads.

    speed/serve_replay.py PROGRAM [--runs 20] [--datagrams 5000] [--workers W] [--seed SEED] [--folder FOLDER]

The peers of 52 sessions of sixteen fabrics and of PASE read, write, toggle, subscribe, arm the fail-safe, announce timed requests and open windows,
by chance; they acknowledge and confirm some of what comes and leave the rest, so that it is sent again; they send copies, what is malformed and what
is none. They do not wait for answers. A run takes some seconds, so that time steps, resends and reports come in it. Where W is 0 each run takes
another number of workers."""
import argparse
import collections
import random
import select
import sys
import time
from pathlib import Path

from serve_load import configuration_of
from served import (ITEMS, LABELS, NODE_LABEL, ON_OFF, Budget, Finished, Gone, Peer, Server, fill_up, matter, program_of, queue_of, temporary_folder,
                    unlike_lines)

GENERAL_COMMISSIONING, WINDOWS, BENCH = 0x30, 0x3c, 0xfff1fc00
ARM, OPEN_BASIC_WINDOW, REVOKE, RING, TOGGLE = 0, 1, 2, 0, 2
NUMBER = 1, BENCH, 1


def command(place, fields, timed=False):
    """A command with fields."""
    endpoint, cluster, number = place
    path = matter.Path({0: endpoint, 1: cluster, 2: number})
    return matter.INVOKE, matter.encoded({0: False, 1: timed, 2: [{0: path, 1: fields}]} | matter.REVISION)


def timed_write(value):
    return matter.WRITE, matter.encoded({0: False, 1: True, 2: [{1: matter.path_of(NUMBER), 2: value}]} | matter.REVISION)


class Chance:
    """What peers do by chance."""

    def __init__(self, generator):
        self.generator, self.counts = generator, collections.Counter()

    def request(self):
        """A request of some kind."""
        pick, word = self.generator.choice, f'word {self.generator.randrange(1000)}'
        kinds = {
            'read': lambda: (matter.READ, matter.read_request(pick((ON_OFF, NODE_LABEL, ITEMS, (1, None, None), (0, None, None), (9, 9, 9))))),
            'write': lambda: (matter.WRITE, matter.write_request((NODE_LABEL, word), (ITEMS, [{1: word, 2: b'\1'}] * self.generator.randrange(5)))),
            'labels': lambda: (matter.WRITE, matter.write_request((LABELS, [{0: word, 1: word}] * self.generator.randrange(10)), (ON_OFF, True))),
            'toggle': lambda: command((1, 6, TOGGLE), {}),
            'subscribe': lambda: (matter.SUBSCRIBE, matter.subscribe_request(pick((0, 1)), pick((1, 2, 60)), pick((ON_OFF, NODE_LABEL, (1, None, None))))),
            'arm': lambda: command((0, GENERAL_COMMISSIONING, ARM), {0: pick((0, 1, 2)), 1: self.generator.randrange(100)}),
            'timed': lambda: (matter.TIMED, matter.encoded({0: pick((0, 1, 200, 2000))} | matter.REVISION)),
            'timed write': lambda: timed_write(self.generator.randrange(1 << 32)),
            'window': lambda: command((0, WINDOWS, OPEN_BASIC_WINDOW), {0: 180}, True),
            'revoke': lambda: command((0, WINDOWS, REVOKE), {}, True),
            'ring': lambda: command((1, BENCH, RING), {}, True),
            'malformed': lambda: (pick(range(12)), self.generator.randbytes(self.generator.randrange(40))),
        }
        kind = pick(sorted(kinds) + ['toggle', 'write', 'read', 'subscribe'] * 2)
        self.counts[kind] += 1
        return kinds[kind]()

    def act(self, peer):
        """A peer sends something on its own."""
        what = self.generator.random()
        if what < 0.85:
            timed = [exchange for exchange in peer.timed if self.generator.random() < 0.8]
            opcode, payload = self.request()
            exchange = peer.say(timed[-1] if timed else None, True, opcode, payload, reliable=self.generator.random() < 0.9)
            peer.timed = [exchange] if opcode == matter.TIMED else []
        elif what < 0.93 and peer.sent:
            self.counts['copy'] += 1
            peer.send(self.generator.choice(peer.sent[-40:]))
        else:
            self.counts['none'] += 1
            datagram = bytearray(self.generator.choice(peer.sent[-40:] or [b'\0' * 40]))
            datagram[self.generator.randrange(len(datagram))] ^= 1 << self.generator.randrange(8)
            peer.send(bytes(datagram))

    def react(self, peer, message):
        """A peer acknowledges or confirms what came, or does not."""
        what = self.generator.random()
        if not message.reliable or what < 0.2:
            return
        if message.opcode == matter.REPORT and what < 0.9:
            status = 0 if what < 0.85 else 0x7d
            peer.say(message.exchange, not message.begun, matter.STATUS_RESPONSE, matter.status_response(status), message.counter, reliable=what < 0.7)
        else:
            peer.acknowledge(message)


def talk(server, peers, chance, seconds):
    """Acts and reacts until all datagrams were sent, spread over some time."""
    by_socket = {peer.socket: peer for peer in peers}
    total, begin = peers[0].budget.left, time.monotonic()
    try:
        while server.process.poll() is None:
            for _ in range(chance.generator.randrange(1, 40)):
                chance.act(chance.generator.choice(peers))
            due = begin + (total - peers[0].budget.left) / total * seconds
            while True:
                ready, _, _ = select.select(by_socket, [], [], max(0.0, due - time.monotonic()))
                for peer in map(by_socket.get, ready):
                    message = peer.session.open(peer.receive(0.001) or b'')
                    if message:
                        chance.react(peer, message)
                if not ready:
                    break
    except Finished:
        pass


def end_of(server):
    """Waits until the node has ended. What found no room at its socket it never had, and waits for: so it is given as many that are none.
    Answers its status, and how many found no room."""
    dropped = 0
    while True:
        until = time.monotonic() + 1
        while server.process.poll() is None and time.monotonic() < until:
            time.sleep(0.01)
        if server.process.poll() is not None:
            return server.process.returncode, dropped
        dropped = queue_of(server.port)[1]
        if not dropped:
            return server.wait(10), 0
        fill_up(server, 10)


def run_once(asked, folder, run, generator):
    """One run; answers what is wrong, and counts."""
    config = configuration_of(52)
    (Path(folder) / 'journal').unlink(missing_ok=True)
    workers = asked.workers or generator.choice((1, 2, 4, 8))
    server, chance = Server(asked.program, folder, config, workers, asked.datagrams), Chance(generator)
    try:
        server.wait_until_bound()
        budget = Budget(asked.datagrams)
        peers = [Peer(row, server.port, budget) for row in config['sessions']]
        for peer in peers:
            peer.timed = []
        talk(server, peers, chance, generator.uniform(2, 6))
        status, dropped = end_of(server)
    finally:
        server.kill()
    for peer in peers:
        peer.drain()
    wrong = list(unlike_lines(server, status, peers, dropped > 0))
    kinds = collections.Counter(line[0] for line in server.record.read_text(encoding='ascii').splitlines())
    received = sum(len(peer.received) for peer in peers)
    copies = received - len({datagram for peer in peers for datagram in peer.received})
    for peer in peers:
        peer.socket.close()
    print(f'run {run}: {workers} workers, {dropped} datagrams dropped at the socket, {received} received, {copies} of them copies, lines {dict(kinds)}; '
          f'wrong: {wrong[:4] or "nothing"}', flush=True)
    return bool(wrong), chance.counts


def main():
    parser = argparse.ArgumentParser(usage=__doc__)
    parser.add_argument('program', type=program_of)
    parser.add_argument('--runs', type=int, default=20)
    parser.add_argument('--datagrams', type=int, default=5000)
    parser.add_argument('--workers', type=int, default=0)
    parser.add_argument('--seed', type=int, default=1)
    parser.add_argument('--folder')
    asked = parser.parse_args()
    wrong, counts, generator = 0, collections.Counter(), random.Random(asked.seed)
    with temporary_folder(asked.folder) as folder:
        for run in range(1, asked.runs + 1):
            try:
                bad, asked_for = run_once(asked, folder, run, generator)
                wrong, counts = wrong + bad, counts + asked_for
            except Gone as fault:
                wrong += 1
                print(f'run {run}: {fault or "the node is gone"}')
    print(f'{asked.runs} runs, {wrong} wrong: {dict(counts)}')
    return 1 if wrong else 0


if __name__ == '__main__':
    sys.exit(main())
