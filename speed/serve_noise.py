#!/usr/bin/env python3
"""Sends a node that serves a million datagrams that are none of its sessions', and sees that it goes on answering, that all attributes have the
values and the versions that they had, and that its journal has the bytes that it had.

    speed/serve_noise.py PROGRAM [--count 1000000] [--boots 10] [--workers 4] [--seed SEED] [--folder FOLDER]

The noise is made of datagrams that are sealed as they should be, reads, toggles and writes over the sessions of the boot, but were never sent
so: with bits and bytes changed, cut short, lengthened, under the number of another session, under keys of another boot; and of datagrams that
were sent before, of answers of the node sent back, of random bytes, and of random bytes behind the header of a session. It comes from another
address. So many boots have a part of it each, since what names a session stands in the node's record, which has at most 64 MiB. The record of
the first boot is replayed, and must send each peer what it received."""
import argparse
import collections
import random
import socket
import struct
import sys
import time

from served import HOST, ITEMS, LABELS, NODE_LABEL, Gone, Peer, Server, fill_up, make_config, matter, program_of, queue_of, temporary_folder

BETWEEN_LOOKS, QUEUE_MOST, AHEAD = 5000, 60_000, 1000


class Noise:
    """Makes datagrams that a node is to drop, each by one of its kinds."""

    def __init__(self, peers, config, boot, generator):
        self.generator, self.peers, self.counts = generator, peers, collections.Counter()
        self.numbers = [row['session'] for row in config['sessions']]
        rows = make_config.configuration_of([boot + 1])['sessions']
        strangers = [matter.Session(row | {'session': number}) for row in rows for number in (*self.numbers, row['session'])]
        self.sealed = [datagram for peer in peers for datagram in self.requests(peer.session, peer.counter + AHEAD)]
        self.never_sent = set(self.sealed)
        self.strange = [datagram for session in strangers for datagram in self.requests(session, session.first_counter + AHEAD)]
        self.kinds = [self.bit_changed] * 4 + [self.bytes_changed] * 3 + [self.cut_short, self.lengthened, self.of_another, self.sent_before,
                      self.sent_back, self.random_bytes, self.random_behind_header] * 2 + [self.of_strangers]

    @staticmethod
    def requests(session, counter):
        """Some datagrams over a session that would change or read something."""
        asked = [(matter.INVOKE, matter.invoke_request(1, 6, 2)), (matter.READ, matter.read_request((1, None, None))),
                 (matter.WRITE, matter.write_request((NODE_LABEL, 'noise'), (LABELS, []), (ITEMS, [])))] * 30
        return [session.seal(matter.Message(counter + place, True, opcode, payload, None, True, matter.INTERACTION_MODEL, counter + place))
                for place, (opcode, payload) in enumerate(asked)]

    def next(self):
        """The next datagram."""
        kind = self.generator.choice(self.kinds)
        self.counts[kind.__name__] += 1
        return kind()

    def bit_changed(self):
        datagram = bytearray(self.generator.choice(self.sealed))
        place = self.generator.randrange(8 * len(datagram))
        datagram[place // 8] ^= 1 << place % 8
        return datagram

    def bytes_changed(self):
        datagram = bytearray(self.generator.choice(self.sealed))
        for _ in range(self.generator.choice((1, 2, 4, 16))):
            datagram[self.generator.randrange(len(datagram))] ^= self.generator.randrange(1, 256)
        return datagram if bytes(datagram) not in self.never_sent else datagram[:-1]

    def cut_short(self):
        datagram = self.generator.choice(self.sealed)
        return datagram[:self.generator.randrange(len(datagram))]

    def lengthened(self):
        return self.generator.choice(self.sealed) + self.generator.randbytes(self.generator.choice((1, 16, 16, 1000)))

    def of_another(self):
        datagram = bytearray(self.generator.choice(self.sealed))
        number = self.generator.choice(self.numbers)
        if number == int.from_bytes(datagram[1:3], 'little'):
            number = self.generator.randrange(1 << 16) | 1 << 15
        struct.pack_into('<H', datagram, 1, number)
        return datagram

    def of_strangers(self):
        return self.generator.choice(self.strange)

    def sent_before(self):
        return self.generator.choice(self.generator.choice(self.peers).sent[-200:])

    def sent_back(self):
        peer = self.generator.choice(self.peers)
        datagram = bytearray(self.generator.choice(peer.received[:200]))
        if self.generator.random() < 0.5:
            struct.pack_into('<H', datagram, 1, peer.session.number)
        return datagram

    def random_bytes(self):
        return self.generator.randbytes(self.generator.choice((0, 1, 7, 8, 9, 24, 30, 100, 1280)))

    def random_behind_header(self):
        header = struct.pack('<BHBI', 0, self.generator.choice(self.numbers), 0, self.generator.randrange(1 << self.generator.choice((10, 14, 32))))
        return header + self.generator.randbytes(self.generator.choice((0, 16, 22, 22, 43, 43, 43, 200, 1272)))


def all_values(peer):
    """Each attribute that the peer may read, with its version."""
    values = []
    for endpoint in (0, 1):
        for _, report in peer.ask(matter.READ, matter.read_request((endpoint, None, None))):
            values += [str(item[1]) for item in report.get(1, []) if 1 in item]
    return values


def make_noise(server, peers, noise, count):
    """Sends the noise, no faster than the node takes it, and asks now and then for an answer."""
    with socket.socket(socket.AF_INET, socket.SOCK_DGRAM) as link:
        to, left, looked = (HOST, server.port), count, time.monotonic()
        while left:
            for _ in range(min(left, 100)):
                link.sendto(noise.next(), to)
            left -= min(left, 100)
            while queue_of(server.port)[0] > QUEUE_MOST:
                time.sleep(0.0005)
            if left % BETWEEN_LOOKS == 0:
                for peer in peers:
                    peer.drain()
                    peer.read(NODE_LABEL)
    return count / (time.monotonic() - looked)


def same_lines(server, peers):
    """Of how many peers the replay of the record does not send what they received."""
    status, lines = server.replayed()
    told = collections.defaultdict(list)
    for line in lines:
        told[line.split(' ')[2]].append(line.split(' ')[3])
    return status, len(lines), sum(told[peer.address()] != [datagram.hex() for datagram in peer.received] for peer in peers)


def settle_down(peers, boot):
    """Gives the node values to keep."""
    for place in (0, 2):
        labels, items = [{0: 'room', 1: f'hall {boot}'}], [{1: f'item {place}', 2: bytes([boot])}]
        peers[place].ask(matter.WRITE, matter.write_request((NODE_LABEL, f'label {boot}'), (LABELS, labels), (ITEMS, items)))
    peers[1].ask(matter.INVOKE, matter.invoke_request(1, 6, 2))


def run_boot(asked, folder, boot, wrong, counts):
    """One boot of the node, with its part of the noise."""
    count = asked.count // asked.boots
    config = make_config.configuration_of([boot])
    server = Server(asked.program, folder, config, asked.workers, count + count // 50 + 2000)
    try:
        server.wait_until_bound()
        peers = [Peer(row, server.port) for row in config['sessions']]
        settle_down(peers, boot)
        values, journal = [all_values(peer) for peer in peers], server.journal.read_bytes()
        wrong += ['no value is read'] * (not all(values))
        noise = Noise(peers, config, boot, random.Random(asked.seed + boot))
        speed = make_noise(server, peers, noise, count)
        for peer in peers:
            peer.drain()
        wrong += [f'session {peer.session.number} reads other values' for peer, before in zip(peers, values) if all_values(peer) != before]
        lost = queue_of(server.port)[1]
        wrong += [f'boot {boot}: the journal is another'] * (server.journal.read_bytes() != journal)
        fill_up(server)
        status = server.wait(60)
        wrong += [f'boot {boot}: the node ended with status {status}, {server.errors()}'] * (status != 0)
    finally:
        server.kill()
    for peer in peers:
        peer.drain()
    if boot == 1 and status == 0:
        replay, lines, others = same_lines(server, peers)
        print(f'the replay of the first record ends with status {replay} and sends {lines} lines', flush=True)
        wrong += [f'of {others} peers it sends other lines than they received'] * (others > 0) + ['its status'] * (replay != 0)
    for peer in peers:
        peer.socket.close()
    counts.update(noise.counts)
    print(f'boot {boot}: {count} datagrams, {speed:.0f} a second, {lost} of them lost at the socket; {sum(map(len, values))} values compared, '
          f'{sum(len(peer.received) for peer in peers)} datagrams received, a record of {server.record.stat().st_size} bytes', flush=True)


def main():
    parser = argparse.ArgumentParser(usage=__doc__)
    parser.add_argument('program', type=program_of)
    parser.add_argument('--count', type=int, default=1_000_000)
    parser.add_argument('--boots', type=int, default=10)
    parser.add_argument('--workers', type=int, default=4)
    parser.add_argument('--seed', type=int, default=1)
    parser.add_argument('--folder')
    asked = parser.parse_args()
    wrong, counts = [], collections.Counter()
    with temporary_folder(asked.folder) as folder:
        for boot in range(1, 1 + asked.boots):
            run_boot(asked, folder, boot, wrong, counts)
    print(f'{sum(counts.values())} datagrams: {dict(counts)}; wrong: {wrong or "nothing"}')
    return bool(wrong)


if __name__ == '__main__':
    sys.exit(main())
