#!/usr/bin/env python3
"""How fast a node that serves answers, and after how long: reads of On/Off over 52 sessions, with 1, 2, 4 and 8 workers.

    speed/serve_load.py PROGRAM [--workers 1,2,4,8] [--reads 200000] [--rates RATE,..] [--threads T] [--sessions S] [--replay] [--folder FOLDER]
    speed/serve_load.py --peer shared|own [the same words]
    speed/serve_load.py PROGRAM --beside ROUNDS [--workers 1,2,4,8] [--reads 200000] [--threads T] [--sessions S] [--folder FOLDER]

Each line is a run of speed/serve_load.c against a new node: first a closed loop, in which each session has one read under way; then open
loops at these rates, in reads a second of all sessions, or at a half and at four fifths of what the closed loop came to. Of sixteen fabrics
each has three sessions, and four are of PASE, so that there are 52. Half of the answers came within the 50th percentile. Others are messages that are no answer to what was asked last, as
copies of answers.

With --peer the node is speed/serve_peer.c, the yardstick, with as many threads as it would have workers. With --beside the closed loop is played
to a node and to the yardstick in turn, so many times, and the median, the least and the most of each are told. With --replay the node's record
is replayed afterwards, and what it sends is counted."""
import argparse
import os
import statistics
import subprocess
import sys
import time
from pathlib import Path

from served import HOST, TOP, Server, fill_up, free_port, is_bound, make_config, program_of, queue_of, temporary_folder

FABRICS, CASE_SESSIONS, PASE_SESSIONS = 16, 3, 4
MOST_DATAGRAMS = 1 << 20
CLOCK = os.sysconf('SC_CLK_TCK')


def configuration_of(count):
    """Sixteen fabrics, each with an administrator over three sessions, and four sessions of PASE; the first so many of all, by turns."""
    rows = [(1 + place * FABRICS + fabric, 1 + fabric) for place in range(CASE_SESSIONS) for fabric in range(FABRICS)]
    rows += [(1 + CASE_SESSIONS * FABRICS + place, 0) for place in range(PASE_SESSIONS)]
    fabrics = [make_config.fabric_of(fabric, (make_config.ADMINISTER, 1)) for fabric in range(1, 1 + FABRICS)]
    return {'fabrics': fabrics, 'sessions': [make_config.session_of(1, number, fabric, 1) for number, fabric in rows[:count]]}


def rows_told(config):
    """The sessions as the programs in C read them."""
    lines = []
    for row in config['sessions']:
        nodes = row.get('own_node', '0'), row.get('peer_node', '0')
        fields = row['session'], row['peer_session'], *nodes, row['key_in'], row['key_out'], row['counter_in'], row['counter_out']
        lines.append(' '.join(map(str, fields)))
    return '\n'.join(lines) + '\n'


def built(name, folder):
    """The path of a program in C, built there."""
    path = Path(folder) / name
    subprocess.run(['gcc', '-O2', '-pthread', TOP / f'speed/{name}.c', '-o', path], check=True)
    return path


class Yardstick:
    """serve_peer.c in the place of a node."""

    def __init__(self, program, folder, config, threads, kind):
        self.port = free_port()
        self.process = subprocess.Popen([program, Path(folder) / 'sessions.txt', str(self.port), str(threads), kind])

    def wait_until_bound(self):
        while not is_bound(self.port):
            time.sleep(0.001)

    def finish(self):
        """Ends it."""
        self.process.kill()
        self.process.wait()
        return ''


class Node(Server):
    """A node that serves, which is given datagrams that are none until it has had all that it waits for."""

    def __init__(self, program, folder, config, workers, reads, replay):
        (Path(folder) / 'journal').unlink(missing_ok=True)
        super().__init__(program, folder, config, workers, min(reads * 2 + 1000, MOST_DATAGRAMS))
        self.replay = replay

    def finish(self):
        """Lets it end by itself; answers what is told of that."""
        begin = time.monotonic()
        fill_up(self)
        status = self.wait(60)
        told = f', ended with status {status} in {time.monotonic() - begin:.1f} s'
        if status != 0:
            told += f', {self.errors()}'
        if self.replay and status == 0:
            replay, lines = self.replayed()
            told += f', its replay with status {replay} and {len(lines)} lines'
        return told


def seconds_used(process):
    """How long its threads have worked."""
    with open(f'/proc/{process.pid}/stat', encoding='ascii') as file:
        fields = file.read().rpartition(')')[2].split()
    return (int(fields[11]) + int(fields[12])) / CLOCK


def memory_used(process):
    """The most memory that it has had, in MiB."""
    with open(f'/proc/{process.pid}/status', encoding='ascii') as file:
        return next(int(line.split()[1]) for line in file if line.startswith('VmHWM')) // 1024


def measure(node, load, folder, asked, rate):
    """Plays one load; answers the reads a second that were answered, and what is told of them."""
    node.wait_until_bound()
    used = seconds_used(node.process)
    run = subprocess.run([load, Path(folder) / 'sessions.txt', HOST, str(node.port), str(asked.reads), str(rate), str(asked.threads)],
                         stdout=subprocess.PIPE, check=True)
    used = seconds_used(node.process) - used
    dropped = queue_of(node.port)[1]
    _, answers, lost, others, sent, seconds, half, most, longest, busy = run.stdout.decode().split()
    speed = int(answers) / float(seconds)
    return speed, (f'{speed:9.0f} answers a second, {lost} lost ({dropped} dropped at the socket), {others} others, 50th {int(half) / 1000:.2f} ms, '
                   f'99th {int(most) / 1000:.2f} ms, longest {int(longest) / 1000:.1f} ms; {sent} datagrams sent, node on {used / float(seconds):.2f} '
                   f'processors and {memory_used(node.process)} MiB, load on {busy} %')


def played(node, load, folder, asked, rate):
    """Plays one load, and ends the node; answers as `measure` does."""
    try:
        speed, told = measure(node, load, folder, asked, rate)
        return speed, told + node.finish()
    finally:
        node.process.kill()
        node.process.wait()


def in_turn(load, folder, config, asked):
    """The closed loop, to a node and to the yardstick by turns."""
    peer = built('serve_peer', folder)
    for workers in map(int, asked.workers.split(',')):
        speeds = [], []
        for _ in range(asked.beside):
            speeds[0].append(played(Node(asked.program, folder, config, workers, asked.reads, False), load, folder, asked, 0)[0])
            speeds[1].append(played(Yardstick(peer, folder, config, workers, 'shared'), load, folder, asked, 0)[0])
        node, other = map(statistics.median, speeds)
        ranges = [f'({min(every):.0f} to {max(every):.0f})' for every in speeds]
        print(f'{workers} workers or threads, load of {asked.threads}: node {node:.0f} {ranges[0]}, yardstick {other:.0f} {ranges[1]}, '
              f'ratio {node / other:.2f}', flush=True)


def main():
    parser = argparse.ArgumentParser(usage=__doc__)
    parser.add_argument('program', type=program_of, nargs='?')
    parser.add_argument('--peer', choices=('shared', 'own'))
    parser.add_argument('--workers', default='1,2,4,8')
    parser.add_argument('--reads', type=int, default=200_000)
    parser.add_argument('--rates')
    parser.add_argument('--threads', type=int, default=1)
    parser.add_argument('--sessions', type=int, default=FABRICS * CASE_SESSIONS + PASE_SESSIONS)
    parser.add_argument('--beside', type=int, default=0)
    parser.add_argument('--replay', action='store_true')
    parser.add_argument('--folder')
    asked = parser.parse_args()
    if bool(asked.program) == bool(asked.peer):
        parser.error('a PROGRAM or --peer')
    if asked.beside and asked.peer:
        parser.error('--beside goes with a PROGRAM')
    with temporary_folder(asked.folder) as folder:
        load, config = built('serve_load', folder), configuration_of(asked.sessions)
        (Path(folder) / 'sessions.txt').write_text(rows_told(config), encoding='ascii')
        if asked.beside:
            return in_turn(load, folder, config, asked)
        peer = built('serve_peer', folder) if asked.peer else None
        for workers in map(int, asked.workers.split(',')):
            rates = [0]
            for rate in rates:
                node = (Yardstick(peer, folder, config, workers, asked.peer) if peer else
                        Node(asked.program, folder, config, workers, asked.reads, asked.replay))
                speed, told = played(node, load, folder, asked, rate)
                loop = f'open {rate}/s' if rate else f'closed, {asked.sessions} sessions'
                print(f'{workers} {"threads" if peer else "workers"}, {loop:20} {told}', flush=True)
                if rate == 0:
                    rates += [int(rate) for rate in asked.rates.split(',')] if asked.rates else [int(speed / 2), int(speed * 4 / 5)]


if __name__ == '__main__':
    sys.exit(main())
