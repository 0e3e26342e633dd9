#!/usr/bin/env python3
"""How many durable toggles a second a served node answers, beside what the disk's own two syncs allow.

    speed/serve_toggles.py PROGRAM [--seconds S] [--sessions N] [--folder FOLDER]

N sessions (three at most) ask for a toggle of On/Off, each as soon as its last one is answered, for S seconds. In the same folder, before and behind it,
speed/journal_bare.c makes a journal's four calls and nothing else, 1,000 times. A toggle is answered once its change is on the disk, so none can be faster
than two syncs."""
import argparse
import subprocess
import threading
import time
from pathlib import Path

from served import TOP, Gone, Peer, Server, make_config, matter, program_of, temporary_folder


def bare(folder):
    """Changes of 100 bytes a second that the disk's own calls allow."""
    built = Path(folder) / 'journal_bare'
    subprocess.run(['gcc', '-O2', TOP / 'speed/journal_bare.c', '-o', built], check=True)
    told = subprocess.run([built, '1000', folder], stderr=subprocess.PIPE, check=True).stderr.decode()
    return told.strip().splitlines()[0]


def toggle(peer, until, counts, place):
    """Toggles until the time is up, and counts what was answered with status 0."""
    while time.monotonic() < until:
        opcode, payload = peer.ask(matter.INVOKE, matter.invoke_request(1, 6, 2))[0]
        if opcode != matter.INVOKED:
            raise Gone(f'opcode {opcode:02x} is no answer to a command')
        counts[place] += 1


def main():
    words = argparse.ArgumentParser()
    words.add_argument('program')
    words.add_argument('--seconds', type=float, default=10)
    words.add_argument('--sessions', type=int, default=1, choices=(1, 2, 3))
    words.add_argument('--folder')
    asked = words.parse_args()
    with temporary_folder(asked.folder) as folder:
        print(f'bare before: {bare(folder)}')
        config = make_config.configuration_of((1,))
        server = Server(program_of(asked.program), folder, config, asked.sessions, 1 << 20)
        server.wait_until_bound()
        rows = config['sessions'][: asked.sessions]
        counts = [0] * asked.sessions
        began = time.monotonic()
        threads = [threading.Thread(target=toggle, args=(Peer(row, server.port), began + asked.seconds, counts, place)) for place, row in enumerate(rows)]
        for thread in threads:
            thread.start()
        for thread in threads:
            thread.join()
        took = time.monotonic() - began
        server.kill()
        print(f'{asked.sessions} sessions: {sum(counts)} toggles answered in {took:.1f} s, {sum(counts) / took:.0f} a second')
        print(f'bare behind: {bare(folder)}')


if __name__ == '__main__':
    main()
