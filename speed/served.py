"""What the scripts serve_*.py share: a node that serves on a port of this machine, and peers that speak
with it over sessions of examples/serve/make_config.py."""
import json
import os
import signal
import socket
import subprocess
import sys
import tempfile
import threading
import time
from pathlib import Path

TOP = Path(__file__).resolve().parent.parent
sys.path.insert(0, str(TOP / 'examples/serve'))

import make_config  # noqa: E402
import matter  # noqa: E402

HOST = '127.0.0.1'
JUNK = b'\xff' * 8
ON_OFF, NODE_LABEL, LABELS, ITEMS = (1, 0x06, 0), (0, 0x28, 5), (1, 0x41, 0), (1, 0xfff1fc00, 0)


class Gone(Exception):
    """The node is not there any more."""


class Finished(Exception):
    """All datagrams were sent that were to be sent."""


def free_port():
    """A port that nobody has just now."""
    with socket.socket(socket.AF_INET, socket.SOCK_DGRAM) as trial:
        trial.bind((HOST, 0))
        return trial.getsockname()[1]


def is_bound(port):
    """Whether a socket of this machine has the port for datagrams."""
    for name in ('/proc/net/udp', '/proc/net/udp6'):
        with open(name, encoding='ascii') as file:
            if any(f':{port:04X}' in line.split()[1] for line in file.readlines()[1:]):
                return True
    return False


def queue_of(port):
    """How many bytes wait at the node's socket, and how many datagrams found no room there."""
    for name in ('/proc/net/udp', '/proc/net/udp6'):
        with open(name, encoding='ascii') as file:
            for line in file.readlines()[1:]:
                fields = line.split()
                if fields[1].endswith(f':{port:04X}'):
                    return int(fields[4].partition(':')[2], 16), int(fields[-1])
    raise Gone('the node has its port no more')


class Server:
    """A node that serves, in a process of its own. Its record and what it says on standard error are in files of the folder."""

    def __init__(self, program, folder, config, workers, datagrams, journal='journal', environment=None):
        self.program, self.folder, self.port = program, Path(folder), free_port()
        self.config, self.journal = self.folder / 'configuration.json', self.folder / journal
        self.config.write_text(json.dumps(config), encoding='utf-8')
        self.record = self.folder / 'record.txt'
        words = ['serve', '--workers', str(workers), '--datagrams', str(datagrams), self.config, self.journal, f'{HOST}:{self.port}']
        with open(self.record, 'wb') as output, open(self.folder / 'errors.txt', 'wb') as errors:
            self.process = subprocess.Popen([program, *words], stdin=subprocess.DEVNULL, stdout=output, stderr=errors, env=environment)

    def wait_until_bound(self, seconds=30):
        """Waits until the node has its port."""
        until = time.monotonic() + seconds
        while not is_bound(self.port):
            if self.process.poll() is not None or time.monotonic() > until:
                raise Gone(f'the node does not serve: status {self.process.poll()}, {self.errors()}')
            time.sleep(0.001)

    def errors(self):
        """What it said on standard error, and its last line."""
        last = self.record.read_bytes().splitlines()[-1:]
        return f'{(self.folder / "errors.txt").read_text(errors="replace").strip()!r}, last line {b"".join(last)[:200]!r}'

    def kill(self):
        """Ends it at once, wherever it is."""
        self.process.send_signal(signal.SIGKILL)
        self.process.wait()

    def wait(self, seconds):
        """Its exit status; None, and the node is killed, where it does not end in time."""
        try:
            return self.process.wait(seconds)
        except subprocess.TimeoutExpired:
            self.kill()
            return None

    def replayed(self):
        """The lines that a replay of its record writes."""
        run = subprocess.run([self.program, 'replay', self.config, self.record], stdout=subprocess.PIPE, stderr=subprocess.PIPE, check=False)
        return run.returncode, run.stdout.decode().splitlines()


def settled(program, folder, config, journal='journal'):
    """What a journal keeps, as bytes under keys."""
    name = Path(folder) / 'settle.json'
    name.write_text(json.dumps(config), encoding='utf-8')
    run = subprocess.run([program, 'settle', name, Path(folder) / journal], stdout=subprocess.PIPE, check=False)
    if run.returncode:
        raise Gone(f'settle ends with status {run.returncode}: {run.stdout.decode()[-200:]!r}')
    return {key: bytes.fromhex(value) for _, key, value in (line.split(' ') for line in run.stdout.decode().splitlines())}


class Budget:
    """How many datagrams are still to be sent, by several peers together."""

    def __init__(self, count):
        self.left, self.lock = count, threading.Lock()

    def take(self):
        """Takes one of them."""
        with self.lock:
            if self.left == 0:
                raise Finished
            self.left -= 1


class Peer(matter.Controller):
    """A peer with a socket of its own, which keeps what it sends and receives. Its counters are used in one boot alone."""

    def __init__(self, row, port, budget=None):
        link = socket.socket(socket.AF_INET, socket.SOCK_DGRAM)
        link.setsockopt(socket.SOL_SOCKET, socket.SO_RCVBUF, 1 << 20)
        link.connect((HOST, port))
        session = matter.Session(row)
        self.counter = session.first_counter
        super().__init__(session, link, self.take_counter)
        self.budget, self.sent, self.received = budget, [], []

    def take_counter(self):
        """The next counter."""
        self.counter += 1
        return self.counter - 1

    def send(self, datagram):
        """Sends it, where more may be sent, and keeps it."""
        if self.budget:
            self.budget.take()
        try:
            self.socket.send(datagram)
        except ConnectionRefusedError:
            raise Gone from None
        self.sent.append(datagram)

    def receive(self, seconds):
        """The next datagram, kept, or None."""
        self.socket.settimeout(max(seconds, 0.001))
        try:
            datagram = self.socket.recv(2048)
        except TimeoutError:
            return None
        except ConnectionRefusedError:
            raise Gone from None
        self.received.append(datagram)
        return datagram

    def drain(self, server=None):
        """Receives what is there, and where a node is named, until that has ended."""
        while True:
            there = server is not None and server.process.poll() is None
            try:
                if self.receive(0.05 if there else 0.001) is None and not there:
                    return
            except Gone:
                return

    def address(self):
        """Its address, as recordings have it."""
        host, port = self.socket.getsockname()
        return (bytes(10) + b'\xff\xff' + socket.inet_aton(host)).hex() + f'{port:04x}'

    def read(self, *places):
        """The values of attributes, by their places. A list that is long comes item by item."""
        values = {}
        for _, report in self.ask(matter.READ, matter.read_request(*places)):
            for item in report.get(1, []):
                _, path, value = (item[1][field] for field in (0, 1, 2))
                place = path[2], path[3], path[4]
                if 5 in path:
                    values[place].append(value)
                else:
                    values[place] = value
        return values


def unlike_lines(server, status, peers, dropped=False):
    """What is wrong with a node that ended with this status: a replay of its record is to send to each peer what that received, and the record is
    to have what each sent to each session, in this order; without some of it, where some was dropped on its way."""
    if status != 0:
        yield f'the node ended with status {status}, {server.errors()}'
    replay, lines = server.replayed()
    if replay != 0:
        yield f'the replay ended with status {replay}: {lines[-1:]}'
    sent, heard, received, told = ({} for _ in range(4))
    record = server.record.read_text(encoding='ascii').splitlines()
    for kind, lines, found in (('D', record, heard), ('S', lines, told)):
        for _, _, address, text in (line.split(' ') for line in lines if line.startswith(kind)):
            datagram = bytes.fromhex(text)
            found.setdefault((address, session_named(datagram) if kind == 'D' else None), []).append(datagram)
    sessions = {peer.session.number for peer in peers}
    for peer in peers:
        received[peer.address(), None] = peer.received
        for datagram in peer.sent:
            if session_named(datagram) in sessions:
                sent.setdefault((peer.address(), session_named(datagram)), []).append(datagram)
    for (address, session), datagrams in sent.items():
        theirs, rest = heard.pop((address, session), []), iter(datagrams)
        if theirs != datagrams and not (dropped and all(datagram in rest for datagram in theirs)):
            yield f'D lines of {address} are not what that sent to session {session}'
    for key, datagrams in received.items():
        if told.pop(key, []) != datagrams:
            yield f'S lines are not what {key[0]} received'
    if told or heard:
        yield f'D or S lines of others: {sorted(told) + sorted(heard)}'


def session_named(datagram):
    """The session that the header of a datagram names, or None where it has no header that is read."""
    if len(datagram) < 8 or datagram[0] & ~5 or datagram[3]:
        return None
    return int.from_bytes(datagram[1:3], 'little') if len(datagram) >= 8 + 8 * (datagram[0] & 1) + 2 * (datagram[0] & 4) else None


def fill_up(server, seconds=60):
    """Sends datagrams that are none until the node has ended."""
    with socket.socket(socket.AF_INET, socket.SOCK_DGRAM) as link:
        until = time.monotonic() + seconds
        while server.process.poll() is None and time.monotonic() < until:
            for _ in range(200):
                link.sendto(JUNK, (HOST, server.port))
            time.sleep(0.002)


def temporary_folder(folder):
    """A folder that goes when it is left."""
    return tempfile.TemporaryDirectory(dir=folder, prefix='serve-')


def program_of(word):
    """The path of the built program, or of a script that stands in for it."""
    path = os.path.abspath(word)
    if not os.access(path, os.X_OK):
        sys.exit(f'{word} cannot be run')
    return path
