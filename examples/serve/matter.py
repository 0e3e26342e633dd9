"""What a controller needs to speak with a Matter node over a session whose keys are there: the encoding of values (TLV), messages sealed as
datagrams, and the exchanges in which they go. The formats are those of docs/formats.

It takes AES-CCM from the package `cryptography`, and nothing else from outside the standard library."""
import collections
import contextlib
import math
import struct
import time

from cryptography.exceptions import InvalidTag
from cryptography.hazmat.primitives.ciphers.aead import AESCCM

# THE ENCODING (docs/formats/tlv.md). A structure is a dict by the numbers of its fields, an array a list, a list a `Path`, octets are bytes.

SIGNED, UNSIGNED, FALSE, TRUE, FLOAT, TEXT, OCTETS, NULL, STRUCTURE, ARRAY, LIST, END = 0, 4, 8, 9, 10, 12, 16, 20, 21, 22, 23, 24
CONTEXT = 0x20
TAG_BYTES = 0, 1, 2, 4, 2, 4, 6, 8


class Path(dict):
    """A list of the encoding, as paths are: fields by number, each once."""


def width_of(number):
    """The place of the least width that holds a number: of 1, 2, 4 or 8 bytes."""
    return max(0, math.ceil(math.log2(max(1, number.bit_length()) / 8)))


def encoded(value, tag=None):
    """A value in the narrow encoding, under a context tag where there is one."""
    def element(kind, rest=b''):
        return bytes([kind]) + rest if tag is None else bytes([CONTEXT | kind, tag]) + rest

    if value is None:
        return element(NULL)
    if isinstance(value, bool):
        return element(TRUE if value else FALSE)
    if isinstance(value, int):
        if value < 0:
            width = width_of(~value << 1)
            return element(SIGNED + width, value.to_bytes(1 << width, 'little', signed=True))
        return element(UNSIGNED + width_of(value), value.to_bytes(1 << width_of(value), 'little'))
    if isinstance(value, (str, bytes)):
        kind, data = (TEXT, value.encode()) if isinstance(value, str) else (OCTETS, value)
        return element(kind + width_of(len(data)), len(data).to_bytes(1 << width_of(len(data)), 'little') + data)
    if isinstance(value, list):
        return element(ARRAY, b''.join(map(encoded, value)) + bytes([END]))
    members = b''.join(encoded(member, number) for number, member in value.items())
    return element(LIST if isinstance(value, Path) else STRUCTURE, members + bytes([END]))


def element_at(data, at):
    """The tag and the value at a place, and the place behind them. A context tag is a number, and another one its bytes."""
    kind, form = data[at] & 0x1f, data[at] >> 5
    tag = data[at + 1:at + 1 + TAG_BYTES[form]]
    at += 1 + TAG_BYTES[form]
    tag = tag[0] if form == 1 else tag or None
    if kind < FALSE:
        end = at + (1 << kind % 4)
        return tag, int.from_bytes(data[at:end], 'little', signed=kind < UNSIGNED), end
    if kind in (FALSE, TRUE, NULL):
        return tag, {FALSE: False, TRUE: True, NULL: None}[kind], at
    if kind < TEXT:
        end = at + (4 << kind - FLOAT)
        return tag, struct.unpack('<f' if kind == FLOAT else '<d', data[at:end])[0], end
    if kind < NULL:
        begin = at + (1 << kind % 4)
        end = begin + int.from_bytes(data[at:begin], 'little')
        return tag, data[begin:end].decode() if kind < OCTETS else bytes(data[begin:end]), end
    return tag, *members_at(kind, data, at)


def members_at(kind, data, at):
    """A structure, an array or a list whose first member is at a place, and the place behind its end."""
    members = []
    while data[at] != END:
        tag, value, at = element_at(data, at)
        members.append((tag, value))
    if kind == ARRAY:
        return [value for _, value in members], at + 1
    return (Path if kind == LIST else dict)(members), at + 1


def decoded(data):
    """The value at the front of some bytes."""
    return element_at(data, 0)[1]


# MESSAGES AND DATAGRAMS (docs/formats/secured-messages.md).

INTERACTION_MODEL, SECURE_CHANNEL = 1, 0
STATUS_RESPONSE, READ, SUBSCRIBE, SUBSCRIBED, REPORT, WRITE, WRITTEN, INVOKE, INVOKED, TIMED = range(1, 11)
ACKNOWLEDGEMENT = 0x10
INITIATOR, ACKNOWLEDGES, RELIABLE, VENDOR = 1, 2, 4, 16
LAST_COUNTER = 0xffff_ffff

# A message: `begun` tells whether its sender began the exchange; a protocol of a vendor has the vendor above its 16 bits.
Message = collections.namedtuple('Message', 'exchange begun opcode payload acknowledged reliable protocol counter')


def message_of(plain, counter):
    """The message of a plaintext."""
    flags, opcode, exchange, protocol = struct.unpack_from('<BBHH', plain)
    at, acknowledged = 6, None
    if flags & VENDOR:
        protocol, at = struct.unpack_from('<HH', plain, 4)[1] << 16 | protocol, 8
    if flags & ACKNOWLEDGES:
        acknowledged, at = struct.unpack_from('<I', plain, at)[0], at + 4
    return Message(exchange, bool(flags & INITIATOR), opcode, plain[at:], acknowledged, bool(flags & RELIABLE), protocol, counter)


def plain_of(message):
    """The protocol header of a message, and behind it its payload."""
    vendor, protocol = divmod(message.protocol, 1 << 16)
    flags = (message.begun * INITIATOR | (message.acknowledged is not None) * ACKNOWLEDGES | message.reliable * RELIABLE
             | (vendor > 0) * VENDOR)
    header = struct.pack('<BBHH', flags, message.opcode, message.exchange, protocol)
    if vendor:
        header += struct.pack('<H', vendor)
    if message.acknowledged is not None:
        header += struct.pack('<I', message.acknowledged)
    return header + message.payload


def nonce_of(header, node):
    """Of a sender: the security flags and the counter, as they are in the message header, and the sender's node id."""
    return header[3:8] + node.to_bytes(8, 'little')


class Session:
    """The controller's end of a session: a row of the configuration with its two sides exchanged."""

    def __init__(self, row):
        case = row['mode'] == 2
        self.number, self.own_number = row['session'], row['peer_session']
        self.node, self.own_node = (int(row[name], 16) if case else 0 for name in ('own_node', 'peer_node'))
        self.sealing, self.opening = (AESCCM(bytes.fromhex(row[name]), tag_length=16) for name in ('key_in', 'key_out'))
        self.first_counter = row['counter_in']

    def seal(self, message):
        """The datagram of a message, under its counter."""
        header = struct.pack('<BHBI', 0, self.number, 0, message.counter)
        return header + self.sealing.encrypt(nonce_of(header, self.own_node), plain_of(message), header)

    def open(self, datagram):
        """The message in a datagram of the node, or None where it is of another session or is not sealed by the node."""
        if len(datagram) < 8 or datagram[:4] != struct.pack('<BHB', 0, self.own_number, 0):
            return None
        header = datagram[:8]
        try:
            plain = self.opening.decrypt(nonce_of(header, self.node), datagram[8:], header)
        except InvalidTag:
            return None
        return message_of(plain, int.from_bytes(header[4:8], 'little'))


# EXCHANGES.

RESEND_AFTER, SENDINGS, PATIENCE = 0.5, 5, 6.0


class Unanswered(Exception):
    """The node has not answered, however often it was asked."""


class Controller:
    """A session with a socket that is connected to the node. What is reliable is sent again, with the same bytes, until it is acknowledged;
    what the node sends reliably is acknowledged, each copy too.

    `next_counter` gives the counter of the next message; none may ever be used twice in a boot of the node."""

    def __init__(self, session, socket, next_counter):
        self.session, self.socket, self.next_counter = session, socket, next_counter
        self.owed = {}  # of each message that is not acknowledged, by its counter: the datagram, when it was sent last, and how often
        self.heard = set()  # the counters of the node's messages
        self.asides = collections.deque()  # messages on exchanges that the node began, while an answer was awaited

    # What goes through the socket. A test may stand in for it by other bodies of these two.

    def send(self, datagram):
        """Gives a datagram to the socket. While no node is there it is lost, and sent again later."""
        with contextlib.suppress(ConnectionRefusedError):
            self.socket.send(datagram)

    def receive(self, seconds):
        """The next datagram that comes within some time, or None."""
        self.socket.settimeout(max(seconds, 0.001))
        try:
            return self.socket.recv(2048)
        except (TimeoutError, ConnectionRefusedError):
            return None

    def say(self, exchange, begun, opcode, payload=b'', acknowledged=None, protocol=INTERACTION_MODEL, reliable=True):
        """Sends a message on an exchange, which is new where that is None; answers the exchange."""
        counter = self.next_counter()
        exchange = counter & 0xffff if exchange is None else exchange
        datagram = self.session.seal(Message(exchange, begun, opcode, payload, acknowledged, reliable, protocol, counter))
        if reliable:
            self.owed[counter] = datagram, time.monotonic(), 1
        self.send(datagram)
        return exchange

    def acknowledge(self, message):
        """Acknowledges a message of the node alone."""
        self.say(message.exchange, not message.begun, ACKNOWLEDGEMENT, b'', message.counter, SECURE_CHANNEL, reliable=False)

    def resend(self):
        """Sends again what is due; answers when the next is."""
        now = time.monotonic()
        for counter, (datagram, last, sendings) in list(self.owed.items()):
            if last + RESEND_AFTER <= now and sendings < SENDINGS:
                self.owed[counter] = datagram, now, sendings + 1
                self.send(datagram)
        return min((last + RESEND_AFTER for _, last, sendings in self.owed.values() if sendings < SENDINGS), default=math.inf)

    def hear(self, until):
        """The next message of the interaction model that is new, or None where none comes until then."""
        while (now := time.monotonic()) < until:
            datagram = self.receive(min(until, self.resend()) - now)
            message = datagram and self.session.open(datagram)
            if not message:
                continue
            self.owed.pop(message.acknowledged, None)
            if message.counter in self.heard:
                if message.reliable:
                    self.acknowledge(message)
                continue
            self.heard.add(message.counter)
            if message.protocol == INTERACTION_MODEL:
                return message
        return None

    def answer(self, exchange):
        """The next message on an exchange that the controller began. What comes on others meanwhile is put aside."""
        until = time.monotonic() + PATIENCE
        while message := self.hear(until):
            if message.begun:
                self.asides.append(message)
            elif message.exchange == exchange:
                return message
            elif message.reliable:
                self.acknowledge(message)
        raise Unanswered

    def ask(self, opcode, payload):
        """Makes a request; answers the opcode and the payload of each message of the answer, which are all acknowledged. A report is
        confirmed where it wants to be."""
        exchange = self.say(None, True, opcode, payload)
        answers = []
        while True:
            message = self.answer(exchange)
            answers.append((message.opcode, decoded(message.payload)))
            if message.opcode != REPORT or answers[-1][1].get(4):
                self.acknowledge(message)
                return answers
            more = answers[-1][1].get(3) or opcode == SUBSCRIBE
            self.say(exchange, True, STATUS_RESPONSE, status_response(0), message.counter)
            if not more:
                self.settle()
                return answers

    def settle(self):
        """Waits until what was sent is acknowledged."""
        until = time.monotonic() + PATIENCE
        while self.owed and time.monotonic() < until:
            message = self.hear(min(until, time.monotonic() + 0.05))
            if message and message.begun:
                self.asides.append(message)

    def report(self, until):
        """The next message on an exchange that the node began, or None where none comes until then."""
        if self.asides:
            return self.asides.popleft()
        while message := self.hear(until):
            if message.begun:
                return message
            if message.reliable:
                self.acknowledge(message)
        return None


# REQUESTS OF THE INTERACTION MODEL (docs/formats/interaction-model.md).

REVISION = {0xff: 1}


def status_response(status):
    """A StatusResponse."""
    return encoded({0: status} | REVISION)


def read_request(*places):
    """A read of attributes, each by its endpoint, its cluster and its number; of lists the reader's own items."""
    return encoded({0: [path_of(place) for place in places], 3: True} | REVISION)


def subscribe_request(floor, ceiling, *places):
    """A subscription to attributes, which ends what the same node of the fabric has."""
    return encoded({0: False, 1: floor, 2: ceiling, 3: [path_of(place) for place in places], 7: True} | REVISION)


def write_request(*items):
    """A write of attributes, each a place and a value. It is one change of the node: kept as a whole, or not at all."""
    writes = [{1: path_of(place), 2: value} for place, value in items]
    return encoded({0: False, 1: False, 2: writes} | REVISION)


def invoke_request(endpoint, cluster, command):
    """A command without fields."""
    return encoded({0: False, 1: False, 2: [{0: Path({0: endpoint, 1: cluster, 2: command}), 1: {}}]} | REVISION)


def path_of(place):
    """The path of an attribute. A part that is None stands for all."""
    return Path({field: part for field, part in zip((2, 3, 4), place) if part is not None})
