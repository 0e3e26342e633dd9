#!/usr/bin/env python3
"""A small controller for a node that is served.

    controller.py CONFIG SESSION HOST:PORT [--counter FILE] COMMAND

    read PLACE ..                          as  read 1/On-Off/OnOff 0/40/5
    write PLACE VALUE                      as  write 0/Basic-Information/NodeLabel lamp
    toggle [ENDPOINT]                      endpoint 1 where none is said
    subscribe PLACE FLOOR CEILING [--for SECONDS]
                                           prints reports as they come, for 60 seconds where nothing is said

SESSION is the node's id of a session in CONFIG, from which keys, ids and the first counter are taken. A PLACE is ENDPOINT/CLUSTER/ATTRIBUTE,
by numbers or by the names that the lens shows, where `-` and capitals do not matter; in a read `*` stands for all. A VALUE is true, false,
null, a number, a list or a structure as JSON writes them, octets behind 0x, and any other text itself, as is a text in quotes.

No counter may be used twice in a boot of the node. So the next one stands in FILE, which is CONFIG.SESSION.counter where nothing is said. It
may go on in a later boot, and must not be removed while this one lasts.

The status is 0 where all was granted, 1 where something was refused, 2 where the words or CONFIG are not right, 3 where HOST can't be
reached or nobody answered."""
import argparse
import contextlib
import fcntl
import json
import signal
import socket
import sys
import time

import matter

# NAMES, as crates/mt_names has them.

CLUSTERS = {
    0x06: ('On-Off', {0: 'OnOff'}),
    0x1d: ('Descriptor', {0: 'DeviceTypeList', 1: 'ServerList', 2: 'ClientList', 3: 'PartsList'}),
    0x1e: ('Binding', {0: 'Binding'}),
    0x1f: ('Access-Control', {0: 'ACL', 2: 'SubjectsPerAccessControlEntry', 3: 'TargetsPerAccessControlEntry', 4: 'AccessControlEntriesPerFabric'}),
    0x28: ('Basic-Information', {0: 'DataModelRevision', 1: 'VendorName', 2: 'VendorID', 3: 'ProductName', 4: 'ProductID', 5: 'NodeLabel',
                                 6: 'Location', 7: 'HardwareVersion', 8: 'HardwareVersionString', 9: 'SoftwareVersion',
                                 10: 'SoftwareVersionString', 19: 'CapabilityMinima'}),
    0x30: ('General-Commissioning', {0: 'Breadcrumb', 1: 'BasicCommissioningInfo', 2: 'RegulatoryConfig', 3: 'LocationCapability',
                                     4: 'SupportsConcurrentConnection'}),
    0x31: ('Network-Commissioning', {0: 'MaxNetworks', 1: 'Networks', 2: 'ScanMaxTimeSeconds', 3: 'ConnectMaxTimeSeconds', 4: 'InterfaceEnabled',
                                     5: 'LastNetworkingStatus', 6: 'LastNetworkID', 7: 'LastConnectErrorValue'}),
    0x3c: ('Administrator-Commissioning', {0: 'WindowStatus', 1: 'AdminFabricIndex', 2: 'AdminVendorId', 0xfff10000: 'WindowEnd'}),
    0x3e: ('Operational-Credentials', {0: 'NOCs', 1: 'Fabrics', 2: 'SupportedFabrics', 3: 'CommissionedFabrics', 4: 'TrustedRootCertificates',
                                       5: 'CurrentFabricIndex'}),
    0x3f: ('Group-Key-Management', {0: 'GroupKeyMap', 1: 'GroupTable', 2: 'MaxGroupsPerFabric', 3: 'MaxGroupKeysPerFabric'}),
    0x41: ('User-Label', {0: 'LabelList'}),
    0xfff1fc00: ('Bench', {0: 'Items', 1: 'Number'}),
}
OF_ALL_CLUSTERS = {0xfff8: 'GeneratedCommandList', 0xfff9: 'AcceptedCommandList', 0xfffb: 'AttributeList', 0xfffc: 'FeatureMap',
                   0xfffd: 'ClusterRevision'}
ON_OFF, TOGGLE = 0x06, 2
STATUSES = {
    0x00: 'SUCCESS', 0x01: 'FAILURE', 0x7d: 'INVALID_SUBSCRIPTION', 0x7e: 'UNSUPPORTED_ACCESS', 0x7f: 'UNSUPPORTED_ENDPOINT',
    0x80: 'INVALID_ACTION', 0x81: 'UNSUPPORTED_COMMAND', 0x85: 'INVALID_COMMAND', 0x86: 'UNSUPPORTED_ATTRIBUTE', 0x87: 'CONSTRAINT_ERROR',
    0x88: 'UNSUPPORTED_WRITE', 0x89: 'RESOURCE_EXHAUSTED', 0x8b: 'NOT_FOUND', 0x8d: 'INVALID_DATA_TYPE', 0x92: 'DATA_VERSION_MISMATCH',
    0x94: 'TIMEOUT', 0x9c: 'BUSY', 0xc3: 'UNSUPPORTED_CLUSTER', 0xc6: 'NEEDS_TIMED_INTERACTION', 0xc7: 'UNSUPPORTED_EVENT',
    0xc8: 'PATHS_EXHAUSTED', 0xc9: 'TIMED_REQUEST_MISMATCH', 0xca: 'FAILSAFE_REQUIRED'}
INVALID_SUBSCRIPTION = 0x7d


def simple(name):
    """A name without what does not matter in it."""
    return name.lower().replace('-', '')


def number_in(word, names):
    """The number that a word says, or whose name it is; None for all."""
    if word == '*':
        return None
    with contextlib.suppress(ValueError):
        return int(word, 0)
    for number, name in names.items():
        if simple(name) == simple(word):
            return number
    raise argparse.ArgumentTypeError(f'{word} is no number, and none of {", ".join(names.values())}')


def attributes_of(cluster):
    """The names of a cluster's attributes."""
    return CLUSTERS.get(cluster, ('', {}))[1] | OF_ALL_CLUSTERS


def place_in(word):
    """The endpoint, the cluster and the number of an attribute."""
    parts = word.split('/')
    if len(parts) != 3:
        raise argparse.ArgumentTypeError(f'{word} is not ENDPOINT/CLUSTER/ATTRIBUTE')
    cluster = number_in(parts[1], {number: name for number, (name, _) in CLUSTERS.items()})
    return number_in(parts[0], {}), cluster, number_in(parts[2], attributes_of(cluster))


def place_told(path):
    """A path in names, of an attribute or of a command."""
    endpoint, cluster, attribute = (path.get(field) for field in ((2, 3, 4) if 4 in path else (0, 1, 2)))
    name = {TOGGLE: 'Toggle'}.get(attribute, attribute) if 4 not in path else attributes_of(cluster).get(attribute, attribute)
    return f'{endpoint}/{CLUSTERS.get(cluster, (cluster,))[0]}/{name}'


def node_in(word):
    """The host and the port of a node; an IPv6 address may stand in brackets."""
    host, _, port = word.rpartition(':')
    if not host or not port.isdecimal() or int(port) > 65535:
        raise argparse.ArgumentTypeError(f'{word} is not HOST:PORT')
    return host.strip('[]'), int(port)


def value_in(word):
    """The value that a word says."""
    try:
        return value_of(json.loads(word), word)
    except ValueError:
        return value_of(word, word)


def value_of(value, word):
    """A value of JSON as one of the encoding."""
    if isinstance(value, dict):
        return {int(number): value_of(member, word) for number, member in value.items()}
    if isinstance(value, list):
        return [value_of(member, word) for member in value]
    if isinstance(value, str) and value.startswith('0x'):
        return bytes.fromhex(value[2:])
    return value


def value_told(value):
    """A value of the encoding in words."""
    if isinstance(value, dict):
        return '{' + ', '.join(f'{number}: {value_told(member)}' for number, member in value.items()) + '}'
    if isinstance(value, list):
        return '[' + ', '.join(map(value_told, value)) + ']'
    return '0x' + value.hex() if isinstance(value, bytes) else json.dumps(value, ensure_ascii=False)


def status_told(status):
    """A status by its code and its name."""
    return f'status 0x{status:02x} {STATUSES.get(status, "")}'.rstrip()


class Telling:
    """Prints what the node says; `refused` where any of it was a refusal."""

    def __init__(self):
        self.refused = False

    def status(self, status, where='the request'):
        """A status of something."""
        self.refused |= status != 0
        print(f'{status_told(status)} on {where}', flush=True)

    def report(self, report):
        """The attributes of a ReportData. A list that is long comes as an empty one, and then item by item."""
        for attribute in report.get(1, []):
            if 0 in attribute:
                self.status(attribute[0][1][0], place_told(attribute[0][0]))
            else:
                data = attribute[1]
                appended = ' + ' if 5 in data[1] else ' '
                print(f'{place_told(data[1])}{appended}= {value_told(data[2])} (version {data[0]})', flush=True)

    def answers(self, answers):
        """All messages of an answer."""
        for opcode, message in answers:
            if opcode == matter.REPORT:
                self.report(message)
            elif opcode == matter.WRITTEN:
                for item in message[0]:
                    self.status(item[1][0], place_told(item[0]))
            elif opcode == matter.INVOKED:
                for response in message[1]:
                    if 1 in response:
                        self.status(response[1][1][0], place_told(response[1][0]))
                    else:
                        print(f'{place_told(response[0][0])} answers {value_told(response[0].get(1))}', flush=True)
            elif opcode == matter.SUBSCRIBED:
                print(f'subscription {message[0]}, with a report within {message[2]} s', flush=True)
            else:
                self.status(message[0])


def tell_reports(controller, telling, subscription, seconds):
    """Prints the reports of a subscription as they come, each confirmed. What comes of another one ends that."""
    until = time.monotonic() + seconds
    while message := controller.report(until):
        report = matter.decoded(message.payload) if message.opcode == matter.REPORT else {}
        mine = report.get(0) == subscription
        if mine:
            telling.report(report)
            if not report.get(1):
                print('nothing has changed', flush=True)
        controller.say(message.exchange, False, matter.STATUS_RESPONSE, matter.status_response(0 if mine else INVALID_SUBSCRIPTION), message.counter)
    controller.settle()


class CounterFile:
    """The next counter of a session, kept in a file that nobody else uses meanwhile."""

    def __init__(self, name, first):
        self.file = open(name, 'a+', encoding='ascii')
        fcntl.flock(self.file, fcntl.LOCK_EX)
        self.file.seek(0)
        self.next = max(int(self.file.read() or 0), first)

    def __call__(self):
        """Takes a counter. The one behind it is in the file before this one is used."""
        counter = self.next
        if counter >= matter.LAST_COUNTER:
            sys.exit('no counter is left')
        self.next = counter + 1
        self.file.truncate(0)
        self.file.write(f'{self.next}\n')
        self.file.flush()
        return counter


class Words(argparse.ArgumentParser):
    """Words on a command line. What does not fit is told in a line."""

    def error(self, message):
        print(f'{message}; controller.py without words tells what fits', file=sys.stderr)
        sys.exit(2)


def words_of(words):
    """What the words on the command line ask."""
    parser = Words(add_help=False)
    parser.add_argument('config')
    parser.add_argument('session', type=int)
    parser.add_argument('node', type=node_in)
    parser.add_argument('--counter')
    commands = parser.add_subparsers(dest='command', required=True)
    commands.add_parser('read').add_argument('places', type=place_in, nargs='+')
    write = commands.add_parser('write')
    write.add_argument('place', type=place_in)
    write.add_argument('value', type=value_in)
    commands.add_parser('toggle').add_argument('endpoint', type=int, nargs='?', default=1)
    subscribe = commands.add_parser('subscribe')
    subscribe.add_argument('place', type=place_in)
    subscribe.add_argument('floor', type=int)
    subscribe.add_argument('ceiling', type=int)
    subscribe.add_argument('--for', type=float, default=60, dest='seconds')
    return parser.parse_args(words)


def request_of(asked):
    """The opcode and the payload of a request."""
    if asked.command == 'read':
        return matter.READ, matter.read_request(*asked.places)
    if asked.command == 'write':
        return matter.WRITE, matter.write_request((asked.place, asked.value))
    if asked.command == 'toggle':
        return matter.INVOKE, matter.invoke_request(asked.endpoint, ON_OFF, TOGGLE)
    return matter.SUBSCRIBE, matter.subscribe_request(asked.floor, asked.ceiling, asked.place)


def main(words):
    if not words:
        print(__doc__)
        return 2
    asked = words_of(words)
    try:
        with open(asked.config, encoding='utf-8') as file:
            rows = [row for row in json.load(file)['sessions'] if row['session'] == asked.session]
        sessions = [matter.Session(row) for row in rows]
    except (OSError, ValueError, KeyError, TypeError) as fault:
        print(f'{asked.config} has no sessions that can be read: {type(fault).__name__}: {fault}', file=sys.stderr)
        return 2
    if len(rows) != 1:
        print(f'{asked.config} has {len(rows)} sessions {asked.session}', file=sys.stderr)
        return 2
    session, boot = sessions[0], rows[0].get('boot')
    counters = CounterFile(asked.counter or f'{asked.config}.{asked.session}.counter', session.first_counter)
    host, port = asked.node
    telling = Telling()
    with socket.socket(socket.AF_INET6 if ':' in host else socket.AF_INET, socket.SOCK_DGRAM) as ours:
        try:
            ours.connect((host, port))
        except OSError as fault:
            print(f"{host} can't be reached: {fault}", file=sys.stderr)
            return 3
        controller = matter.Controller(session, ours, counters)
        try:
            answers = controller.ask(*request_of(asked))
            telling.answers(answers)
            if answers[-1][0] == matter.SUBSCRIBED:
                tell_reports(controller, telling, answers[-1][1][0], asked.seconds)
        except matter.Unanswered:
            print(f'nobody answers session {asked.session} at {host}, port {port}; a node has it in boot {boot} alone, '
                  'and each start on a journal is a boot more', file=sys.stderr)
            return 3
        except KeyboardInterrupt:
            pass
    return int(telling.refused)


if __name__ == '__main__':
    signal.signal(signal.SIGPIPE, signal.SIG_DFL)
    sys.exit(main(sys.argv[1:]))
