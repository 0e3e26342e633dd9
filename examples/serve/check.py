#!/usr/bin/env python3
"""Holds matter.py, controller.py and configuration.json to what the repository has: worked datagrams, the datagrams and payloads of stored
cases, names, statuses. Prints what is wrong, and at the end how much was looked at.

    examples/serve/check.py"""
import json
import re
import sys
from pathlib import Path

import controller
import make_config
import matter

HERE = Path(__file__).resolve().parent
TOP = HERE.parent.parent
STORED = [f'crates/{name}' for name in ('matter_node/stdout', 'matter_node/data/requests.txt', 'cases_runs/stdout', 'cases_runs/data/runs.txt',
                                        'cases_im/stdout', 'cases_worker/stdout', 'cases_worker/data/crew.txt', 'cases_exchange/data/talks.txt')]
CONFIGURATIONS = ['examples/bench.json', 'crates/cases_runs/data/sessions.json', 'crates/cases_runs/data/three_sessions.json',
                  'crates/cases_runs/data/other_boot.json', 'crates/cases_worker/data/sessions.json']
wrong = []


def tell(text):
    wrong.append(text)
    print(text)


def text_of(name):
    return (TOP / name).read_text(encoding='utf-8')


def ends_of(row):
    """The controller's end of a session and the node's, which is that of the row with its sides exchanged once more."""
    others = {'session': 'peer_session', 'key_in': 'key_out', 'counter_in': 'counter_out', 'own_node': 'peer_node'}
    others |= {new: old for old, new in others.items()}
    return matter.Session(row), matter.Session({others.get(name, name): value for name, value in row.items()})


def check_worked_datagrams():
    """Those of the page that makes them by hand."""
    ours, theirs = ends_of(json.loads(text_of('examples/bench.json'))['sessions'][0])
    found = dict(re.findall(r'^(\w+)[^\n]*\n(.*?)(?:\n\n|\Z)', text_of('docs/formats/sealed-read.txt'), re.M | re.S))
    for name, end in (('request', theirs), ('answer', ours), ('acknowledgement', ours)):
        datagram, plain = (bytes.fromhex(re.search(rf'{word} +(\w+)', found[name])[1]) for word in ('datagram', 'plaintext'))
        message = end.open(datagram)
        if not message or matter.plain_of(message) != plain:
            tell(f'sealed-read.txt: the {name} is not opened')
    asked = matter.Message(0x1234, True, matter.READ, matter.read_request((1, 6, 0)), None, True, matter.INTERACTION_MODEL, 1000)
    if ours.seal(asked).hex() not in found['request']:
        tell('sealed-read.txt: the request is another')


def check_stored_datagrams():
    """Each stored datagram that a session opens is sealed again to the same bytes."""
    rows = [row for name in CONFIGURATIONS for row in json.loads(text_of(name))['sessions']]
    ends = {(end.own_number, row['key_in'], row['key_out'], turn): (end, other)
            for row in rows for turn, (end, other) in enumerate((ends_of(row), ends_of(row)[::-1]))}
    count = 0
    for name in STORED:
        for text in set(re.findall(r'\b00[0-9a-f]{64,}\b', text_of(name))):
            datagram = bytes.fromhex(text) if len(text) % 2 == 0 else b''
            for end, other in ends.values():
                message = end.open(datagram)
                count += bool(message)
                if message and other.seal(message) != datagram:
                    tell(f'{name}: another datagram than {text}')
    return count


def check_stored_payloads():
    """Each stored payload of a node is read, and written again to the same bytes."""
    count = 0
    for name in STORED:
        for text in set(re.findall(r'\b15(?:[0-9a-f]{2})*24ff0118\b', text_of(name))):
            count += 1
            payload = bytes.fromhex(text)
            try:
                written = matter.encoded(matter.decoded(payload))
            except (IndexError, ValueError) as fault:
                written = str(fault).encode()
            if written != payload and 'stdout' in name:
                tell(f'{name}: another payload than {text}')
    return count


def check_requests():
    """The requests are those that the words of matter_say come to."""
    for made, expected in ((matter.read_request((1, 6, 0)), '153600172402012403062404001818290324ff0118'),
                           (matter.invoke_request(1, 6, 2), '1528002801360215370024000124010624020218350118181824ff0118'),
                           (matter.write_request(((0, 0x28, 5), 'lamp')), '15280028013602153701240200240328240405182c02046c616d70181824ff0118'),
                           (matter.subscribe_request(0, 60, (1, 6, 0)), '15280024010024023c3603172402012403062404001818290724ff0118')):
        if made.hex() != expected:
            tell(f'the request {made.hex()} should be {expected}')
    for number in (0, 255, 256, 65535, 65536, 1 << 32, (1 << 64) - 1, -1, -128, -129, -32768, -(1 << 63)):
        if matter.decoded(matter.encoded([number])) != [number]:
            tell(f'{number} is not read as it is written')


def check_names():
    """Names are those of mt_names, statuses those of the page."""
    for path in sorted(TOP.glob('crates/mt_names/src/clusters/*.rt')):
        numbers = {name: int(number.replace('_', ''), 0) for name, number in
                   re.findall(r'pub const (\w+): u(?:32|8) = (\w+);', text_of(f'crates/mt_meta/src/clusters/{path.name}'))}
        tables = re.findall(r'(?:ATTRIBUTES|EXTENSIONS): \[Named; \d+\] = \[(.*?)\];', path.read_text(encoding='utf-8'), re.S)
        named = {numbers[number]: name for table in tables for number, name in re.findall(r'number: table::(\w+),\s*name: "([^"]*)"', table)}
        if controller.CLUSTERS.get(numbers['CLUSTER'], ('', {}))[1] != named:
            tell(f'{path.name} has other names')
    for code, name in re.findall(r'\| ([0-9a-f]{2}) \| ([A-Z_]+) ', text_of('docs/formats/statuses-and-limits.md')):
        if controller.STATUSES.get(int(code, 16)) != name:
            tell(f'status {code} has another name')


def check_configuration():
    """The configuration is the one that is made for three boots."""
    made = json.dumps(make_config.configuration_of(range(1, 4)), indent=1) + '\n'
    if (HERE / 'configuration.json').read_text(encoding='utf-8') != made:
        tell('configuration.json is not what make_config.py 3 writes')


def main():
    check_worked_datagrams()
    check_requests()
    check_names()
    check_configuration()
    print(f'{check_stored_datagrams()} datagrams and {check_stored_payloads()} payloads, {len(wrong)} wrong')
    return bool(wrong)


if __name__ == '__main__':
    sys.exit(main())
