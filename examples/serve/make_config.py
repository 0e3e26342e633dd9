#!/usr/bin/env python3
"""The configuration of a node that is served: two fabrics, and three sessions for each boot from 1 on. Each start of the node on one journal
is a boot, with sessions of its own.

    examples/serve/make_config.py BOOTS > configuration.json

BOOTS is 1 to 21, since a configuration has 64 sessions at most. Of boot B, `10 B + 1` is a session of fabric 1 whose peer, node 1, may do all
there; `10 B + 2` one of fabric 1 whose peer, node 2, may read and operate; `10 B + 3` one of fabric 2 whose peer, node 1, may do all there.

The keys are for trying out alone: anybody can make them again."""
import hashlib
import json
import sys

CASE, PASE = 2, 1
OPERATE, ADMINISTER = 3, 5
SESSIONS_PER_BOOT, MOST_SESSIONS = 3, 64


def key_of(*words):
    """Sixteen bytes in hex, made of some words."""
    return hashlib.sha256(' '.join(map(str, words)).encode()).hexdigest()[:32]


def root_key_of(fabric):
    """A public key has 65 bytes, of which the first is 04."""
    return '04' + f'{16 + fabric:02x}' * 64


def fabric_of(fabric, *entries):
    """The row of a fabric, whose entries are pairs of a privilege and the node that has it."""
    acl = [{'privilege': privilege, 'mode': CASE, 'subjects': [f'{node:016x}'], 'targets': []} for privilege, node in entries]
    return {'root': f'a0{fabric:02x}', 'root_key': root_key_of(fabric), 'fabric_id': f'{fabric:016x}', 'node_id': f'{100 + fabric:016x}',
            'noc': f'b0{fabric:02x}', 'icac': '', 'ipk': key_of('ipk', fabric), 'vendor': 65521, 'label': f'fabric {fabric}', 'acl': acl}


def session_of(boot, number, fabric, peer):
    """The row of a session of CASE, or of PASE where the fabric is 0."""
    row = {'session': number, 'peer_session': number + 10000, 'boot': boot, 'mode': CASE if fabric else PASE, 'cats': [],
           'key_in': key_of('in', boot, number), 'key_out': key_of('out', boot, number), 'counter_in': 1000, 'counter_out': 5000}
    if fabric:
        row |= {'root_key': root_key_of(fabric), 'fabric_id': f'{fabric:016x}', 'own_node': f'{100 + fabric:016x}', 'peer_node': f'{peer:016x}'}
    return row


def configuration_of(boots):
    """The configuration with the sessions of some boots."""
    sessions = [session_of(boot, 10 * boot + place, fabric, peer) for boot in boots for place, fabric, peer in ((1, 1, 1), (2, 1, 2), (3, 2, 1))]
    fabrics = [fabric_of(1, (ADMINISTER, 1), (OPERATE, 2)), fabric_of(2, (ADMINISTER, 1))]
    return {'fabrics': fabrics, 'sessions': sessions, 'roots': [], 'csrs': [], 'joins': [], 'reachable': []}


def main(words):
    if len(words) != 1 or not words[0].isdigit() or not 1 <= int(words[0]) <= MOST_SESSIONS // SESSIONS_PER_BOOT:
        sys.exit(__doc__)
    print(json.dumps(configuration_of(range(1, int(words[0]) + 1)), indent=1))


if __name__ == '__main__':
    main(sys.argv[1:])
