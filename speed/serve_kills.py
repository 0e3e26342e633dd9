#!/usr/bin/env python3
"""Kills a node that serves, at a random moment, again and again on one journal, and sees each time that all is there which it had
acknowledged, and of what it had not each change as a whole or not at all. Every tenth run it lets the node end by itself, on a new journal,
and sees that a replay of its record sends what the peers received.

    speed/serve_kills.py PROGRAM [--runs RUNS] [--workers W] [--seed SEED] [--folder FOLDER]

Three peers write over three sessions of two fabrics at once. An administrator's write sets the node's label, the list of labels and the bench
items of its fabric, all to one tag that is used once; the operator's sets the bench items alone; each of them toggles besides. A change is
acknowledged once its answer has come. Where W is 0 each run takes another number of workers. Killed is the process (SIGKILL), and not the
machine: what the node gave to the operating system is there, whether it was synced or not."""
import argparse
import random
import sys
import threading
import time
from pathlib import Path

from served import (ITEMS, LABELS, NODE_LABEL, ON_OFF, Budget, Finished, Gone, Peer, Server, make_config, matter, program_of, settled,
                    temporary_folder, unlike_lines)

ADMINISTRATOR, OPERATOR, OTHER = 0, 1, 2
FABRIC_OF = {ADMINISTRATOR: 1, OPERATOR: 1, OTHER: 2}
TOGGLE = 'toggle'
UNLIMITED = 1_000_000


class Change:
    """A change that was asked for: its tag, what it sets, and when it was sent and acknowledged."""

    def __init__(self, tag, sets):
        self.tag, self.sets, self.sent, self.acknowledged = tag, sets, time.monotonic(), None

    def is_before(self, other):
        """Whether it was acknowledged before the other was sent."""
        return self.acknowledged is not None and self.acknowledged < other.sent


def labels_of(tag):
    return [{0: f'label {place}', 1: tag} for place in range(4)]


def items_of(tag):
    return [{1: f'{tag} {place}', 2: tag.encode() * 3} for place in range(3)]


def statuses_in(opcode, answer):
    """The statuses in the answer to a write or a command."""
    if opcode == matter.WRITTEN:
        return [item[1][0] for item in answer[0]]
    return [answer[1][0][1][1][0]] if opcode == matter.INVOKED else [answer.get(0, 'none')]


def work(peer, place, run, changes, generator, wrong):
    """Makes changes over one session until the node is gone, or all datagrams were sent."""
    fabric, count = FABRIC_OF[place], 0
    try:
        while True:
            count += 1
            tag = f'{run}.{place}.{count}'
            if generator.random() < 0.3:
                change = Change(tag, (TOGGLE,))
                opcode, payload = matter.INVOKE, matter.invoke_request(1, 6, 2)
            else:
                items, labels = (ITEMS, items_of(tag)), ((NODE_LABEL, tag), (LABELS, labels_of(tag)))
                change = Change(tag, (f'items {fabric}',) if place == OPERATOR else ('labels', f'items {fabric}'))
                opcode, payload = matter.WRITE, matter.write_request(*(() if place == OPERATOR else labels), items)
            changes.append(change)
            statuses = statuses_in(*peer.ask(opcode, payload)[0])
            if any(statuses):
                wrong(f'run {run}: {tag} is refused: {statuses}')
            change.acknowledged = time.monotonic()
    except (Gone, Finished):
        pass
    except matter.Unanswered:
        wrong(f'run {run}: {tag} is not answered')


def tag_in(values, wrong, run):
    """The one tag in all items of a list and what goes with it; none where there is nothing. Anything else is half a change."""
    tags = set(values)
    if len(tags) > 1:
        wrong(f'run {run}: half a change is there: {sorted(tags)}')
    return next(iter(tags), '')


class State:
    """What of the node's state is asked for: the tag of the labels, the tags of the bench items of each fabric, and On/Off."""

    def __init__(self, tags=None, is_on=False):
        self.tags, self.is_on = tags or {'labels': '', 'items 1': '', 'items 2': ''}, is_on

    @classmethod
    def read(cls, peers, wrong, run):
        """Reads it over the sessions of both fabrics."""
        seen = peers[ADMINISTRATOR].read(ON_OFF, NODE_LABEL, LABELS, ITEMS)
        tags = {'labels': tag_in([seen[NODE_LABEL]] + [label[1] for label in seen[LABELS]], wrong, run)}
        if seen[LABELS] != (labels_of(tags['labels']) if tags['labels'] else []):
            wrong(f'run {run}: the labels are {seen[LABELS]}')
        for fabric, items in ((1, seen[ITEMS]), (2, peers[OTHER].read(ITEMS)[ITEMS])):
            tag = tags[f'items {fabric}'] = tag_in([item[1].split(' ')[0] for item in items], wrong, run)
            if items != [item | {254: fabric} for item in items_of(tag)] * bool(tag):
                wrong(f'run {run}: the items of fabric {fabric} are {items}')
        return cls(tags, seen[ON_OFF])

    @classmethod
    def settled(cls, keys):
        """The same of what `settle` told."""
        def value(key, first):
            return matter.decoded(keys[key]) if key in keys else first
        tags = {'labels': value('030000' + '00000028' + '00000005', '')}
        for fabric in (1, 2):
            items = value(f'04{fabric:02x}0001' + 'fff1fc00' + '00000000', [])
            tags[f'items {fabric}'] = items[0][1].split(' ')[0] if items else ''
        return cls(tags, value('030001' + '00000006' + '00000000', False))


class Checker:
    """Compares what is there with what was asked, and counts."""

    def __init__(self):
        self.counts = dict.fromkeys(('kills', 'early kills', 'writes', 'toggles', 'unanswered', 'unanswered and there', 'toggles known exactly',
                                     'runs that ended', 'lines sent', 'wrong'), 0)

    def wrong(self, text):
        self.counts['wrong'] += 1
        print(text, flush=True)

    def compare(self, run, before, changes, now):
        """Whether the state now may be the one behind these changes. The node has done all that it acknowledged, and some others."""
        asked = {change.tag: change for change in changes}
        for name, tag in now.tags.items():
            mine = [change for change in changes if name in change.sets]
            if tag not in asked or name not in asked[tag].sets:
                if tag != before.tags[name]:
                    self.wrong(f'run {run}: {name} is {tag!r}, which nobody wrote')
                elif any(change.acknowledged for change in mine):
                    self.wrong(f'run {run}: of {name} an acknowledged change is gone')
                continue
            self.counts['unanswered and there'] += asked[tag].acknowledged is None
            if any(asked[tag].is_before(change) for change in mine if change.acknowledged):
                self.wrong(f'run {run}: {name} is {tag!r}, behind which another was acknowledged')
        self.compare_joined(run, asked, now)
        self.compare_toggles(run, before, changes, now)
        for change in changes:
            if change.acknowledged is None:
                self.counts['unanswered'] += 1
            else:
                self.counts['toggles' if change.sets == (TOGGLE,) else 'writes'] += 1

    def compare_joined(self, run, asked, now):
        """What one write sets is set in one: where a part of it is there, nothing older is in the place of another part."""
        for name, tag in now.tags.items():
            for other in asked[tag].sets if tag in asked else ():
                there = now.tags.get(other)
                if there != tag and (there not in asked or asked[there].is_before(asked[tag])):
                    self.wrong(f'run {run}: {name} is {tag!r}, and {other} still {there!r}')

    def compare_toggles(self, run, before, changes, now):
        """On/Off is known where each toggle was acknowledged."""
        toggles = [change for change in changes if change.sets == (TOGGLE,)]
        if all(change.acknowledged for change in toggles):
            self.counts['toggles known exactly'] += 1
            if now.is_on != (before.is_on ^ len(toggles) % 2):
                self.wrong(f'run {run}: On/Off is {now.is_on} behind {len(toggles)} toggles from {before.is_on}')


class Kills:
    """The runs on one journal."""

    def __init__(self, program, folder, workers, generator, checker):
        self.program, self.folder, self.workers, self.generator, self.checker = program, folder, workers, generator, checker
        self.state, self.changes = State(), []

    def count_of_workers(self):
        return self.workers or self.generator.choice((1, 2, 4, 8))

    def threads(self, peers, run, changes):
        """A thread for each peer, which makes changes."""
        return [threading.Thread(target=work, args=(peer, place, run, changes, random.Random(self.generator.random()), self.checker.wrong))
                for place, peer in enumerate(peers)]

    def next_boot(self):
        """The boot of the next start, and what is kept now."""
        keys = settled(self.program, self.folder, make_config.configuration_of([1]))
        return matter.decoded(keys['01']) + 1, State.settled(keys)

    def see(self, run, peers, told):
        """Reads the state, and compares it with what was asked before the last kill, and with what `settle` told."""
        now = State.read(peers, self.checker.wrong, run)
        if vars(now) != vars(told):
            self.checker.wrong(f'run {run}: settle told {vars(told)}, and there is {vars(now)}')
        self.checker.compare(run, self.state, self.changes, now)
        self.state, self.changes = now, []

    def run_and_kill(self, run, last=False):
        """A start, a look at what is there, changes, and a kill. The last run only looks."""
        boot, told = self.next_boot()
        config = make_config.configuration_of([boot])
        server = Server(self.program, self.folder, config, self.count_of_workers(), UNLIMITED)
        if not last and self.generator.random() < 0.1:
            time.sleep(self.generator.uniform(0, 0.03))
            server.kill()
            self.checker.counts['early kills'] += 1
            return
        try:
            server.wait_until_bound()
            peers = [Peer(row, server.port) for row in config['sessions']]
            self.see(run, peers, told)
            threads = self.threads(peers, run, self.changes)
            for thread in threads if not last else ():
                thread.start()
            if not last:
                time.sleep(self.generator.uniform(0, 0.15))
                self.checker.counts['kills'] += 1
        finally:
            server.kill()
        for thread in threads if not last else ():
            thread.join()
        for peer in peers:
            peer.socket.close()

    def run_to_its_end(self, run):
        """A start on a new journal, changes of so many datagrams, and the replay of the record."""
        budget = Budget(self.generator.randrange(100, 600))
        config = make_config.configuration_of([1])
        (self.folder / 'new-journal').unlink(missing_ok=True)
        server = Server(self.program, self.folder, config, self.count_of_workers(), budget.left, 'new-journal')
        try:
            server.wait_until_bound()
            peers = [Peer(row, server.port, budget) for row in config['sessions']]
            threads = self.threads(peers, run, [])
            for thread in threads:
                thread.start()
            for thread in threads:
                thread.join()
            status = server.wait(30)
        finally:
            server.kill()
        for peer in peers:
            peer.drain()
        self.checker.counts['runs that ended'] += 1
        self.checker.counts['lines sent'] += sum(len(peer.received) for peer in peers)
        for text in unlike_lines(server, status, peers):
            self.checker.wrong(f'run {run}: {text}')
        for peer in peers:
            peer.socket.close()


def main():
    parser = argparse.ArgumentParser(usage=__doc__)
    parser.add_argument('program', type=program_of)
    parser.add_argument('--runs', type=int, default=1000)
    parser.add_argument('--workers', type=int, default=0)
    parser.add_argument('--seed', type=int, default=1)
    parser.add_argument('--folder')
    asked = parser.parse_args()
    checker, begin = Checker(), time.monotonic()
    with temporary_folder(asked.folder) as folder:
        kills = Kills(asked.program, Path(folder), asked.workers, random.Random(asked.seed), checker)
        for run in range(1, asked.runs + 1):
            try:
                (kills.run_to_its_end if run % 10 == 0 else kills.run_and_kill)(run)
            except (Gone, matter.Unanswered) as fault:
                checker.wrong(f'run {run}: {fault or type(fault).__name__}')
            if checker.counts['wrong'] > 20:
                break
        kills.run_and_kill(asked.runs + 1, last=True)
    told = ', '.join(f'{count} {name}' for name, count in checker.counts.items())
    print(f'{run} runs in {time.monotonic() - begin:.0f} s: {told}')
    return 1 if checker.counts['wrong'] else 0


if __name__ == '__main__':
    sys.exit(main())
