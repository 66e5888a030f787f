#!/usr/bin/env python3
"""Who spends the gate's time: runs `rt ci`, and tells what each crate's proof, tests, building and must-fail edits took.

    python3 bench/gate.py [NAME..]         runs `rt ci` (of these crates alone, where some are named) and prints its lines as they come,
                                           then the table; out/gate.log keeps what was measured
    python3 bench/gate.py --log FILE ..    keeps it in FILE, from minute to minute, so that a run that is cut off is told too
    python3 bench/gate.py --anew ..        proves and tries all again, also what an earlier run on this machine passed
    python3 bench/gate.py --read FILE ..   prints the table of earlier runs, added up: of runs that went on where others ended,
                                           what all of it took

Times are processor minutes, sampled twice a second from /proc: of the checks in a crate's own folder (its proof, or with `--test` its
tests), and of those in a copy of it (its edits). Built is what a program takes that was checked before, and what a check of tests takes
besides its jobs, which is mostly the building of them. Running isn't counted, nor what takes less than half a second. A crate that an
earlier run on this machine has passed takes nothing. The chain is the one of crates that stand on each other whose proofs take longest:
with processors without end a run would still take so long, and with two no less than half of all. It ends with the status of `rt ci`.
"""
import argparse
import collections
import json
import os
import subprocess
import sys
import threading
import time

TICK = os.sysconf('SC_CLK_TCK')
KINDS = 'proof', 'tests', 'built', 'edits'


def words_of(pid):
    """Returns the command line of a process, or an empty list where it has ended."""
    try:
        with open(f'/proc/{pid}/cmdline', 'rb') as file:
            return file.read().decode(errors='replace').split('\0')[:-1]
    except OSError:
        return []


def seconds_of(pid):
    """Returns a process's parent, when it began, and its processor seconds; or None where it has ended."""
    try:
        with open(f'/proc/{pid}/stat') as file:
            fields = file.read().rsplit(')', 1)[1].split()
    except OSError:
        return None
    return int(fields[1]), int(fields[19]), sum(int(it) for it in fields[11:13]) / TICK


def below(root):
    """Returns the processes below one, by their numbers and when they began (a number comes again), each with its seconds and its
    parent's number."""
    found, parents = {}, {}
    for name in os.listdir('/proc'):
        it = seconds_of(name) if name.isdigit() else None
        if it:
            parents[int(name)], began, seconds = it
            found[int(name), began] = seconds, parents[int(name)]
    def is_below(pid):
        while pid > 1 and pid != root:
            pid = parents.get(pid, 0)
        return pid == root
    return {key: it for key, it in found.items() if is_below(key[0])}


def crate_and_kind(pid):
    """Returns whose time a process takes, or None where it is no check."""
    words = words_of(pid)
    if '--crate-name' not in words:
        return None
    crate = words[words.index('--crate-name') + 1]
    try:
        folder = os.readlink(f'/proc/{pid}/cwd')
    except OSError:
        return None
    if 'rt-edit' in folder:
        return crate, 'edits'
    if '--crate-checked' in words:
        return crate, 'built'
    return crate, 'tests' if '--test' in words else 'proof'


class Run:
    """A run of the gate, with the greatest time seen of each of its processes."""

    def __init__(self, words, log):
        self.begin, self.taken, self.last, self.log, self.ended = time.time(), {}, '', log, threading.Event()
        self.process = subprocess.Popen(['rt', 'ci', *words], stdout=subprocess.PIPE, stderr=subprocess.STDOUT, text=True, errors='replace')

    def record(self):
        """Returns what was measured so far, by crate and kind."""
        sums = collections.Counter()
        for (crate, kind), seconds in list(self.taken.values()):
            sums[crate, kind] += seconds
        return {'minutes': (time.time() - self.begin) / 60, 'last': self.last, 'seconds': [[*key, value] for key, value in sums.items()]}

    def keep(self):
        """Writes it down."""
        os.makedirs(os.path.dirname(self.log) or '.', exist_ok=True)
        with open(self.log, 'w') as file:
            json.dump(self.record(), file)

    def part_builders(self, running):
        """Counts as built what a check of tests takes that has jobs, since those prove and it builds."""
        tests = {key[0]: key for key in running if key in self.taken and self.taken[key][0][1] == 'tests'}
        for key, (_, parent) in running.items():
            if key[0] in tests and parent in tests:
                (crate, _), seconds = self.taken[tests[parent]]
                self.taken[tests[parent]] = (crate, 'built'), seconds

    def sample(self):
        """Notes times until the run ends."""
        turn = 0
        while not self.ended.wait(0.5):
            running = below(self.process.pid)
            for key, (seconds, _) in running.items():
                whose = self.taken[key][0] if key in self.taken else crate_and_kind(key[0])
                if whose:
                    self.taken[key] = whose, seconds
            self.part_builders(running)
            turn += 1
            if turn % 60 == 0:
                self.keep()

    def follow(self):
        """Prints the run's lines as they come, and returns its status."""
        sampler = threading.Thread(target=self.sample)
        sampler.start()
        for line in self.process.stdout:
            print(line, end='', flush=True)
            self.last = line.strip() or self.last
        status = self.process.wait()
        self.ended.set()
        sampler.join()
        self.keep()
        return status


def added(files):
    """Returns the records of several runs as one."""
    records = []
    for name in files:
        with open(name) as file:
            records.append(json.load(file))
    return {
        'minutes': sum(it['minutes'] for it in records),
        'last': records[-1]['last'],
        'seconds': [row for it in records for row in it['seconds']],
    }


def entries():
    """Returns the crates of crates.txt, each with those that it stands on."""
    found = {}
    with open('crates.txt') as file:
        for line in file:
            line = line.split('#')[0].strip()
            if line:
                name, below_it = line.split(':', 1)
                found[name.split()[0]] = below_it.split()
    return found


def longest(crates, weight):
    """Returns the chain of the greatest weight, lowest crate first."""
    best = {}
    def chain(name):
        if name not in best:
            lower = max((chain(it) for it in crates[name] if it in crates), default=(0, []))
            best[name] = lower[0] + weight(name), lower[1] + [name]
        return best[name]
    return max((chain(it) for it in crates), default=(0, []))


def table(record):
    """Prints what each crate took, the slowest first, and the longest chains."""
    took = collections.defaultdict(collections.Counter)
    for crate, kind, seconds in record['seconds']:
        took[crate][kind] += seconds / 60
    print('\nprocessor minutes   ' + ''.join(f'{it:>8}' for it in (*KINDS, 'all')))
    for crate, times in sorted(took.items(), key=lambda it: -sum(it[1].values())):
        print(f'{crate:20}' + ''.join(f'{times[it]:8.1f}' for it in KINDS) + f'{sum(times.values()):8.1f}')
    sums = {kind: sum(it[kind] for it in took.values()) for kind in KINDS}
    print(f'{"all":20}' + ''.join(f'{sums[it]:8.1f}' for it in KINDS) + f'{sum(sums.values()):8.1f}')
    crates = entries()
    minutes, names = longest(crates, lambda it: took[it]['proof'])
    print(f'\nthe longest chain of proofs takes {minutes:.1f} processor minutes: {", ".join(names)}')
    count, names = longest(crates, lambda it: 1)
    print(f'the longest chain has {count} crates: {", ".join(names)}')
    print(f'two processors take {max(sum(sums.values()) / 2, minutes):.0f} minutes at least, with nothing beside the run')
    print(f'{record["minutes"]:.0f} minutes by the clock; last line: {record["last"]}')


def main():
    parser = argparse.ArgumentParser(description=__doc__, formatter_class=argparse.RawDescriptionHelpFormatter)
    parser.add_argument('--log', default='out/gate.log')
    parser.add_argument('--read', nargs='+')
    parser.add_argument('--anew', action='store_true')
    parser.add_argument('names', nargs='*')
    given = parser.parse_args()
    os.chdir(os.path.join(os.path.dirname(os.path.abspath(__file__)), '..'))
    if given.read:
        table(added(given.read))
        return 0
    run = Run([*(['--anew'] if given.anew else []), *given.names], given.log)
    status = run.follow()
    table(run.record())
    return status


if __name__ == '__main__':
    sys.exit(main())
