"""Compares what the recorders of wider and narrower ports write with what they should.

A trace, and mutants of it, are laid on the pins by widen.py, which says too what the recorder has to write: that is compared byte by
byte, the verdict with that of the trace, and the side file with the names that were drawn."""
import collections
import os
import random
import re
import subprocess

import devices
import pack
import widen

HERE = os.path.dirname(os.path.abspath(__file__))
RECORDER = os.path.dirname(HERE)
PORTS = 'AAL'  # of the benches; a larger test has more
CONFIGS = {config.name: config for config in (
    widen.Config('plain', 48, 8, 128, leave=1),
    widen.Config('narrow', 64, 16, 32, 64),
    widen.Config('wide', 48, 8, 256, 512),
    widen.Config('lines32', 48, 8, 64, 128, line=32),
    widen.Config('lines16', 40, 6, 256, 128, line=16),
    widen.Config('bus512', 48, 8, 512, 32, leave=2),
)}
# What an ACE-Lite port has no pins for.
NO_PINS = ('RK', 'WK', 'AC', 'CR', 'CD', 'S', 'L', 'D')


def lite_mask(letters):
    return sum(1 << n for n, letter in enumerate(letters) if letter == 'L')


class Verilator:
    """The bench of a configuration, built by Verilator."""
    name = 'verilator'

    def __init__(self, config, words):
        self.config = config
        self.words = words

    def build(self):
        name = f'wide_{self.config.name}_{PORTS}'
        words = ['--top', 'replay_wide', '-O3', *self.words, '-Wno-WIDTH', f'-DPORT_COUNT={len(PORTS)}', f'-DLITE_MASK={lite_mask(PORTS)}']
        words += [*self.config.defines(), f'{HERE}/replay_wide.sv']
        return subprocess.run([f'{RECORDER}/build', name, *words], check=False).returncode == 0

    def command(self):
        name = f'wide_{self.config.name}_{PORTS}'
        return [f'{RECORDER}/out/{name}/{name}']


class Icarus:
    """The same by Icarus."""
    name = 'icarus'

    def __init__(self, config, folder):
        self.config = config
        self.program = f'{folder}/wide_{config.name}.vvp'

    def build(self):
        with open(f'{RECORDER}/rtl/files.f', encoding='ascii') as file:
            sources = [f'{RECORDER}/rtl/{name}' for name in file.read().split()]
        words = ['iverilog', '-g2012', '-s', 'replay_wide', f'-DPORT_COUNT={len(PORTS)}', f"-DLITE_MASK=32'd{lite_mask(PORTS)}"]
        words += [*self.config.defines(), '-o', self.program, *sources, f'{HERE}/replay_wide.sv']
        return subprocess.run(words, check=False).returncode == 0

    def command(self):
        return ['vvp', '-n', self.program]


class Recording:
    """What was recorded: the trace, its side file, and what the recorder said."""

    def __init__(self, bench, stimulus, letters, version, folder):
        into, trace, side = f'{folder}/in', f'{folder}/trace', f'{folder}/trace.side'
        with open(into, 'w', encoding='ascii') as file:
            file.write(stimulus)
        for path in (trace, side):
            if os.path.exists(path):
                os.remove(path)
        words = [f'+in={into}', f'+ace_trace={trace}', f'+ace_side={side}', f'+ports={(1 << len(letters)) - 1:x}']
        words += [f'+lites={lite_mask(letters):x}', f'+version={version}']
        self.said = subprocess.run([*bench.command(), *words], capture_output=True, check=False).stdout.decode()
        self.text, self.side = (self.read(path) for path in (trace, side))

    def read(self, path):
        if not os.path.exists(path):
            return ''
        with open(path, encoding='ascii') as file:
            return file.read()

    def lines(self, word):
        """The fields of the lines of the side file with this word."""
        return [line.split(' ')[1:] for line in self.side.split('\n') if line.startswith(word + ' ')]

    def end(self):
        return self.side.rstrip('\n').split('\n')[-1]


def traces_of(path):
    """Name and text of the traces of a file in which each stands under a line `--- NAME`."""
    with open(path, encoding='ascii') as file:
        parts = re.split(r'^--- (.*)\n', file.read(), flags=re.M)[1:]
    return list(zip(parts[0::2], parts[1::2]))


def has_pins(letters, word):
    """Whether the bench has the pins that the event needs."""
    if word[0] == 'MEM':
        return True
    if int(word[1], 16) >= len(letters):
        return False
    return letters[int(word[1], 16)] == 'A' or word[0] not in NO_PINS and not (word[0] == 'R' and int(word[3], 16) > 3)


def fits(trace):
    letters = trace.split('\n')[1][6:]
    if len(letters) > len(PORTS) or letters[len(PORTS) - 1:] not in ('', 'L'):
        return False
    return all(has_pins(letters, line.split(' ')) for line in trace.rstrip('\n').split('\n')[2:])


# ---- mutants

FIELDS = {'id': {'AR': 2, 'R': 2, 'AW': 2, 'B': 2, 'G': 3, 'M': 3}, 'address': {'AR': 3, 'AW': 3, 'AC': 2, 'S': 2, 'L': 2, 'D': 2},
          'data': {'R': 5, 'W': 4, 'CD': 3, 'M': 4, 'L': 5, 'D': 5}, 'resp': {'R': 3, 'B': 3, 'CR': 2},
          'state': {'RK': 2, 'WK': 2, 'CR': 3, 'S': 3}, 'code': {'AR': 4, 'AW': 4, 'AC': 3}, 'last': {'R': 4, 'W': 3, 'CD': 2}}


def changed_field(how, word, events, at, draw):
    """Another value of the field."""
    if how == 'id':
        return f'{draw.randrange(16):x}'
    if how == 'address':
        return draw.choice([event.split(' ')[at] for event in events if event.split(' ')[0] == word[0]])
    if how == 'data':
        place = 2 * draw.randrange(len(word[at]) // 2)
        return word[at][:place] + f'{draw.getrandbits(8):02x}' + word[at][place + 2:]
    if how == 'resp':
        return f'{draw.randrange(32):02x}' if word[0] == 'CR' else f'{draw.randrange(4 if word[0] == "B" else 16):x}'
    if how == 'state':
        return draw.choice(('I', 'UC', 'UD', 'SC', 'SD'))
    if how == 'code':
        return f'{draw.randrange(8 if word[0] == "AW" else 16):x}'
    return '01'[word[at] == '0']


def change(events, draw):
    """Changes the events in one place, if the kind of change that is drawn has one there."""
    n = draw.randrange(len(events))
    word = events[n].split(' ')
    how = draw.choice(('delete', 'double', 'swap', 'id', 'id', 'address', 'data', 'resp', 'port', 'state', 'code', 'last'))
    if how == 'delete':
        events.pop(n)
    elif how == 'double':
        events.insert(n + draw.randrange(1, 20), events[n])
    elif how == 'swap':
        m = min(len(events) - 1, n + draw.randrange(1, 8))
        events[n], events[m] = events[m], events[n]
    elif how == 'port':
        word[1] = word[1][:-1] + str(draw.randrange(4))
        events[n] = ' '.join(word)
    elif word[0] in FIELDS[how]:
        at = FIELDS[how][word[0]]
        word[at] = changed_field(how, word, events, at, draw)
        events[n] = ' '.join(word)


def mutant(head, lines, draw):
    """The trace with one change to these events."""
    letters = head[1][6:]
    while True:
        events = list(lines)
        change(events, draw)
        if events != lines and all(has_pins(letters, event.split(' ')) for event in events):
            return '\n'.join(head + events) + '\n'


# ---- comparing

class Comparison:
    """Compares recordings of a bench, and counts what came out; `failures` has what is wrong."""

    def __init__(self, bench, check, folder):
        self.bench, self.check, self.folder = bench, check, folder
        self.config = bench.config
        self.count = collections.Counter()
        self.rules = collections.Counter()
        self.failures = []

    def fail(self, text):
        self.failures.append(f'{self.config.name}: {text} ({self.bench.name})')

    def shared_beats(self):
        """Whether two events of a trace may stand at one beat."""
        shapes = [widen.Shape(bus, self.config.line) for bus in (self.config.data, self.config.snoop)]
        return any(shape.at[n] == shape.at[n + 1] for shape in shapes for n in range(3))

    def prepare(self, trace):
        """The trace as the pins can have it."""
        if self.config.leave & 1:
            trace = widen.without_nosnoop(trace)
        return widen.with_small_lines(trace, self.config.line) if self.config.line < 64 else trace

    def compare(self, name, trace, seed, with_devices=False):
        letters = trace.split('\n')[1][6:]
        maker = (devices.WithDevices if with_devices else widen.Widen)(trace, self.config, seed)
        try:
            stimulus, wanted = maker.run()
        except widen.Cannot:
            self.count['not laid out'] += 1
            return
        recording = Recording(self.bench, stimulus, letters, trace[4], self.folder)
        before = self.check(wanted if self.shared_beats() and self.check(trace)[1] != 0 else trace)
        after = self.check(recording.text)
        if recording.text == wanted:
            self.count['same text'] += 1
            self.compare_side(name, recording, maker)
        elif self.same_to_the_refused_event(recording.text, wanted):
            self.count['same text to the refused event'] += 1
        else:
            self.fail(f'{name}, seed {seed}: another text; {recording.said[-200:]}')
        if before[0] == after[0]:
            self.count['accepted' if before[1] == 0 else 'refused'] += 1
            self.rules[re.sub(r'.*: ', '', before[0])] += before[1] == 1
        elif self.shared_beats() and (before[1] == 0) == (after[1] == 0):
            self.count['refused by another event'] += 1
        else:
            self.fail(f'{name}, seed {seed}: {before[0]} becomes {after[0]}')

    def same_to_the_refused_event(self, text, wanted):
        refused = re.match(r'refused event (\d+)', self.check(wanted)[0])
        upto = int(refused.group(1)) + 2 if refused else None
        return refused is not None and text.split('\n')[:upto] == wanted.split('\n')[:upto]

    def compare_side(self, name, recording, maker):
        events = recording.text.count('\n') - 2
        times = [int(field[0]) for field in recording.lines('T')]
        named = [(int(field[0], 16), int(field[1], 16)) for field in recording.lines('ADDR')]
        named += [(int(field[2], 16), int(field[5], 16)) for field in recording.lines('NOTE')]
        ids = [(int(field[0]), int(field[1], 16)) for field in recording.lines('ID')]
        right = recording.end() == f'END {events}' and times == sorted(set(times)) and times[:1] == [1][:events]
        if not (right and sorted(named) == sorted(maker.side_lines) and ids == maker.side_ids and len(recording.lines('PORT')) == len(maker.letters)):
            self.fail(f'{name}: the side file is another one, ending in {recording.end()}')

    def compare_many(self, name, trace, seed, report):
        """Many events at an edge: accepted, with the same report but for addresses and numbers."""
        letters = trace.split('\n')[1][6:]
        reading, draw = pack.Reading(), random.Random(seed)
        lines = trace.rstrip('\n').split('\n')[2:]
        lites = {f'{n:0{2 if trace[4] == "2" else 1}x}' for n, letter in enumerate(letters) if letter == 'L'}
        groups = pack.on_edges([reading.read(line) for line in lines], lites, draw)
        maker = widen.Widen(trace, self.config, seed)
        recording = Recording(self.bench, maker.run_groups([len(group) for group in groups]), letters, trace[4], self.folder)
        self.count['edges of many events'] += len(groups)
        if report(recording.text) != report(trace):
            self.fail(f'{name}, many {seed}: another report, {self.check(recording.text)[0]}')


def compare_all(comparison, traces, mutants, seed):
    """Each of the traces (name and text), and so many mutants of each that is accepted."""
    draw = random.Random(seed)
    for number, (name, trace) in enumerate(traces):
        if not fits(trace):
            comparison.count['no such port or pin'] += 1
            continue
        trace = comparison.prepare(trace)
        head, events = trace.split('\n')[:2], trace.rstrip('\n').split('\n')[2:]
        leaves = comparison.config.leave != 0
        comparison.compare(name, trace, seed + number, leaves and number % 2 == 0)
        if comparison.check(trace)[1] != 0 or not events:
            continue
        for m in range(mutants):
            other = mutant(head, events[:draw.randrange(200, 1500)], draw)
            if comparison.config.line < 64:
                other = widen.with_small_lines(other, comparison.config.line)
            comparison.compare(f'mutant {m} of {name}', other, 1000 * seed + 100 * number + m, leaves and m % 2 == 0)


def told(comparison):
    return ', '.join(f'{what} {count}' for what, count in sorted(comparison.count.items()))
