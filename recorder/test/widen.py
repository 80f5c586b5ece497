"""Lays a trace on the pins of wider or narrower ports, for replay_wide.sv, and says what the recorder has to write.

A trace has lines of 64 bytes, words of 16, addresses of 32 bits and identifiers of 4. Here each line gets an address of so many bits
at random, each transaction an identifier that is free at its port, each burst as many beats as the bus needs, from a critical word on;
and between them are edges at which no clock is enabled. What the recorder has to write is put together here, from the trace alone."""
import random

DATALESS_READS = '89bcdef'
ALL_CLOCKS = '- 1ffffffff'


class Config:
    """Widths of pins: of addresses, identifiers, R and W, and CD; bytes of a line; accesses that are left out."""

    def __init__(self, name, address=48, identifier=8, data=128, snoop=None, line=64, leave=0):
        self.name, self.address, self.identifier, self.data, self.line, self.leave = name, address, identifier, data, line, leave
        self.snoop = snoop or data

    def defines(self):
        return [f'-DADDRESS={self.address}', f'-DIDENTIFIER={self.identifier}', f'-DDATA={self.data}', f'-DSNOOP_DATA={self.snoop}',
                f'-DLINE={self.line}', f'-DLEAVE={self.leave}']


class Cannot(Exception):
    """The trace has what can't be laid on these pins."""


def number(text):
    """Bytes in order of address, as a number with byte 0 in bits 7:0."""
    return int.from_bytes(bytes.fromhex(text), 'little')


def text_of(value, count):
    return value.to_bytes(count, 'little').hex()


class Shape:
    """How a line goes over a bus: each beat's bytes, and the beat at which each of the four events of a trace stands."""

    def __init__(self, bus, line):
        self.bus, self.line = bus // 8, line
        self.size = min(self.bus, line)
        self.beats = line // self.size
        self.at = [0, 0, 0, 0]
        for n in range(1, 4):
            self.at[n] = next((b for b in range(self.beats) if (b + 1) * self.size >= 16 * (n + 1)), self.beats - 1)
        self.at[3] = self.beats - 1
        self.code = self.size.bit_length() - 1
        self.plain = self.size == 16 and self.beats == 4

    def beat(self, value, strobe, start, n, address):
        """Beat n of a line that begins at byte `start`, on the lanes of the bus."""
        offset = (start + n * self.size) % self.line
        lane = address % self.bus if self.bus > self.line else 0
        mask = (1 << 8 * self.size) - 1
        return (value >> 8 * offset & mask) << 8 * lane, (strobe >> offset & ((1 << self.size) - 1)) << lane


class Burst:
    """A burst that is under way: its shape, the byte of the line with which it begins, and the numbers of its events."""

    def __init__(self, shape, start, address, events):
        self.shape, self.start, self.address, self.events = shape, start, address, events
        self.sent = 0      # beats
        self.seen = 0      # events of the trace
        self.waiting = []  # text of those whose beat hasn't come


class Widen:
    """The stimulus of a trace on these pins, and the text that is to be recorded."""

    def __init__(self, trace, config, seed):
        self.draw = random.Random(seed)
        self.config = config
        lines = trace.rstrip('\n').split('\n')
        self.head, self.letters = lines[:2], lines[1].split(' ')[1]
        self.events = [line.split(' ') for line in lines[2:]]
        self.digits = 2 if lines[0] == 'ACE 2' else 1
        self.bus, self.snoop_bus = Shape(config.data, config.line), Shape(config.snoop, config.line)
        self.out, self.wanted = [], []      # edges; events that the recorder has to write
        self.lines, self.used = {}, set()   # address in the trace: real address
        self.words = {0: 0}
        self.names, self.renamed_words = {}, {0: 0}  # what the recorder calls lines and words
        self.ids, self.slots, self.open = {}, {}, {}   # (port, channel, id): real id; (port, channel): {real id: slot}
        self.side_lines, self.side_ids = [], []
        self.done = {}
        self.reads, self.writes, self.snoops, self.answers = {}, {}, {}, {}
        self.bursts = self.find_bursts()
        self.pairs = None
        self.together = None

    # What is in the trace.

    def lite(self, port):
        return self.letters[int(port, 16)] == 'L'

    def is_word(self, word):
        kind = word[0]
        if kind == 'AC':
            return word[3] in 'ef'
        return int(word[6]) & 1 or kind == 'AR' and word[4] in 'ef'

    def find_bursts(self):
        """By the number of the AR, AW or CR: the events of its burst."""
        bursts, reads, writes, snoops, answers = {}, {}, {}, {}, {}
        for n, word in enumerate(self.events):
            kind, port = word[0], word[1]
            if kind == 'AR':
                reads[port, word[2]] = n
                bursts[n] = []
            elif kind == 'R' and (port, word[2]) in reads:
                bursts[reads[port, word[2]]].append(n)
            elif kind == 'AW':
                bursts[n] = []
                if not int(word[6]) & 1 and word[4] != '4':
                    writes.setdefault(port, []).append([n, 4])
            elif kind == 'W' and writes.get(port):
                burst = writes[port][0]
                bursts[burst[0]].append(n)
                burst[1] -= 1
                if not burst[1]:
                    writes[port].pop(0)
            elif kind == 'CR':
                bursts[n] = []
                if int(word[2], 16) & 1:
                    answers.setdefault(port, []).append([n, 4])
            elif kind == 'CD' and answers.get(port):
                burst = answers[port][0]
                bursts[burst[0]].append(n)
                burst[1] -= 1
                if not burst[1]:
                    answers[port].pop(0)
        return bursts

    def whole(self, numbers, last):
        """Four events whose last bit is right, so that all of the line is known where its first beat comes."""
        return len(numbers) == 4 and [self.events[n][last] for n in numbers] == ['0', '0', '0', '1']

    # Real names, and those that the recorder gives.

    def real_line(self, text):
        address = int(text, 16)
        line, offset = address & ~63, address & 63
        if offset >= self.config.line:
            raise Cannot('an address inside a line')
        if line not in self.lines:
            while True:
                real = self.draw.getrandbits(self.config.address - 1) // self.config.line * self.config.line
                if self.lines and self.draw.random() < 0.3:  # one that differs in a high bit alone
                    real = self.draw.choice(list(self.lines.values())) ^ 1 << self.draw.randrange(32, self.config.address - 1)
                if real not in self.used:
                    break
            self.used.add(real)
            self.lines[line] = real
        return self.lines[line] | offset

    def called_line(self, text):
        line, offset = int(text, 16) & ~63, int(text, 16) & 63
        if line not in self.names:
            self.names[line] = 64 * len(self.names)
            self.side_lines.append((self.names[line], self.lines[line]))
        return f'{self.names[line] | offset:08x}'

    def real_word(self, text):
        high, low = int(text, 16) >> 16, int(text, 16) & 0xffff
        if high not in self.words:
            self.words[high] = self.draw.choice([real for real in (self.draw.getrandbits(self.config.address - 16) for _ in range(50))
                                                 if real and real not in self.words.values()])
        return self.words[high] << 16 | low

    def called_word(self, text):
        high, low = int(text, 16) >> 16, int(text, 16) & 0xffff
        if high not in self.renamed_words:
            self.renamed_words[high] = len(self.renamed_words)
        return f'{self.renamed_words[high] << 16 | low:08x}'

    def new_id(self, key, name):
        """The identifier at the pins of a transaction that the trace calls `name`, and the recorder's."""
        slots = self.slots.setdefault(key, {})
        real = self.ids.get(key + (name,))
        if real not in slots:
            others = {self.ids.get(key + (f'{n:x}',)) for n in range(16)}
            free = [n for n in (self.draw.getrandbits(self.config.identifier) for _ in range(200)) if n not in others]
            real = free[0]
            self.ids[key + (name,)] = real
            taken = set(slots.values())
            slots[real] = next(n for n in range(16) if n not in taken)
        self.open.setdefault(key, set()).add(real)
        self.side_ids.append((len(self.wanted) + 1, real))
        return real, f'{slots[real]:x}'

    def old_id(self, key, name):
        slots = self.slots.setdefault(key, {})
        real = self.ids.get(key + (name,))
        if real is None:
            others = {self.ids.get(key + (f'{n:x}',)) for n in range(16)}
            real = next(n for n in (self.draw.getrandbits(self.config.identifier) for _ in range(200)) if n not in others)
        if real in slots:
            return real, f'{slots[real]:x}'
        taken = set(slots.values())
        free = [n for n in range(16) if n not in taken]
        if not free:
            raise Cannot('a transfer of nothing while 16 are outstanding')
        return real, f'{free[0]:x}'

    def ends(self, key, real):
        if real in self.open.get(key, set()):
            self.open[key].discard(real)
            if self.lite(key[0]):
                self.slots[key].pop(real, None)
            else:
                self.done.setdefault(key, []).append(real)

    def acknowledged(self, key):
        if self.done.get(key):
            self.slots[key].pop(self.done[key].pop(0), None)

    # Edges.

    def edge(self, *lines):
        if self.together is not None:
            self.together += lines
            return
        if self.draw.random() < 0.05:
            self.out.append('NOISE')
        self.out += list(lines)
        self.out.append(ALL_CLOCKS)

    def padded(self, value, count=None):
        """A line of the trace without the bytes that a line of the design hasn't."""
        return value & (1 << 8 * self.config.line) - 1

    def word_text(self, n, text):
        return text if 16 * n < self.config.line else '0' * 32

    def start(self, shape, numbers, last):
        if not self.whole(numbers, last):
            return 0
        return self.draw.randrange(shape.beats) * shape.size

    def line_of(self, numbers, last):
        """The line and strobe that a burst carries, by its events in the trace."""
        value = strobe = 0
        for n, number_ in enumerate(numbers[:4]):
            word = self.events[number_]
            value |= number(self.word_text(n, word[-1])) << 128 * n
            strobe |= (int(word[2], 16) if word[0] == 'W' else 0xffff) << 16 * n
        return value, strobe

    def beats(self, burst, last_field, send):
        """Sends the beats that come with the next event of a burst."""
        n = burst.seen
        burst.seen += 1
        if n > 3:
            raise Cannot('more than four events')
        shape = burst.shape
        value, strobe = self.line_of(burst.events, last_field)
        last = self.events[burst.events[n]][last_field] == '1'
        prefix = len(burst.events) < 4 and all(self.events[m][last_field] == '0' for m in burst.events)
        if not self.whole(burst.events, last_field) and not prefix and not shape.plain:
            raise Cannot('a burst with a wrong last beat')
        upto = shape.at[n]
        if n > 0 and shape.at[n - 1] == upto and last_field == 4 and self.events[burst.events[n]][3] != self.events[burst.events[n - 1]][3]:
            raise Cannot('two responses in a beat')
        if prefix and n == 0 and (len(burst.events) == 1 or shape.at[len(burst.events) - 1] == shape.at[3]):
            upto = max(upto, 16 // shape.size - 1)  # its word has to come, although no other event tells of it
        if n < 3 and shape.at[n + 1] == upto:
            return  # two events stand at one beat: it comes with the second
        while burst.sent <= upto:
            data, strobes = shape.beat(value, strobe, burst.start, burst.sent, burst.address)
            send(data, strobes, int(last and burst.sent == upto))
            burst.sent += 1

    def want(self, text):
        self.wanted.append(text)

    def want_of_burst(self, burst, text):
        """An event that shares its beat with the next one stands there."""
        n = burst.seen - 1
        burst.waiting.append(text)
        if n == 3 or burst.shape.at[n + 1] != burst.shape.at[n]:
            self.wanted += burst.waiting
            burst.waiting = []

    # Events.

    def step(self, number_, word):
        kind = word[0]
        if kind in ('AR', 'AW'):
            self.step_address(number_, word)
        elif kind == 'R':
            self.step_read_data(word)
        elif kind in ('W', 'CD'):
            self.step_beat(word)
        elif kind in ('AC', 'CR'):
            self.step_snoop(number_, word)
        elif kind in ('B', 'G', 'M'):
            self.step_named(word)
        elif kind in ('S', 'L', 'D'):
            self.step_cache(word)
        else:
            self.edge(' '.join(word))
            self.want(' '.join(word))
            if kind in ('RK', 'WK'):
                self.acknowledged((word[1], kind[0]))

    def step_address(self, number_, word):
        kind, port = word[0], word[1]
        if self.is_word(word):
            address, called, extra, burst = self.real_word(word[3]), self.called_word(word[3]), '0 0 0 2', None
        else:
            address, called, extra, burst = self.line_access(number_, word)
        real, name = self.new_id((port, kind[1]), word[2])
        self.edge(' '.join([kind, port, f'{real:x}', f'{address:x}', *word[4:], extra]))
        self.want(' '.join([kind, port, name, called, *word[4:]]))
        if kind == 'AR':
            self.reads[port, word[2]] = burst
        elif burst and word[4] != '4':
            self.writes.setdefault(port, []).append(burst)

    def line_access(self, number_, word):
        """Address at the pins, address in the trace, AxLEN to AxCACHE, and the burst of data or None."""
        kind = word[0]
        address, called = self.real_line(word[3]), self.called_line(word[3])
        numbers = self.bursts[number_]
        inside = address % self.config.line != 0
        dataless = kind == 'AR' and word[4] in DATALESS_READS
        start = 0 if dataless or inside else self.start(self.bus, numbers, 4 if kind == 'AR' else 3)
        if dataless and not inside:
            start = self.draw.randrange(self.bus.beats) * self.bus.size
        kinds = 2 if start else 1 if inside else self.draw.choice((1, 2))
        burst = None if dataless else Burst(self.bus, start, address, numbers)
        return address + start, called, f'{self.bus.beats - 1:x} {self.bus.code:x} {kinds} f', burst

    def step_read_data(self, word):
        port, key = word[1], (word[1], 'R')
        real, name = self.old_id(key, word[2])
        burst = self.reads.get((port, word[2]))
        if burst is not None and real in self.open.get(key, set()):
            n = burst.seen
            self.beats(burst, 4, lambda data, _, last: self.edge(f'R {port} {real:x} {word[3]} {last} {data:x}'))
            self.want_of_burst(burst, f'R {port} {name} {word[3]} {word[4]} {self.word_text(n, word[5])}')
        else:
            if self.config.data < 128 and number(word[5]) >> self.config.data:
                raise Cannot('a word of no line on a narrow bus')
            self.edge(f'R {port} {real:x} {word[3]} {word[4]} {number(word[5]):x}')
            self.want(f'R {port} {name} {word[3]} {word[4]} {word[5]}')
        if word[4] == '1':
            self.ends(key, real)

    def step_beat(self, word):
        """A beat of W or CD."""
        kind, port = word[0], word[1]
        waiting = self.writes if kind == 'W' else self.answers
        burst = next(iter(waiting.get(port, [])), None)
        if burst is None:
            raise Cannot('a beat of nothing')
        n = burst.seen
        text = self.word_text(n, word[-1])
        if kind == 'W':
            strobe = word[2] if 16 * n < self.config.line else 'ffff'
            self.beats(burst, 3, lambda data, strobes, last: self.edge(f'W {port} {strobes:x} {last} {data:x}'))
            self.want_of_burst(burst, f'W {port} {strobe} {word[3]} {text}')
        else:
            self.beats(burst, 2, lambda data, _, last: self.edge(f'CD {port} {last} {data:x}'))
            self.want_of_burst(burst, f'CD {port} {word[2]} {text}')
        if burst.seen == 4:
            waiting[port].pop(0)

    def step_snoop(self, number_, word):
        kind, port = word[0], word[1]
        if kind == 'CR':
            address, start = self.snoops[port].pop(0) if self.snoops.get(port) else (0, 0)
            if int(word[2], 16) & 1:
                self.answers.setdefault(port, []).append(Burst(self.snoop_bus, start, address, self.bursts[number_]))
            self.edge(' '.join(word))
            self.want(' '.join(word))
            return
        if self.is_word(word):
            address, called, start = self.real_word(word[2]), self.called_word(word[2]), 0
        else:
            address, called = self.real_line(word[2]), self.called_line(word[2])
            answer = self.answer_to(number_)  # it tells whether the line is known where the data begin
            start = self.start(self.snoop_bus, self.bursts[answer], 2) if answer is not None and address % self.config.line == 0 else 0
        self.snoops.setdefault(port, []).append((address, start))
        self.edge(f'AC {port} {address + start:x} {word[3]}')
        self.want(f'AC {port} {called} {word[3]}')

    def step_named(self, word):
        """An event that names a transaction."""
        kind, port = word[0], word[1]
        if kind == 'B':
            real, name = self.old_id((port, 'W'), word[2])
            self.edge(f'B {port} {real:x} {word[3]}')
            self.want(f'B {port} {name} {word[3]}')
            self.ends((port, 'W'), real)
            return
        real, name = self.old_id((port, word[2]), word[3])
        line = self.padded(number(word[4])) if kind == 'M' else None
        self.edge(f'{kind} {port} {word[2]} {real:x}' + (f' {line:x}' if kind == 'M' else ''))
        self.want(f'{kind} {port} {word[2]} {name}' + (f' {text_of(line, 64)}' if kind == 'M' else ''))

    def step_cache(self, word):
        kind, port = word[0], word[1]
        if kind == 'L' and 16 * int(word[3], 16) >= self.config.line:
            if word[4] == '1':
                raise Cannot('an exclusive load of a word that the line has not')
            return
        real, called = self.real_line(word[2]), self.called_line(word[2])
        if kind == 'S':
            self.edge(f'S {port} {real:x} {word[3]}')
            self.want(f'S {port} {called} {word[3]}')
        elif kind == 'L':
            self.edge(f'L {port} {real:x} {word[3]} {word[4]} {number(word[5]):x}')
            self.want(f'L {port} {called} {word[3]} {word[4]} {word[5]}')
        else:
            line, strobe = self.padded(number(word[5])), int(word[3], 16) & (1 << self.config.line) - 1
            self.edge(f'D {port} {real:x} {strobe:x} {word[4]} {line:x}')
            if strobe == (1 << self.config.line) - 1:
                strobe = (1 << 64) - 1
            self.want(f'D {port} {called} {strobe:016x} {word[4]} {text_of(line, 64)}')

    def answer_to(self, number_):
        """The number of the CR that answers the AC."""
        if self.pairs is None:
            self.pairs, asked, answered = {}, {}, {}
            for n, word in enumerate(self.events):
                if word[0] == 'AC':
                    asked.setdefault(word[1], []).append(n)
                elif word[0] == 'CR':
                    answered.setdefault(word[1], []).append(n)
            for port, numbers in asked.items():
                self.pairs.update(zip(numbers, answered.get(port, [])))
        return self.pairs.get(number_)

    # Whole traces.

    def run_groups(self, sizes):
        """So many events at each edge; without MEM, and where each event is a beat."""
        at = 0
        for size in sizes:
            self.together = []
            for n in range(at, at + size):
                self.step(n, self.events[n])
            self.draw.shuffle(self.together)
            self.out += self.together + [ALL_CLOCKS]
            if self.draw.random() < 0.05:
                self.out.append('NOISE')
            at += size
        return '\n'.join(self.head + self.out) + '\n'

    def open_memory(self):
        memory = [word for word in self.events if word[0] == 'MEM']
        if memory != self.events[:len(memory)]:
            raise Cannot('memory is opened late')
        opened = [int(word[1], 16) for word in memory]
        if opened != sorted(set(opened)) or any(address % 64 for address in opened):
            raise Cannot('memory is opened in another order, or inside a line')
        for word in memory:
            self.real_line(word[1])
        for word in sorted(memory, key=lambda word: self.lines[int(word[1], 16)]):
            line = self.padded(number(word[2]))
            self.out.append(f'MEM {self.lines[int(word[1], 16)]:x} {line:x}')
            if line:
                self.want(f'MEM {self.called_line(word[1])} {text_of(line, 64)}')

    def run(self):
        """The stimulus with an event or a beat an edge, and the text that is to be recorded."""
        self.open_memory()
        for n, word in enumerate(self.events):
            if word[0] != 'MEM':
                self.step(n, word)
        return '\n'.join(self.head + self.out) + '\n', '\n'.join(self.head + self.wanted) + '\n'


def with_small_lines(trace, line):
    """The trace as if its lines had so many bytes: zeros behind them, and loads of words that they have."""
    lines = trace.rstrip('\n').split('\n')
    events = [text.split(' ') for text in lines[2:]]
    maker = Widen(trace, Config('', line=line), 0)
    words = line // 16
    zero, last, copies, of, addresses = '0' * 32, {}, {}, {}, {}
    for n, numbers in maker.bursts.items():
        for place, number_ in enumerate(numbers):
            of[number_] = (n, place)
    for n, word in enumerate(events):
        kind, port = word[0], word[1]
        place = of.get(n, (0, 0))[1]
        if kind == 'AR':
            addresses[n] = word[3]
            last[port, word[2]] = n
        elif kind in ('R', 'W', 'CD') and place >= words:
            word[-1] = zero
            if kind == 'W':
                word[2] = 'ffff'
        elif kind in ('M', 'MEM'):
            word[-1] = word[-1][:2 * line] + '0' * (128 - 2 * line)
        elif kind == 'D':
            strobe = int(word[3], 16) & (1 << line) - 1
            word[3] = 'f' * 16 if strobe == (1 << line) - 1 else f'{strobe:016x}'
            word[5] = word[5][:2 * line] + '0' * (128 - 2 * line)
            copy = bytearray(copies.get((port, word[2]), bytes(64)))
            for byte in range(64):
                if int(word[3], 16) >> byte & 1:
                    copy[byte] = bytes.fromhex(word[5])[byte]
            copies[port, word[2]] = bytes(copy)
        elif kind == 'L' and int(word[3], 16) >= words:
            word[3] = f'{int(word[3], 16) % words:x}'
            word[5] = copies.get((port, word[2]), bytes(64))[16 * int(word[3], 16):][:16].hex()
        if kind == 'R' and n in of:
            numbers = maker.bursts[of[n][0]]
            if place == 3 and of[n][0] in addresses and word[4] == '1':
                copies[port, addresses[of[n][0]]] = bytes.fromhex(''.join(events[m][-1] for m in numbers[:4]))
    return '\n'.join(lines[:2] + [' '.join(word) for word in events]) + '\n'


def without_nosnoop(trace):
    """The trace without ReadNoSnoop and WriteNoSnoop and all that belongs to them."""
    lines = trace.rstrip('\n').split('\n')
    letters = lines[1].split(' ')[1]
    out, last, done, bursts, gone = lines[:2], {}, {}, {}, set()
    for text in lines[2:]:
        word = text.split(' ')
        kind, port = word[0], word[1]
        left = False
        if kind in ('AR', 'AW'):
            left = not int(word[6]) & 1 and word[4] == '0' and word[5] in '03'
            last[port, kind[1], word[2]] = left
            if left:
                gone.add(word[3])
            if kind == 'AW' and not int(word[6]) & 1 and word[4] != '4':
                bursts.setdefault(port, []).extend([left] * 4)
        elif kind in ('R', 'B'):
            key = (port, 'R' if kind == 'R' else 'W')
            left = last.get(key + (word[2],), False)
            if (kind == 'B' or word[4] == '1') and letters[int(port, 16)] == 'A':
                done.setdefault(key, []).append(left)
        elif kind in ('RK', 'WK'):
            left = done[port, kind[0]].pop(0) if done.get((port, kind[0])) else False
        elif kind == 'W':
            left = bursts[port].pop(0) if bursts.get(port) else False
        elif kind in ('G', 'M'):
            left = last.get((port, word[2], word[3]), False)
        if not left:
            out.append(text)
    return '\n'.join(out) + '\n'
