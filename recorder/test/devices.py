"""As widen, with accesses between that the recorder leaves out: to devices and to lines that aren't shareable, of any length, with
identifiers of their own and of recorded transactions, with their W beats, acknowledges, grants and memory writes, loads and stores."""
import widen


class Access:
    """One that is left out, with so many beats, issued at this place of the order."""

    def __init__(self, port, channel, name, beats, order, line):
        self.port, self.channel, self.name, self.beats, self.order, self.line = port, channel, name, beats, order, line
        self.sent = 0


class WithDevices(widen.Widen):
    """The stimulus of a trace with such accesses between its events."""

    def __init__(self, trace, config, seed, often=0.15):
        super().__init__(trace, config, seed)
        self.often = often
        self.order = 0
        self.orders = {}          # (port, channel, real id) of recorded transactions: their place
        self.pending = {}         # (port, channel): accesses without their last R or their B
        self.unanswered = {}      # (port, channel): 'base' or an access, complete and without acknowledge
        self.queue = {}           # port: bursts of W in the order of their AW, [access or None, burst]
        self.cached = []          # (port, line) that isn't shareable
        self.count = 0

    def new_id(self, key, name):
        real, called = super().new_id(key, name)
        self.order += 1
        self.orders[key + (real,)] = self.order
        return real, called

    def ends(self, key, real):
        if real in self.open.get(key, set()) and not self.lite(key[0]):
            self.unanswered.setdefault(key, []).append(None)
        super().ends(key, real)

    # What an access may do next.

    def free(self, access):
        """No recorded transaction of its identifier is before it."""
        key = (access.port, access.channel)
        return access.name not in self.open.get(key, set()) or self.orders[key + (access.name,)] > access.order

    def first(self, access):
        return all(other is access or other.name != access.name or other.order > access.order
                   for other in self.pending[access.port, access.channel])

    def read_beat(self, access):
        access.sent += 1
        last = int(access.sent == access.beats)
        self.edge(f'R {access.port} {access.name:x} {0:x} {last} {self.draw.getrandbits(self.config.data):x}')
        if last:
            self.complete(access)

    def write_beat(self, access):
        access.sent += 1
        last = int(access.sent == access.beats)
        self.edge(f'W {access.port} {self.draw.getrandbits(self.config.data // 8):x} {last} {self.draw.getrandbits(self.config.data):x}')
        if last:
            self.queue[access.port].pop(0)

    def respond(self, access):
        self.edge(f'B {access.port} {access.name:x} 0')
        self.complete(access)

    def complete(self, access):
        key = (access.port, access.channel)
        self.pending[key].remove(access)
        if not self.lite(access.port):
            self.unanswered.setdefault(key, []).append(access)

    def finish(self, access):
        if access.channel == 'R':
            while access.sent < access.beats:
                self.read_beat(access)
            return
        while access.sent < access.beats:
            head = self.queue[access.port][0]
            if head[0] is None:
                raise widen.Cannot('a write that waits for the data of another')
            self.write_beat(head[0])
        self.respond(access)

    def answer(self, key):
        self.unanswered[key].pop(0)
        state = self.draw.choice(('I', 'UC', 'UD', 'SC', 'SD'))
        self.edge(f'{key[1]}K {key[0]} {state}')

    def begin(self):
        port = f'{self.draw.randrange(len(self.letters)):0{self.digits}x}'
        channel = self.draw.choice('RW')
        key = (port, channel)
        if sum(len(accesses) for accesses in self.pending.values()) > 20:
            return
        others = list(self.open.get(key, set()))
        name = self.draw.choice(others) if others and self.draw.random() < 0.4 else self.draw.getrandbits(self.config.identifier)
        line = ((1 << self.config.address - 1) + self.draw.randrange(64) * 4096 * 16) // 64 * 64
        self.order += 1
        self.count += 1
        if self.config.leave & 1 and self.draw.random() < 0.3 and not self.lite(port) and channel == 'R':
            access = self.cached_read(port, name, line)
        else:
            access = self.device_access(port, channel, name, line)
        self.pending.setdefault(key, []).append(access)

    def cached_read(self, port, name, line):
        """A read of a line that isn't shareable, and is cached."""
        line |= 1 << 30
        line += 64 * int(port, 16)
        self.edge(f'AR {port} {name:x} {line:x} 0 0 0 0 {self.bus.beats - 1:x} {self.bus.code:x} 1 f')
        self.cached.append((port, line))
        return Access(port, 'R', name, self.bus.beats, self.order, line)

    def device_access(self, port, channel, name, line):
        length = self.draw.choice((0, 0, 0, 1, 3, 7, 15))
        size = self.draw.randrange(self.bus.bus.bit_length())
        burst = self.draw.choice((0, 1, 1, 1, 2)) if length in (1, 3, 7, 15) else 1
        address = line + self.draw.randrange(64)
        if burst == 2:
            address = address >> size << size
        access = Access(port, channel, name, length + 1, self.order, line)
        text = f'A{channel} {port} {name:x} {address:x} 0 3 {self.draw.choice("02")}' + (' 0' if channel == 'R' else '')
        cache = self.draw.choice('0123' if self.config.leave & 1 else '01')
        self.edge(f'{text} {length:x} {size:x} {burst} {cache}')
        if channel == 'W':
            self.queue.setdefault(port, []).append([access, None])
        return access

    def something(self):
        accesses = [access for accesses in self.pending.values() for access in accesses]
        choice = self.draw.random()
        if choice < 0.3 or not accesses:
            self.begin()
        elif choice < 0.8:
            access = self.draw.choice(accesses)
            if access.channel == 'R' and self.free(access) and self.first(access):
                self.read_beat(access)
            elif access.channel == 'W':
                head = self.queue.get(access.port, [])
                if access.sent == access.beats and self.free(access) and self.first(access):
                    self.respond(access)
                elif head and head[0][0] is not None:
                    self.write_beat(head[0][0])
        elif choice < 0.87:
            access = self.draw.choice(accesses)
            if access.name not in self.slots.get((access.port, access.channel), {}):
                if self.draw.random() < 0.5:
                    self.edge(f'G {access.port} {access.channel} {access.name:x}')
                else:
                    self.edge(f'M {access.port} {access.channel} {access.name:x} {self.draw.getrandbits(8 * self.config.line):x}')
        elif choice < 0.95:
            heads = [key for key, queue in self.unanswered.items() if queue and queue[0] is not None]
            if heads:
                self.answer(self.draw.choice(heads))
        elif self.cached:
            port, line = self.draw.choice(self.cached)
            kind = self.draw.choice('LDS')
            if kind == 'L':
                self.edge(f'L {port} {line:x} 0 0 {self.draw.getrandbits(128):x}')
            elif kind == 'D':
                self.edge(f'D {port} {line:x} {self.draw.getrandbits(self.config.line):x} 0 {self.draw.getrandbits(8 * self.config.line):x}')
            else:
                self.edge(f'S {port} {line:x} I')

    def make_room(self, kind, port, word):
        """What has to come before this event of the trace, because identifiers and acknowledges have an order."""
        if kind in ('R', 'B'):
            key = (port, 'R' if kind == 'R' else 'W')
            real = self.ids.get(key + (word[2],))
            if real in self.open.get(key, set()):
                for access in list(self.pending.get(key, [])):
                    if access.name == real and access.order < self.orders[key + (real,)]:
                        self.finish(access)
            elif any(access.name == real for access in self.pending.get(key, [])):
                raise widen.Cannot('a transfer of nothing, under the name of an access that is left out')
        elif kind in ('RK', 'WK'):
            key = (port, kind[0])
            while self.unanswered.get(key) and self.unanswered[key][0] is not None:
                self.answer(key)
            if self.unanswered.get(key):
                self.unanswered[key].pop(0)
        elif kind == 'W':
            queue = self.queue.get(port, [])
            while queue and queue[0][0] is not None:
                self.write_beat(queue[0][0])
        elif kind in ('G', 'M'):
            key = (port, word[2])
            real = self.ids.get(key + (word[3],))
            left = self.pending.get(key, []) + [access for access in self.unanswered.get(key, []) if access]
            if real not in self.slots.get(key, {}) and any(access.name == real for access in left):
                raise widen.Cannot('a grant of nothing, under the name of an access that is left out')

    def step(self, number_, word):
        while self.draw.random() < self.often:
            self.something()
        kind, port = word[0], word[1]
        self.make_room(kind, port, word)
        before = len(self.writes.get(port, []))
        super().step(number_, word)
        if kind == 'AW' and len(self.writes.get(port, [])) > before:
            self.queue.setdefault(port, []).append([None, self.writes[port][-1]])
        if kind == 'W' and len(self.writes.get(port, [])) < before:
            self.queue[port].pop(0)
