"""A trace that shows every point of coverage: a few events of a line of its own for each, with zeros for data where no rule asks for others.

Ports 0, 1 and 3 are ACE ports, port 2 is an ACE-Lite port. The trace is of version 2, where memory may open with other than zeros. Each part takes a port into a state, as `get` does, and then has the transaction, the answer or the
end that it is there for."""
READS = {'ReadNoSnoop': 0, 'ReadOnce': 0, 'ReadShared': 1, 'ReadClean': 2, 'ReadNotSharedDirty': 3, 'ReadUnique': 7, 'CleanShared': 8, 'CleanInvalid': 9,
         'CleanUnique': 11, 'MakeUnique': 12, 'MakeInvalid': 13}
WRITES = {'WriteNoSnoop': 0, 'WriteUnique': 0, 'WriteLineUnique': 1, 'WriteClean': 2, 'WriteBack': 3, 'Evict': 4, 'WriteEvict': 5}
SNOOPS = {'CleanUnique': 9, 'MakeUnique': 13, 'WriteUnique': 9, 'WriteLineUnique': 13}
FETCHES = ('ReadShared', 'ReadClean', 'ReadNotSharedDirty', 'ReadUnique')
SHARING = ('ReadOnce', 'ReadShared', 'ReadClean', 'ReadNotSharedDirty')
LINE_READS = ('ReadNoSnoop', 'ReadOnce', *FETCHES)
WORD, LINE = '0' * 32, '0' * 128
ONES, LINE_OF_ONES = '1' * 32, '1' * 128
DIRTY, UNIQUE = ('UD', 'SD'), ('UC', 'UD')


class Trace:
    def __init__(self):
        self.lines, self.last = ['ACE 2', 'PORTS AALA'], 0

    def put(self, *lines):
        self.lines.extend(lines)

    def line(self):
        """A line that no transaction has named."""
        self.last += 64
        return f'{self.last:08x}'

    def address(self, port, kind, line, bar=0, lock=0, domain=None):
        domain = (0 if kind.endswith('NoSnoop') else 1) if domain is None else domain
        if kind in READS:
            self.put(f'AR {port} 0 {line} {READS[kind]:x} {domain} {bar} {lock}')
        else:
            self.put(f'AW {port} 0 {line} {WRITES[kind]:x} {domain} {bar}')

    def answer(self, port, code, line, resp, state):
        self.put(f'AC {port} {line} {code:x}', f'CR {port} {resp:02x} {state}')
        if resp & 1:
            self.put(*(f'CD {port} {last} {WORD}' for last in (0, 0, 0, 1)))

    def transfers(self, port, kind, resp, state):
        beats = (0, 0, 0, 1) if kind in LINE_READS else (1,)
        self.put(*(f'R {port} 0 {resp:x} {last} {WORD}' for last in beats))
        if port != 2:
            self.put(f'RK {port} {state}')

    def read(self, port, kind, line, resp=0, state='I', **more):
        """A read that snoops nobody."""
        self.address(port, kind, line, **more)
        self.put(f'G {port} R 0')
        self.transfers(port, kind, resp, state)

    def data(self, port):
        self.put(*(f'W {port} ffff {last} {WORD}' for last in (0, 0, 0, 1)))

    def end_write(self, port, kind, state):
        """What is left of a write once its address was issued."""
        if kind != 'Evict':
            self.data(port)
            if kind.endswith(('NoSnoop', 'Unique')):
                self.put(f'G {port} W 0')
            self.put(f'M {port} W 0 {LINE}')
        self.put(f'B {port} 0 0')
        if port != 2:
            self.put(f'WK {port} {state}')

    def write(self, port, kind, line, state='I'):
        self.address(port, kind, line)
        self.end_write(port, kind, state)

    def store(self, port, line):
        self.put(f'D {port} {line} ffffffffffffffff 0 {LINE}')

    def get(self, port, line, state):
        """The port, which doesn't hold the line, comes to hold it in the state."""
        if state == 'SC':
            self.read(port, 'ReadShared', line, 0, 'SC')
        elif state != 'I':
            self.read(port, 'ReadUnique', line, 0, 'UC')
            if state in DIRTY:
                self.store(port, line)
            if state == 'SD':
                self.put(f'S {port} {line} SD')

    def snoop(self, kind, line, resp, state):
        """Port 1 has a read for which port 0 is snooped, and answers so. What port 0 passes on is written to memory."""
        self.address(1, kind, line)
        self.put('G 1 R 0')
        self.answer(0, SNOOPS.get(kind, READS[kind]), line, resp, state)
        if resp & 4:
            self.put(f'M 1 R 0 {LINE}')
        self.transfers(1, kind, resp & 8 if kind in (*SHARING, 'CleanShared') else 0, 'I')


def rows(kind, held, update):
    """The answers to a snoop: CRRESP and the next state."""
    after = {'ReadOnce': {'UC': 'UC SC I', 'UD': 'UD SD SC I', 'SC': 'SC I', 'SD': 'SD SC I'}, 'CleanShared': {'UC': 'UC SC I', 'UD': 'UC SC I'}}
    if held == 'I':
        return [(0, 'I')]
    found = []
    if kind in ('ReadUnique', 'CleanInvalid', 'MakeInvalid'):
        states = ['I']
    elif kind in SHARING:
        states = after.get(kind, {}).get(held, 'SD SC I' if held in DIRTY else 'SC I').split()
    else:
        states = after['CleanShared'].get(held, 'SC I').split()
    for state in states:
        for data in (0, 1):
            for was_unique in (0, 1) if held in UNIQUE else (0,):
                if (data if kind == 'MakeInvalid' else held in DIRTY and not data):
                    continue
                passes = kind != 'MakeInvalid' and held in DIRTY and state not in DIRTY
                if not update or not passes and state != 'I':
                    found.append((data + 4 * passes + 8 * (state != 'I') + 16 * was_unique, state))
    return found


def answers(trace):
    for kind in (*SHARING, 'ReadUnique', 'CleanShared', 'CleanInvalid', 'MakeInvalid'):
        for held in ('I', 'UC', 'UD', 'SC', 'SD'):
            for resp, state in rows(kind, held, False):
                line = trace.line()
                trace.get(0, line, held)
                trace.snoop(kind, line, resp, state)


def answers_with_update(trace):
    for kind in SHARING:
        for held in ('UC', 'UD', 'SC', 'SD'):
            update = 'WriteClean' if held in DIRTY else 'WriteEvict'
            for resp, state in rows(kind, held, True):
                line = trace.line()
                trace.get(0, line, 'UC' if held == 'SC' else held)
                trace.address(0, update, line)
                if held == 'SC':
                    trace.snoop('ReadOnce', line, 8, 'SC')
                trace.snoop(kind, line, resp, state)
                trace.end_write(0, update, 'I')


def ends_of_fetches(trace):
    for kind in FETCHES:
        for resp, states in ((0, 'UC SC I'), (8, 'SC I'), (4, 'UD SD'), (12, 'SD')):
            if kind == 'ReadUnique' and resp & 8 or kind == 'ReadClean' and resp & 4 or kind == 'ReadNotSharedDirty' and resp == 12:
                continue
            for state in states.split():
                line = trace.line()
                if resp & 4:
                    trace.get(0, line, 'UD')
                    trace.address(1, kind, line)
                    trace.put('G 1 R 0')
                    trace.answer(0, READS[kind], line, 1 + resp, 'SC' if resp & 8 else 'I')
                    trace.transfers(1, kind, resp, state)
                else:
                    trace.read(1, kind, line, resp, state)


def ends_of_upgrades(trace):
    for held, lock, states in (('SC', 0, 'UC SC I'), ('SD', 0, 'UD SD'), ('SC', 1, 'SC I'), ('SD', 1, 'SD')):
        for state in states.split():
            line = trace.line()
            trace.get(1, line, held)
            trace.read(1, 'CleanUnique', line, 0, state, lock=lock)
    for lock in (0, 1):
        line = trace.line()
        trace.get(1, line, 'SC')
        trace.address(1, 'CleanUnique', line, lock=lock)
        trace.address(0, 'ReadUnique', line)
        trace.put('G 0 R 0')
        trace.answer(1, 7, line, 0, 'I')
        trace.transfers(0, 'ReadUnique', 0, 'UC')
        trace.put('G 1 R 0')
        if not lock:
            trace.answer(0, 9, line, 0, 'I')
        trace.transfers(1, 'CleanUnique', 0, 'I')
    for held in ('I', 'SC', 'SD'):
        line = trace.line()
        trace.get(1, line, held)
        trace.address(1, 'MakeUnique', line)
        trace.put('G 1 R 0', f'R 1 0 0 1 {WORD}')
        trace.store(1, line)
        trace.put('RK 1 UD')


def ends_of_other_reads(trace):
    for kind, held, resp, states in (('ReadNoSnoop', 'I', 0, 'I'), ('ReadOnce', 'I', 0, 'I'), ('ReadOnce', 'I', 8, 'I'), ('CleanShared', 'I', 0, 'I'),
                                     ('CleanShared', 'I', 8, 'I'), ('CleanShared', 'UC', 0, 'UC SC I'), ('CleanShared', 'UC', 8, 'SC I'),
                                     ('CleanShared', 'SC', 0, 'UC SC I'), ('CleanShared', 'SC', 8, 'SC I'), ('CleanInvalid', 'I', 0, 'I'),
                                     ('MakeInvalid', 'I', 0, 'I')):
        for state in states.split():
            line = trace.line()
            trace.get(1, line, held)
            trace.read(1, kind, line, resp, state)


def ends_of_writes(trace):
    for kind, held, states in (('WriteNoSnoop', 'I', 'I'), ('WriteUnique', 'I', 'I'), ('WriteLineUnique', 'I', 'I'), ('WriteClean', 'UD', 'UC SC I'),
                               ('WriteClean', 'SD', 'SC I'), ('WriteBack', 'UD', 'I'), ('WriteBack', 'SD', 'I'), ('WriteEvict', 'UC', 'I'),
                               ('Evict', 'UC', 'I'), ('Evict', 'SC', 'I')):
        for state in states.split():
            line = trace.line()
            trace.get(0, line, held)
            trace.write(0, kind, line, state)
    for kind, snoop, resp, state in (('WriteEvict', 'ReadOnce', 8, 'SC'), ('Evict', 'ReadUnique', 0, 'I')):
        line = trace.line()
        trace.get(0, line, 'UC')
        trace.address(0, kind, line)
        trace.snoop(snoop, line, resp, state)
        trace.end_write(0, kind, 'I')


def silent_transitions(trace):
    for held, state in (('UC', 'SC'), ('UC', 'I'), ('SC', 'I'), ('UD', 'SD')):
        line = trace.line()
        trace.get(0, line, held)
        trace.put(f'S 0 {line} {state}')


def barriers(trace):
    for port in (1, 2):
        for bar in (1, 3):
            trace.put(f'AR {port} 0 00000000 0 1 {bar} 0', f'AW {port} 0 00000000 0 1 {bar}', f'R {port} 0 0 1 {WORD}')
            trace.put(*(['RK 1 I', 'B 1 0 0', 'WK 1 I'] if port == 1 else ['B 2 0 0']))


def message(trace, *words):
    for part, word in enumerate(words):
        trace.put(f'AR 1 {part} {word} f 1 0 0')
    for word in words:
        for port in (0, 3):
            trace.put(f'AC {port} {word} f', f'CR {port} 00 I')
    for part, word in enumerate(words):
        trace.put(f'R 1 {part} 0 1 {WORD}', 'RK 1 I')


def messages(trace):
    message(trace, '00000000')
    message(trace, '00000001', '00000040')
    message(trace, '0000c000')
    for port in (0, 3):
        trace.put(f'AR {port} 0 00000000 e 1 0 0', f'R {port} 0 0 1 {WORD}', f'RK {port} I')
    trace.put('AC 1 00000000 e', 'CR 1 00 I')
    message(trace, '00000000', '00000000')


def exclusives(trace):
    for kind in ('ReadShared', 'ReadClean'):
        line = trace.line()
        trace.read(1, kind, line, 1, 'SC', lock=1)
    trace.read(1, 'CleanUnique', line, 1, 'UC', lock=1)


def others(trace):
    for kind in ('ReadNoSnoop', 'ReadOnce', 'CleanShared', 'CleanInvalid', 'MakeInvalid'):
        trace.read(2, kind, trace.line())
    for kind in ('WriteNoSnoop', 'WriteUnique', 'WriteLineUnique'):
        trace.write(2, kind, trace.line())
    trace.read(1, 'ReadOnce', trace.line(), bar=2)
    trace.read(1, 'ReadOnce', trace.line(), domain=2)
    trace.read(1, 'ReadNoSnoop', trace.line(), domain=3)


def beats(record, word):
    """The four beats of a line: what stands before and behind their LAST."""
    return [f'{record} {last} {word}' for last in (0, 0, 0, 1)]


def data_of_ones(trace):
    """A port loads exclusively, stores so and loads what it stored; another port reads that, and it goes to memory."""
    line = trace.line()
    trace.get(0, line, 'UC')
    trace.put(f'L 0 {line} 0 1 {WORD}', f'D 0 {line} ffffffffffffffff 1 {LINE_OF_ONES}', f'L 0 {line} 3 0 {ONES}')
    trace.address(1, 'ReadOnce', line)
    trace.put('G 1 R 0', f'AC 0 {line} 0', 'CR 0 09 UD', *beats('CD 0', ONES), *beats('R 1 0 8', ONES), 'RK 1 I')
    trace.address(0, 'WriteClean', line)
    trace.put(*beats('W 0 ffff', ONES), f'M 0 W 0 {LINE_OF_ONES}', 'B 0 0 0', 'WK 0 UC')


def transactions_at_once(trace):
    """Two reads and two writes of a port are under way."""
    lines = [trace.line() for _ in range(4)]
    trace.put(*(f'AR 1 {i} {lines[i]} 0 1 0 0' for i in (0, 1)), *(f'AW 1 {i} {lines[2 + i]} 0 1 0' for i in (0, 1)))
    for i in (0, 1):
        trace.put(f'G 1 R {i}', *beats(f'R 1 {i} 0', WORD))
        trace.put(*beats('W 1 ffff', WORD), f'G 1 W {i}', f'M 1 W {i} {LINE}', f'B 1 {i} 0')
    trace.put('RK 1 I', 'RK 1 I', 'WK 1 I', 'WK 1 I')


def barrier_behind_a_read(trace):
    """A read is granted behind a barrier that comes after it, which is answered before the read is."""
    trace.put(f'AR 1 0 {trace.line()} 0 1 0 0', 'AR 1 1 00000000 0 1 1 0', 'AW 1 1 00000000 0 1 1', 'G 1 R 0', f'R 1 1 0 1 {WORD}', 'B 1 1 0',
              *beats('R 1 0 0', WORD), 'RK 1 I', 'RK 1 I', 'WK 1 I')


def snoops_meet_transactions(trace):
    """A snoop meets a WriteBack; one takes the line of a MakeUnique; a WriteEvict writes memory while its line is granted; two snoops of a port wait."""
    line = trace.line()
    trace.get(0, line, 'UD')
    trace.address(0, 'WriteBack', line)
    trace.snoop('ReadOnce', line, 9, 'UD')
    trace.end_write(0, 'WriteBack', 'I')
    line = trace.line()
    trace.get(1, line, 'SC')
    trace.address(1, 'MakeUnique', line)
    trace.address(0, 'ReadUnique', line)
    trace.put('G 0 R 0')
    trace.answer(1, 7, line, 0, 'I')
    trace.transfers(0, 'ReadUnique', 0, 'UC')
    trace.put('G 1 R 0')
    trace.answer(0, 13, line, 0, 'I')
    trace.put(f'R 1 0 0 1 {WORD}')
    trace.store(1, line)
    trace.put('RK 1 UD')
    line = trace.line()
    trace.get(0, line, 'UC')
    trace.address(0, 'WriteEvict', line)
    trace.address(1, 'ReadOnce', line)
    trace.put('G 1 R 0')
    trace.answer(0, 0, line, 8, 'UC')
    trace.end_write(0, 'WriteEvict', 'I')
    trace.transfers(1, 'ReadOnce', 8, 'I')
    lines = [trace.line() for _ in range(2)]
    trace.put(*(f'AR 1 {i} {line} 0 1 0 0' for i, line in enumerate(lines)), 'G 1 R 0', 'G 1 R 1', *(f'AC 0 {line} 0' for line in lines), 'CR 0 00 I', 'CR 0 00 I')
    trace.put(*beats('R 1 0 0', WORD), *beats('R 1 1 0', WORD), 'RK 1 I', 'RK 1 I')


def rival_stores(trace):
    """Two exclusive stores of a line: the first passes, the other fails."""
    line = trace.line()
    trace.read(0, 'ReadShared', line, 1, 'SC', lock=1)
    trace.address(1, 'ReadShared', line, lock=1)
    trace.put('G 1 R 0')
    trace.answer(0, 1, line, 8, 'SC')
    trace.transfers(1, 'ReadShared', 9, 'SC')
    for port in (0, 1):
        trace.address(port, 'CleanUnique', line, lock=1)
    trace.put('G 0 R 0')
    trace.answer(1, 9, line, 0, 'I')
    trace.transfers(0, 'CleanUnique', 1, 'UC')
    trace.put('G 1 R 0')
    trace.transfers(1, 'CleanUnique', 0, 'I')


def merged_write(trace):
    """A write of some bytes of a line that another port holds dirty."""
    line = trace.line()
    trace.get(0, line, 'UD')
    trace.address(2, 'WriteUnique', line)
    trace.put(*beats('W 2 00ff', WORD), 'G 2 W 0')
    trace.answer(0, 9, line, 5, 'I')
    trace.put(f'M 2 W 0 {LINE}', 'B 2 0 0')


def barrier_that_is_ignored(trace):
    trace.put('AR 1 1 00000000 0 1 1 0', 'AW 1 1 00000000 0 1 1')
    trace.read(1, 'ReadOnce', trace.line(), bar=2)
    trace.put(f'R 1 1 0 1 {WORD}', 'RK 1 I', 'B 1 1 0', 'WK 1 I')


def sixteen_reads(trace):
    lines = [trace.line() for _ in range(16)]
    trace.put(*(f'AR 1 {i:x} {line} 0 1 0 0' for i, line in enumerate(lines)))
    for i in range(16):
        trace.put(f'G 1 R {i:x}', *beats(f'R 1 {i:x} 0', WORD), 'RK 1 I')


def operations(trace):
    trace.put('OP 0 0000 ok', 'OP 0 0001 fail', 'OP 0 0002 skip')


def in_version_2(line):
    """The record with a port of two digits, which version 2 has."""
    name, port, *rest = line.split(' ')
    return line if name in ('ACE', 'PORTS', 'MEM') else ' '.join((name, '0' + port, *rest))


def three_want_a_line(trace):
    """Ports 0 and 2 wait for a line that port 1 has been granted; what it gets is stored to while port 2 reads it, and passed on."""
    line = trace.line()
    trace.address(1, 'ReadUnique', line)
    trace.put('G 1 R 0')
    trace.address(0, 'ReadUnique', line)
    trace.address(2, 'ReadOnce', line)
    trace.transfers(1, 'ReadUnique', 0, 'UC')
    trace.store(1, line)
    trace.put('G 2 R 0')
    trace.answer(1, 0, line, 9, 'UD')
    trace.put(f'R 2 0 0 0 {WORD}')
    trace.store(1, line)
    trace.put(*(f'R 2 0 0 {last} {WORD}' for last in (0, 0, 1)), 'G 0 R 0')
    trace.answer(1, 7, line, 5, 'I')
    trace.transfers(0, 'ReadUnique', 4, 'UD')
    line = trace.line()
    for port in (0, 1):
        trace.address(port, 'ReadUnique', line)
    trace.address(2, 'ReadOnce', line)
    trace.put('G 2 R 0')
    trace.transfers(2, 'ReadOnce', 0, 'I')
    for port in (0, 1):
        trace.put(f'G {port} R 0')
        if port:
            trace.answer(0, 7, line, 0, 'I')
        trace.transfers(port, 'ReadUnique', 0, 'UC')


def sharers(trace):
    """Three holders, one of them dirty; two of them are snooped, and answer with data in the other order; one of them loads after that."""
    line = trace.line()
    trace.get(0, line, 'SD')
    for port in (1, 3):
        trace.address(port, 'ReadShared', line)
        trace.put(f'G {port} R 0')
        trace.answer(0, 1, line, 9, 'SD')
        if port == 3:
            trace.answer(1, 1, line, 8, 'SC')
        trace.transfers(port, 'ReadShared', 8, 'SC')
    trace.address(2, 'ReadOnce', line)
    trace.put('G 2 R 0', *(f'AC {port} {line} 0' for port in (0, 1, 3)), 'CR 3 08 SC', 'CR 1 09 SC', 'CR 0 09 SD', f'L 1 {line} 0 0 {WORD}', *beats('CD 0', WORD), *beats('CD 1', WORD))
    trace.transfers(2, 'ReadOnce', 0, 'I')


def whole_trace():
    """The bytes of the trace."""
    trace = Trace()
    trace.put(f'MEM {trace.line()} {LINE_OF_ONES}')
    for part in (answers, answers_with_update, ends_of_fetches, ends_of_upgrades, ends_of_other_reads, ends_of_writes, silent_transitions, barriers, messages,
                 exclusives, others, data_of_ones, transactions_at_once, barrier_behind_a_read,
                 three_want_a_line, sharers, snoops_meet_transactions, rival_stores, merged_write, barrier_that_is_ignored, sixteen_reads, operations):
        part(trace)
    return ('\n'.join(map(in_version_2, trace.lines)) + '\n').encode()
