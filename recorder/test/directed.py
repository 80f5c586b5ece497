"""Directed cases: for each two rows of the order whose events can meet at an edge and are bound to an order, a shortest run in
which they do; and what the recorder refuses."""

ZERO = '0' * 32
ONES = 'f' * 32
LINE_ZERO = '0' * 128
LINE_ONES = 'f' * 128
FULL = 'f' * 16
A, B = '00000040', '00000080'
SHARED, UNIQUE, CLEAN, MAKE_INVALID, CLEAN_UNIQUE, MAKE_UNIQUE = '1', '7', '2', 'd', 'b', 'c'


class Case:
    """Events before an edge, those of the edge in their order, and those after it, each of these at an edge of its own. In the
    wrong order the event `moved` of the edge stands behind the event `behind`, and the rule refuses it."""

    def __init__(self, rows, ports, before, meet, after, moved, behind, rule):
        self.rows, self.ports, self.before, self.meet, self.after = rows, ports, before, meet, after
        self.moved, self.behind, self.rule = moved, behind, rule

    def events(self):
        return self.before + self.meet + self.after

    def wrong(self):
        meet = list(self.meet)
        meet.insert(self.behind, meet.pop(self.moved))
        return self.before + meet + self.after

    def edges(self):
        return [[event] for event in self.before] + [self.meet] + [[event] for event in self.after]


def ar(port, snoop, line=A, name=0, bar=0):
    return f'AR {port} {name} {line} {snoop} 1 {bar} 0'


def aw(port, snoop, line=A, name=0, bar=0):
    return f'AW {port} {name} {line} {snoop} 1 {bar}'


def barrier(channel, port):
    return f'AR {port} f 00000000 0 1 3 0' if channel == 'R' else f'AW {port} f 00000000 0 1 3'


def grant(port, channel='R', name=0):
    return f'G {port} {channel} {name}'


def r(port, resp=0, last=1, word=ZERO, name=0):
    return f'R {port} {name} {resp} {last} {word}'


def data(port, resp=0, word=ZERO, name=0):
    return [r(port, resp, int(beat == 3), word, name) for beat in range(4)]


def w(port, word=ZERO):
    return [f'W {port} ffff {int(beat == 3)} {word}' for beat in range(4)]


def cd(port, word=ZERO):
    return [f'CD {port} {int(beat == 3)} {word}' for beat in range(4)]


def load(port, word=ZERO, line=A):
    return f'L {port} {line} 0 0 {word}'


def store(port, value=LINE_ZERO, line=A):
    return f'D {port} {line} {FULL} 0 {value}'


def memory(port, channel='W', value=LINE_ZERO):
    return f'M {port} {channel} 0 {value}'


def acquire(port, snoop, state, resp=0, line=A):
    """A read of a line, to its acknowledge."""
    beats = data(port, resp) if snoop in '01237' else [r(port, resp)]
    return [ar(port, snoop, line), grant(port)] + beats + [f'RK {port} {state}']


def make(port, value=LINE_ZERO):
    return [ar(port, MAKE_UNIQUE), grant(port), r(port), store(port, value), f'RK {port} UD']


UPGRADE = acquire(0, SHARED, 'SC') + [ar(0, CLEAN_UNIQUE), grant(0)]
DIRTY = make(0, LINE_ONES)
TAKES_DIRTY = DIRTY + [ar(1, UNIQUE), grant(1), f'AC 0 {A} 7']
SYNC = ['AR 0 0 0000c000 f 1 0 0', 'AC 1 0000c000 f']
WRITE_BACK = DIRTY + [aw(0, 3)]
# Port 1 lets its line go, and the interconnect knows it and doesn't snoop there.
HELD_BY_1 = acquire(1, UNIQUE, 'UC')
LEAVES_1 = make(1, LINE_ONES) + [aw(1, 3)] + w(1, ONES) + [memory(1, 'W', LINE_ONES)]
LEFT_1 = LEAVES_1 + ['B 1 0 0']
CASES = [
    Case((1, 1), 'A', DIRTY, [load(0, ONES), store(0)], [load(0)], 0, 1, 'K31'),
    Case((1, 1), 'A', acquire(0, UNIQUE, 'UC'), [store(0), f'S 0 {A} SD'], [], 0, 1, 'K29'),
    Case((1, 9), 'AAL', HELD_BY_1 + [aw(2, 1)] + w(2) + [grant(2, 'W')], [f'S 1 {A} I', memory(2)], ['B 2 0 0'], 0, 1, 'K24'),
    Case((1, 10), 'AA', HELD_BY_1 + [ar(0, UNIQUE), grant(0)], [f'S 1 {A} I', data(0)[0]], data(0)[1:], 0, 1, 'K18'),
    Case((1, 14), 'AAL', HELD_BY_1 + [aw(2, 1)] + w(2), [f'S 1 {A} I', grant(2, 'W'), memory(2)], ['B 2 0 0'], 0, 2, 'K24'),
    Case((2, 9), 'AAL', LEFT_1 + [aw(2, 1)] + w(2) + [grant(2, 'W')], ['WK 1 I', memory(2)], ['B 2 0 0'], 0, 1, 'K24'),
    Case((2, 10), 'AA', LEFT_1 + [ar(0, UNIQUE), grant(0)], ['WK 1 I', data(0, word=ONES)[0]], data(0, word=ONES)[1:], 0, 1, 'K18'),
    Case((2, 14), 'AAL', LEFT_1 + [aw(2, 1)] + w(2), ['WK 1 I', grant(2, 'W'), memory(2)], ['B 2 0 0'], 0, 2, 'K24'),
    Case((3, 3), 'A', UPGRADE + [r(0)], ['RK 0 UC', load(0), store(0, LINE_ONES)], [load(0, ONES)], 1, 2, 'K31'),
    Case((5, 14), 'L', [aw(0, 0)] + w(0)[:3], [w(0)[3], grant(0, 'W'), memory(0)], ['B 0 0 0'], 0, 2, 'K24'),
    Case((12, 14), 'AAL', LEAVES_1 + [aw(2, 1)] + w(2), ['B 1 0 0', 'WK 1 I', grant(2, 'W'), memory(2)], ['B 2 0 0'], 1, 3, 'K24'),
    Case((1, 2), 'AA', DIRTY + [aw(0, 3)] + w(0, ONES) + [memory(0, 'W', LINE_ONES), 'B 0 0 0'],
         [load(0, ONES), 'WK 0 I'], [], 0, 1, 'K30'),
    Case((1, 4), 'A', acquire(0, UNIQUE, 'UC'), [f'S 0 {A} I', ar(0, UNIQUE)], [], 0, 1, 'K6'),
    Case((1, 4), 'A', acquire(0, UNIQUE, 'UC'), [store(0), aw(0, 3)], [], 0, 1, 'K6'),
    Case((1, 5), 'A', DIRTY, [store(0), aw(0, 3), w(0)[0]], [], 0, 2, 'K11'),
    Case((1, 6), 'AA', acquire(0, UNIQUE, 'UC') + [ar(1, UNIQUE), grant(1), f'AC 0 {A} 7'], [load(0), 'CR 0 10 I'], [], 0, 1, 'K30'),
    Case((1, 6), 'AA', acquire(0, UNIQUE, 'UC') + [ar(1, UNIQUE), grant(1), f'AC 0 {A} 7'], [store(0), 'CR 0 15 I'], [], 0, 1, 'K15'),
    Case((1, 7), 'AA', TAKES_DIRTY, [store(0), 'CR 0 15 I', cd(0)[0]], [], 0, 2, 'K17'),
    Case((1, 12), 'A', UPGRADE, [load(0), r(0), 'RK 0 I'], [], 0, 2, 'K30'),
    Case((2, 3), 'A', [ar(0, UNIQUE), grant(0)] + data(0), ['RK 0 UC', load(0)], [], 0, 1, 'K30'),
    Case((2, 3), 'A', UPGRADE + [r(0)], ['RK 0 UC', store(0)], [], 0, 1, 'K32'),
    Case((2, 3), 'A', DIRTY + [aw(0, 2)] + w(0, ONES) + [memory(0, 'W', LINE_ONES), 'B 0 0 0'], ['WK 0 UC', store(0)], [], 0, 1, 'K32'),
    Case((2, 3), 'A', [ar(0, MAKE_UNIQUE), grant(0), r(0), store(0)], ['RK 0 UD', store(0, LINE_ONES)], [], 0, 1, 'K32'),
    Case((4, 4), 'A', [barrier('W', 0)], [aw(0, 0), barrier('R', 0)], [grant(0, 'W')], 0, 1, 'K35'),
    Case((2, 4), 'A', [ar(0, UNIQUE), grant(0)] + data(0), ['RK 0 UC', ar(0, UNIQUE, B)], [], 0, 1, 'K4'),
    Case((2, 4), 'A', WRITE_BACK + w(0, ONES) + [memory(0, 'W', LINE_ONES), 'B 0 0 0'], ['WK 0 I', ar(0, UNIQUE)], [], 0, 1, 'K5'),
    Case((2, 13), 'AA', [ar(0, UNIQUE), ar(1, UNIQUE), grant(0)] + data(0), ['RK 0 UC', grant(1)], [f'AC 0 {A} 7', 'CR 0 00 I'],
         0, 1, 'K12'),
    Case((2, 13), 'AA', [aw(0, 0), ar(1, UNIQUE)] + w(0) + [grant(0, 'W'), memory(0), 'B 0 0 0'], ['WK 0 I', grant(1)], [], 0, 1, 'K12'),
    Case((2, 15), 'AA', WRITE_BACK + w(0, ONES) + [memory(0, 'W', LINE_ONES), ar(1, UNIQUE), grant(1), 'B 0 0 0'],
         ['WK 0 I', f'AC 0 {A} 7'], [], 0, 1, 'K13'),
    Case((3, 4), 'A', UPGRADE + [r(0)], ['RK 0 UC', store(0), aw(0, 3)], [], 1, 2, 'K6'),
    Case((4, 5), 'L', [], [aw(0, 0), w(0)[0]], w(0)[1:] + [grant(0, 'W'), memory(0), 'B 0 0 0'], 0, 1, 'K11'),
    Case((4, 6), 'AA', acquire(0, SHARED, 'SC') + [ar(1, UNIQUE), grant(1), f'AC 0 {A} 7'], [ar(0, CLEAN_UNIQUE), 'CR 0 00 I'], [],
         0, 1, 'K6'),
    Case((4, 10), 'A', [barrier('R', 0)], [barrier('W', 0), r(0, name='f')], ['B 0 f 0', 'RK 0 I', 'WK 0 I'], 0, 1, 'K34'),
    Case((4, 13), 'A', [], [ar(0, UNIQUE), grant(0)], data(0) + ['RK 0 UC'], 0, 1, 'K12'),
    Case((4, 13), 'AA', acquire(1, UNIQUE, 'UC'), [ar(0, UNIQUE), grant(0), f'AC 1 {A} 7'], ['CR 1 10 I'] + data(0), 0, 1, 'K12'),
    Case((4, 15), 'AA', [], ['AR 0 0 00000000 f 1 0 0', 'AC 1 00000000 f'], ['CR 1 00 I', r(0), 'RK 0 I'], 0, 1, 'K36'),
    Case((5, 9), 'A', WRITE_BACK + w(0, ONES)[:3], [w(0, ONES)[3], memory(0, 'W', LINE_ONES)], ['B 0 0 0', 'WK 0 I'], 0, 1, 'K24'),
    Case((5, 10), 'A', WRITE_BACK + w(0, ONES)[:3], [w(0, ONES)[3], memory(0, 'W', LINE_ONES), 'B 0 0 0'], ['WK 0 I'], 1, 2, 'K26'),
    Case((6, 7), 'AA', TAKES_DIRTY, ['CR 0 15 I', cd(0, ONES)[0]], [], 0, 1, 'K17'),
    Case((6, 8), 'AA', SYNC, ['CR 1 00 I', 'AR 1 3 00000000 e 1 0 0'], [], 0, 1, 'K38'),
    Case((6, 9), 'AL', acquire(0, UNIQUE, 'UC') + [aw(1, 1)] + w(1) + [grant(1, 'W'), f'AC 0 {A} d'], ['CR 0 00 I', memory(1)],
         ['B 1 0 0'], 0, 1, 'K24'),
    Case((6, 10), 'AA', acquire(0, UNIQUE, 'UC') + [ar(1, UNIQUE), grant(1), f'AC 0 {A} 7'], ['CR 0 00 I', data(1)[0]], data(1)[1:],
         0, 1, 'K18'),
    Case((6, 10), 'AA', SYNC, ['CR 1 00 I', r(0)], [], 0, 1, 'K37'),
    Case((7, 9), 'AL', DIRTY + [ar(1, 0), grant(1), f'AC 0 {A} 0', 'CR 0 0d SC'] + cd(0, ONES)[:3],
         [cd(0, ONES)[3], memory(1, 'R', LINE_ONES)], data(1, word=ONES), 0, 1, 'K24'),
    Case((7, 10), 'AA', TAKES_DIRTY + ['CR 0 15 I'] + cd(0, ONES)[:3], [cd(0, ONES)[3], data(1, 4, ONES)[0]], data(1, 4, ONES)[1:],
         0, 1, 'K18'),
    Case((8, 15), 'AA', SYNC + ['CR 1 00 I', r(0)], ['AR 1 3 00000000 e 1 0 0', 'AC 0 00000000 e'], ['CR 0 00 I'], 0, 1, 'K39'),
    Case((9, 10), 'L', [aw(0, 0)] + w(0) + [grant(0, 'W')], [memory(0), 'B 0 0 0'], [], 0, 1, 'K26'),
    Case((9, 10), 'AL', DIRTY + [ar(1, 0), grant(1), f'AC 0 {A} 0', 'CR 0 0d SC'] + cd(0, ONES),
         [memory(1, 'R', LINE_ONES), data(1, word=ONES)[0]], data(1, word=ONES)[1:], 0, 1, 'K18'),
    Case((10, 11), 'A', [ar(0, MAKE_UNIQUE), grant(0)], [r(0), store(0)], ['RK 0 UD'], 0, 1, 'K32'),
    Case((10, 12), 'A', [ar(0, UNIQUE), grant(0)] + data(0)[:3], [data(0)[3], 'RK 0 UC'], [], 0, 1, 'K22'),
    Case((10, 12), 'A', WRITE_BACK + w(0, ONES) + [memory(0, 'W', LINE_ONES)], ['B 0 0 0', 'WK 0 I'], [], 0, 1, 'K27'),
    Case((10, 13), 'LL', [ar(0, 0), ar(1, 0), grant(0)] + data(0)[:3], [data(0)[3], grant(1)], data(1), 0, 1, 'K12'),
    Case((10, 13), 'A', [barrier('R', 0), barrier('W', 0), ar(0, UNIQUE), r(0, name='f')], ['B 0 f 0', grant(0)], [], 0, 1, 'K35'),
    Case((10, 15), 'AA', SYNC + ['CR 1 00 I', 'AR 1 3 00000000 e 1 0 0'], [r(0), 'AC 0 00000000 e'], [], 0, 1, 'K39'),
    Case((11, 12), 'A', [ar(0, MAKE_UNIQUE), grant(0)], [r(0), store(0), 'RK 0 UD'], [load(0)], 1, 2, 'K23'),
    Case((12, 12), 'A', [ar(0, UNIQUE), grant(0)] + data(0)[:3], [data(0)[3], 'RK 0 UC', load(0)], [], 1, 2, 'K30'),
    Case((12, 12), 'A', UPGRADE, [r(0), 'RK 0 UC', store(0)], [], 1, 2, 'K32'),
    Case((12, 13), 'AA', [ar(0, UNIQUE), ar(1, UNIQUE), grant(0)] + data(0)[:3], [data(0)[3], 'RK 0 UC', grant(1)], [], 1, 2, 'K12'),
    Case((12, 15), 'AA', WRITE_BACK + w(0, ONES) + [memory(0, 'W', LINE_ONES), ar(1, UNIQUE), grant(1)],
         ['B 0 0 0', 'WK 0 I', f'AC 0 {A} 7'], [], 1, 2, 'K13'),
    Case((13, 14), 'L', [aw(0, 0)] + w(0), [grant(0, 'W'), memory(0)], ['B 0 0 0'], 0, 1, 'K24'),
    Case((13, 15), 'AA', acquire(0, UNIQUE, 'UC') + [ar(1, UNIQUE)], [grant(1), f'AC 0 {A} 7'], ['CR 0 10 I'], 0, 1, 'K13'),
]


# What RTL may do at an edge and the order doesn't fit: the ports, the events before the edge, those of the edge, and the rule
# that refuses them. The document names them.
MISFITS = [
    ('A', [ar(0, UNIQUE), grant(0)] + data(0)[:3], [data(0)[3], 'RK 0 UC', ar(0, UNIQUE, B)], 'K4'),
    ('AAA', [], ['AR 0 0 00000000 f 1 0 0', 'AR 1 0 00001000 f 1 0 0', 'AC 2 00001000 f'], 'K36'),
    ('A', [ar(0, UNIQUE), barrier('R', 0), barrier('W', 0)], [grant(0), 'R 0 f 0 1 ' + ZERO], 'K34'),
    ('AAL', LEAVES_1 + [aw(2, 1)] + w(2) + [grant(2, 'W')], ['B 1 0 0', 'WK 1 I', memory(2)], 'K24'),
]


class Refusal:
    """What is put before replay.sv and its words, what the recorder says (a part of it) or None where nothing, and the
    events that the trace has before that."""

    def __init__(self, name, ports, stimulus, says, events, words=()):
        self.name, self.ports, self.stimulus, self.says, self.events, self.words = name, ports, stimulus, says, events, words


ALL = '- 1ffffffff'
MEM_ONES = f'MEM {A} {LINE_ONES}'
READ = acquire(0, UNIQUE, 'UC')


def edges_of(events):
    return [line for event in events for line in (event, ALL)]


def at_edge(*lines):
    return list(lines) + [ALL]


BEATS = [f'W 0 ffff 0 {ZERO}'] * 65
REFUSALS = [
    Refusal('a burst of another length', 'A', at_edge(ar(0, UNIQUE), 'SET arlen 0 0'), 'ARLEN 0', []),
    Refusal('beats of another size', 'A', at_edge(ar(0, UNIQUE), 'SET arsize 0 3'), 'ARSIZE 3', []),
    Refusal('a fixed burst', 'A', at_edge(ar(0, UNIQUE), 'SET arburst 0 0'), 'ARBURST 0', []),
    Refusal('a burst that wraps where the line begins', 'A', at_edge(ar(0, UNIQUE), 'SET arburst 0 2'), None, [ar(0, UNIQUE)]),
    Refusal('a barrier of two beats', 'A', at_edge(barrier('R', 0), 'SET arlen 0 1'), 'ARLEN of a barrier', []),
    Refusal('a write of another length', 'L', at_edge(aw(0, 0), 'SET awlen 0 7'), 'AWLEN 7', []),
    Refusal('write beats of another size', 'L', at_edge(aw(0, 0), 'SET awsize 0 2'), 'AWSIZE 2', []),
    Refusal('a fixed write', 'L', at_edge(aw(0, 0), 'SET awburst 0 0'), 'AWBURST 0', []),
    Refusal('a write barrier of two beats', 'A', at_edge(barrier('W', 0), 'SET awlen 0 1'), 'AWLEN of a barrier', []),
    Refusal('events of an edge with an error go', 'A', at_edge(ar(0, UNIQUE), aw(0, 0), 'SET awlen 0 7'), 'AWLEN 7', []),
    Refusal('events before the edge stay', 'A', edges_of(READ) + at_edge(aw(0, 0), 'SET awlen 0 7'), 'AWLEN 7', READ),
    Refusal('memory is opened late', 'A', edges_of(READ) + [MEM_ONES] + edges_of([load(0)]), 'after the first event', READ,
            ['+version=2']),
    Refusal('memory is opened in version 1', 'A', [MEM_ONES] + edges_of(READ), 'has to be of version 2', []),
    Refusal('memory is opened inside a line', 'A', [f'MEM 00000050 {LINE_ONES}'] + edges_of(READ), 'which begins no line', [],
            ['+version=2']),
    Refusal('memory is opened twice', 'A', [MEM_ONES, MEM_ONES] + edges_of(READ), 'opened twice', [], ['+version=2']),
    Refusal('memory is opened in any order, zeros left out', 'A',
            [f'MEM {B} {LINE_ONES}', f'MEM 000000c0 {LINE_ZERO}', MEM_ONES] + edges_of([ar(0, UNIQUE)]), None,
            [MEM_ONES, f'MEM {B} {LINE_ONES}', ar('00', UNIQUE)], ['+version=2']),
    Refusal('a reset in mid-run', 'A', edges_of(READ) + ['RESET'] + edges_of(READ), 'a reset in mid-run', READ),
    Refusal('what is before a reset', 'A', edges_of(READ + [load(0)]) + ['RESET'] + edges_of(READ), None, READ + [load(0)],
            ['+ace_part=1']),
    Refusal('what is behind it', 'A', edges_of(READ) + ['RESET'] + edges_of(READ + [load(0)]), None, READ + [load(0)], ['+ace_part=2']),
    Refusal('memory as it is behind it', 'L', [f'MEM {B} {LINE_ONES}'] + edges_of([ar(0, 0)]) + ['RESET', MEM_ONES] + edges_of([ar(0, 0)]),
            None, [MEM_ONES, ar('00', 0)], ['+ace_part=2', '+version=2']),
    Refusal('a part that the run has not', 'A', edges_of(READ), 'part 2 is wanted', [], ['+ace_part=2']),
    Refusal('a reset before the first event', 'A', ['RESET', 'RESET'] + edges_of(READ), None, READ),
    Refusal('one port is reset', 'AA', edges_of(READ) + ['RESETP 1'] + edges_of(READ), "the system isn't", READ),
    Refusal('a port without a recorder', 'AAA', edges_of(READ), 'port 1 has no recorder', None, ['+ports=5']),
    Refusal('more W beats than are held', 'L', edges_of(BEATS), 'more than 64 W beats', []),
    Refusal('as many W beats as are held', 'L', edges_of(BEATS[:64]), None, BEATS[:64]),
    Refusal('more CD beats than are held', 'A', edges_of(cd(0) * 17), 'more than 64 CD beats', []),
    Refusal('more snoops than are held', 'A', edges_of([f'AC 0 {A} 7'] * 65), 'more than 64 snoops', [f'AC 0 {A} 7'] * 64),
    Refusal('more reads than identifiers', 'A', edges_of([r(0)] * 17), 'more than 16 reads', [r(0)] * 16),
    Refusal('more writes than identifiers', 'A', edges_of(['B 0 0 0'] * 17), 'more than 16 writes', ['B 0 0 0'] * 16),
    Refusal('memory is opened with more lines than a trace may have', 'A',
            [f'MEM {64 * n:08x} {LINE_ONES}' for n in range(4097)] + edges_of(READ), 'more than 4096 lines', None, ['+version=2']),
    Refusal('a trace of so many events', 'A', edges_of(READ), None, READ[:3], ['+ace_events=3']),
]
# Modules that are put together wrongly: their text, and what the recorder says.
RECORDER = 'ace_recorder recorder (.clk, .rstn);'
LITE_0 = 'ace_lite_port_recorder #(.PORT(0)) a (.clk, .rstn, .arvalid(clk), .arready(1\'b1), {zeros});'
INSTANCES = [
    (f'{RECORDER} {LITE_0} ace_recorder other (.clk, .rstn);', 'there are two modules ace_recorder'),
    (f'{RECORDER} {LITE_0} {LITE_0.replace(" a (", " b (")}', 'port 0 has two recorders'),
    (f'{RECORDER} {LITE_0.replace("PORT(0)", "PORT(32)")}', 'there is no port 32'),
    (f'{RECORDER} {LITE_0.replace("PORT(0)", "PORT(1)")}', 'port 0 has no recorder, and port 1 has one'),
    (f'import ace_recorder_pkg::ace_grant; {RECORDER} always @(posedge clk) ace_grant($realtime, 0, 0, 0);', 'no port has a recorder'),
    (f'ace_recorder recorder (.clk(1\'b0), .rstn); {LITE_0}', 'too many events without a falling edge'),
    (LITE_0, 'too many events without a falling edge'),
]
# Where a simulator knows X.
UNKNOWN = [
    Refusal('X on VALID', 'A', edges_of(READ) + at_edge('SET xarvalid 0 0'), 'X on ARVALID or ARREADY', READ),
    Refusal('X on READY', 'A', at_edge('SET xarready 0 0'), 'X on ARVALID or ARREADY', []),
    Refusal('X on a response', 'A', at_edge('SET xrvalid 0 0'), 'X on RVALID or RREADY', []),
    Refusal('X on RACK', 'A', at_edge('SET xrack 0 0'), "X on RACK, WACK or a tap's valid", []),
    Refusal('X on a grant', 'A', at_edge('SET xgrant 0 0'), 'X on grant_valid or memory_valid', []),
    Refusal('X in an address', 'A', at_edge(ar(0, UNIQUE), 'SET xaraddr 0 0'), 'X or Z in a field of AR of port 0', []),
    Refusal('X in data', 'A', at_edge(data(0)[0], 'SET xrdata 0 5'), 'X or Z in a field of R of port 0', []),
    Refusal('X in a byte that is written', 'L', edges_of([aw(0, 0)]) + at_edge(f'W 0 fffe 0 {ONES}', 'SET xwdata 0 8'),
            'X or Z in a field of W of port 0', [aw(0, 0)]),
    Refusal("X in a byte that isn't written", 'L', edges_of([aw(0, 0)]) + at_edge(f'W 0 fffe 0 {ONES}', 'SET xwdata 0 3'), None,
            [aw(0, 0), 'W 0 fffe 0 00' + ONES[2:]]),
]
