"""Directed cases of ports of other widths, for replay_wide.sv: what names are given, what is left out, what is refused, and on which
event of the trace an error on each beat of each bus stands."""
import wide
import widen

ALL_CLOCKS = widen.ALL_CLOCKS
A, B = '800000000040', '400000000040'
SYNC = 'AR 0 1 123456781000 f 1 0 0 0 0 0 f'


class Case:
    """What is at the pins, each at an edge of its own; a part of what the recorder refuses it with, or None; how the verdict begins;
    and how the side file ends, or None. A late case is one whose end is written in final blocks."""

    def __init__(self, name, stimulus, says, verdict, end, late=False):
        self.name, self.says, self.verdict, self.end, self.late = name, says, verdict, end, late
        self.stimulus = '\n'.join(['ACE 1', f'PORTS {wide.PORTS}'] + [line for event in stimulus for line in (event, ALL_CLOCKS)]) + '\n'

    def failure(self, recording, check):
        """What is wrong, or None."""
        given, end = check(recording.text)[0], recording.end()
        noted = [line for line in recording.side.split('\n') if line.startswith('NOTE ') and self.says and self.says in line]
        refused = self.says is None or bool(noted) and self.says in recording.said and self.says in recording.text
        if refused and given.startswith(self.verdict) and self.end in (None, end):
            return None
        return f'{self.name}: {given}, {end}; {recording.said[-160:]}'


def accepted(name, stimulus, count, late=False):
    return Case(name, stimulus, None, f'accepted {count}', f'END {count}', late)


def broken(name, stimulus, rule, event, count, late=False):
    """A rule refuses the event; so many events are recorded."""
    return Case(name, stimulus, None, f'refused event {event}: {rule}', f'END {count}', late)


def refused(name, stimulus, says, count):
    """The recorder refuses what is behind so many events."""
    return Case(name, stimulus, says, f'malformed line {count + 3}', f'BROKEN {count}')


def ar(port, name, line, snoop='7', domain=1, length=3, size=4, burst=1):
    return f'AR {port} {name} {line} {snoop} {domain} 0 0 {length:x} {size} {burst} f'


def aw(port, name, line, snoop='0', domain=1, length=3, size=4, burst=1):
    return f'AW {port} {name} {line} {snoop} {domain} 0 {length:x} {size} {burst} f'


def beats(port, name, count=4, resp=0):
    return [f'R {port} {name} {resp} {int(n == count - 1)} 0' for n in range(count)]


def reads(count, first=0x800000000000):
    return [ar(0, f'{n + 32:x}', f'{first + 64 * n:x}') for n in range(count)]


def writes(count):
    return [aw(2, f'{n + 32:x}', f'{0x800000000000 + 64 * n:x}') for n in range(count)]


READ = [ar(0, '7a', A), 'G 0 R 7a'] + beats(0, '7a') + ['RK 0 UC']
DEVICE = [ar(0, '7a', '900000000040', '0', 3, 0, 2), 'R 0 7a 0 1 55', 'RK 0 SD']
HELD = [ar(1, '1', A), 'G 1 R 1'] + beats(1, '1') + ['RK 1 UC', ar(0, '2', '800000000060', burst=2), 'G 0 R 2', 'AC 1 800000000060 7']
STORES = [ar(0, '1', A, '0', 0)] + beats(0, '1') + ['RK 0 UC', f'D 0 {A} ff 0 1', f'L 0 {A} 0 0 1', f'S 0 {A} I', ar(0, '3', B)]

NAMES = [
    accepted('sixteen reads are outstanding', reads(16), 16),
    refused('seventeen reads', reads(17), 'more than 16 transactions on AR are outstanding', 16),
    refused('seventeen writes', writes(17), 'more than 16 transactions on AW are outstanding', 16),
    accepted('seventeen reads, of which one is left out', reads(16, 0x400000000000) + DEVICE[:1], 16),
    refused('a transfer of nothing while sixteen are outstanding', reads(16) + ['R 0 9 0 0 0'], "R of the identifier 0009, which isn't", 16),
    broken('an identifier in use again', [ar(0, '7a', A), ar(0, '7a', B)], 'K4', 2, 2),
    accepted('an identifier that is free again', READ + [ar(0, '7a', B)], 8),
    broken('a transfer of an identifier that another has the place of', READ + [ar(0, '11', B), 'G 0 R 11', 'R 0 7a 0 0 0'], 'K18', 10, 10),
    broken('a grant of an identifier that another has the place of', READ + [ar(0, '11', B), 'G 0 R 7a'], 'K12', 9, 9),
    accepted('an identifier is free from the acknowledge on',
             READ[:-1] + [ar(0, '11', B), 'RK 0 UC', ar(0, '12', '600000000040'), 'G 0 R 11', 'G 0 R 12'], 11),
    accepted('the acknowledge is that of the one which was complete first',
             READ[:-1] + [ar(0, '11', B), 'G 0 R 11'] + beats(0, '11') + ['RK 0 UC', ar(0, '12', '600000000040'), 'G 0 R 12'], 15),
    accepted('seventeen reads of an ACE-Lite port, one behind the other',
             [event for n in range(17) for event in [ar(2, f'{n:x}', A, '0'), f'G 2 R {n:x}'] + beats(2, f'{n:x}')], 102),
    accepted('lines that differ in bit 47 alone', [ar(0, '1', '000000000040'), ar(0, '2', '800000000040')], 2),
    accepted('a word of a message that is wide', [SYNC, 'AC 1 123456781000 f', 'AR 1 1 123456791000 f 1 0 0 0 0 0 f'], 3),
    broken('another word than was sent', [SYNC, 'AC 1 123456791000 f'], 'K36', 2, 2),
    broken('words that differ above bit 31', [SYNC, 'AC 1 923456781000 f'], 'K36', 2, 2),
    accepted('no events', [], 0, late=True),
]
LEFT_OUT = [
    accepted('a device access', READ + DEVICE, 7),
    accepted('its transfers before those of the same name', [DEVICE[0], ar(0, '7a', A), 'G 0 R 7a', DEVICE[1]] + beats(0, '7a') + ['RK 0 SC', 'RK 0 UC'], 7),
    refused('a device read that breaks off', [ar(0, '7a', '900000000040', '0', 3, 15, 2)] + beats(0, '7a', 16)[:9] + READ, 'RLAST of an access that', 2),
    accepted('a device write and its data', [aw(0, '5', '900000000044', '0', 3, 1, 2), aw(2, '6', A), 'W 0 f 0 1', 'W 2 ffff 0 1', 'W 0 f 1 2',
                                             'B 0 5 0', 'WK 0 UD'], 2),
    refused('a line that was shareable is accessed as a device', READ + [ar(0, '7a', A, '0', 3, 0, 2)], 'was shareable before (K8)', 7),
    refused('a line that was accessed as a device is shareable', [ar(0, '1', B, '0', 3, 0, 2), ar(0, '2', B)], 'is shareable here', 0),
    refused('a burst of 16 beats that reaches into it', [ar(0, '1', '400000000000', '0', 3, 15, 4), ar(0, '2', '4000000000c0')], 'is shareable here', 0),
    accepted('and one that ends before it', [ar(0, '1', '400000000000', '0', 3, 11, 4), ar(0, '2', '4000000000c0')], 1),
    broken('a ReadUnique in the Non-shareable domain is recorded', [ar(0, '1', A, '7', 0)], 'K2', 1, 1),
    accepted("stores to a line that isn't shareable", STORES, 1),
    broken('a grant of an access that was left out and is over', READ + DEVICE + ['G 0 R 7a'], 'K12', 8, 8),
    accepted('a grant of one that is outstanding', READ + DEVICE[:2] + ['G 0 R 7a'] + DEVICE[2:], 7),
    refused('a burst of another length', [ar(0, '1', A, length=0)], 'ARLEN 0', 0),
]
TURNED = [
    accepted('a wrapped read that the end breaks off', [ar(0, '1', '400000000050', burst=2), 'G 0 R 1'] + beats(0, '1')[:2], 2, late=True),
    accepted('a wrapped read of which two words are there', [ar(0, '1', '400000000070', burst=2), 'G 0 R 1'] + beats(0, '1')[:2], 3, late=True),
    broken('a wrapped read that ends early', [ar(0, '1', '400000000050', burst=2), 'G 0 R 1'] + beats(0, '1', 2) + [ar(1, '2', A)], 'K18', 4, 5),
    accepted('behind a wrapped read', [ar(0, '1', '400000000050', burst=2), 'G 0 R 1'] + beats(0, '1')[:2] + [ar(1, '2', A)] + beats(0, '1')[2:], 7),
    broken('an inside address without WRAP', [ar(0, '1', '400000000050')], 'K3', 1, 1),
    broken('a critical word before the snoop is answered', HELD + beats(0, '2')[:1] + ['CR 1 10 I'] + beats(0, '2')[1:] + ['RK 0 UC'], 'K18', 11, 16),
    accepted('the same behind it', HELD + ['CR 1 10 I'] + beats(0, '2') + ['RK 0 UC'], 16),
    broken('an error on one of its beats', HELD + ['CR 1 10 I'] + beats(0, '2')[:2] + ['R 0 2 2 0 0', 'R 0 2 0 1 0'], 'K2', 14, 15),
]


def event_at(shape, beat):
    """The first event of four that stands at this beat or behind it."""
    return next(n for n in range(4) if shape.at[n] >= beat)


def last_at(shape, beat):
    """The event that tells of a last beat there: the last that stands at it, else the next."""
    first = event_at(shape, beat)
    return first if shape.at[first] > beat else max(n for n in range(4) if shape.at[n] == shape.at[first])


def read_case(config, name, verdict, responses=None, last=None):
    """A read of a line with these responses by beat, and its last beat there."""
    shape = widen.Shape(config.data, config.line)
    last = shape.beats - 1 if last is None else last
    count = min(last + 1, shape.beats)
    stimulus = [ar(0, '7', '40', length=shape.beats - 1, size=shape.code), 'G 0 R 7']
    stimulus += [f'R 0 7 {(responses or {}).get(n, 0):x} {int(n == last)} 0' for n in range(count)] + ['RK 0 UC']
    return Case(f'a read: {name}', stimulus, None, verdict, None)


def dataless_case(config, name, verdict, data):
    """A MakeInvalid with this at RDATA."""
    shape = widen.Shape(config.data, config.line)
    stimulus = [ar(2, '7', '40', 'd', length=shape.beats - 1, size=shape.code), 'G 2 R 7', f'R 2 7 0 1 {data:x}']
    return Case(f'a dataless read: {name}', stimulus, None, verdict, None)


def next_line_case(config):
    """A read of the second line of a bus that is wider than a line: on the lanes of the first one stands what belongs to no one."""
    shape = widen.Shape(config.data, config.line)
    stimulus = [ar(0, '7', f'{0x40 + config.line:x}', length=0, size=shape.code), 'G 0 R 7', f'R 0 7 0 1 {(1 << 8 * config.line) - 1:x}', 'RK 0 UC']
    return Case('a read of the second line of the bus', stimulus, None, 'accepted 7', None)


def write_case(config, name, verdict, last=None, snoop='0', line=0x40):
    shape = widen.Shape(config.data, config.line)
    last = shape.beats - 1 if last is None else last
    strobes = ((1 << shape.size) - 1) << (line % shape.bus if shape.bus > config.line else 0)
    stimulus = [aw(2, '7', f'{line:x}', snoop, length=shape.beats - 1, size=shape.code)]
    stimulus += [f'W 2 {strobes:x} {int(n == last)} 0' for n in range(shape.beats)] + ['G 2 W 7', 'M 2 W 7 0', 'B 2 7 0']
    return Case(f'a write: {name}', stimulus, None, verdict, None)


def answer_case(config, name, verdict, last=None):
    """A snoop that is answered with data."""
    bus, snoop = widen.Shape(config.data, config.line), widen.Shape(config.snoop, config.line)
    last = snoop.beats - 1 if last is None else last
    stimulus = [ar(1, '5', '40', length=bus.beats - 1, size=bus.code), 'G 1 R 5']
    stimulus += [f'R 1 5 0 {int(n == bus.beats - 1)} 0' for n in range(bus.beats)] + ['RK 1 UC']
    stimulus += [ar(0, '6', '40', length=bus.beats - 1, size=bus.code), 'G 0 R 6', 'AC 1 40 7', 'CR 1 11 I']
    stimulus += [f'CD 1 {int(n == last)} 0' for n in range(snoop.beats)]
    return Case(f'an answer: {name}', stimulus, None, verdict, None)


def some(beats_):
    """Of many beats those at the ends and in the middle."""
    return sorted({n for n in (0, 1, beats_ // 2 - 1, beats_ // 2, beats_ - 2, beats_ - 1) if 0 <= n < beats_})


def beat_cases(config):
    """Errors and last bits on the beats of a configuration."""
    bus, snoop = widen.Shape(config.data, config.line), widen.Shape(config.snoop, config.line)
    cases = [read_case(config, 'as it should be', 'accepted 7'), write_case(config, 'as it should be', 'accepted 8'),
             write_case(config, 'a WriteLineUnique', 'accepted 8', snoop='1', line=0x40 + config.line),
             dataless_case(config, 'as it should be', 'accepted 3', 0),
             dataless_case(config, 'a bit on the highest lane', 'refused event 3: K20', 1 << (config.data - 1)), answer_case(config, 'as it should be', 'accepted 15')]
    for beat in some(bus.beats):
        cases.append(read_case(config, f'SLVERR at beat {beat}', f'refused event {3 + event_at(bus, beat)}: K2', {beat: 2}))
        if beat:
            cases.append(read_case(config, f'IsShared at beat {beat} alone', f'refused event {3 + event_at(bus, beat)}: K19', {beat: 8}))
    for beat in some(bus.beats - 1):
        cases.append(read_case(config, f'RLAST at beat {beat}', f'refused event {3 + last_at(bus, beat)}: K18', None, beat))
        cases.append(write_case(config, f'WLAST at beat {beat}', f'refused event {2 + last_at(bus, beat)}: K11', beat))
    for beat in some(snoop.beats - 1):
        cases.append(answer_case(config, f'CDLAST at beat {beat}', f'refused event {12 + last_at(snoop, beat)}: K17', beat))
    if config.data > 8 * config.line:
        cases.append(next_line_case(config))
    cases.append(read_case(config, 'no RLAST', 'refused event 6: K18', None, 99))
    cases.append(write_case(config, 'no WLAST', 'refused event 5: K11', 99))
    cases.append(answer_case(config, 'no CDLAST', 'refused event 15: K17', 99))
    return cases


def cases_of(config):
    return (NAMES + LEFT_OUT + TURNED if config.name == 'plain' else []) + beat_cases(config)
