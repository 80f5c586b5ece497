"""Long traces, for the checks of this folder."""
import itertools

HEADER = b'ACE 1\nPORTS A\n'
WORD = b'0' * 32


def reads_of_lines(port=b'0', first=0):
    """A port reads one line after the other, for ever."""
    for n in itertools.count(first):
        transfers = b''.join(b'R %s 0 0 %d %s\n' % (port, last, WORD) for last in (0, 0, 0, 1))
        yield b'AR %s 0 %08x 0 1 0 0\nG %s R 0\n' % (port, 64 * n, port) + transfers + b'RK %s I\n' % port
