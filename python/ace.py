"""The checker of `ace` for Python: `ctypes` over libace.so, and the standard library alone.

    import ace
    with ace.Checker('AL') as checker:
        checker.feed(ace.event(ace.Kind.AR, port=0, id=1, addr=0x40, snoop=1, domain=1))

The library is the file that ACE_LIBRARY names, or libace.so beside this folder, in lib/.
"""
from __future__ import annotations

import ctypes
import enum
import os
from typing import Iterable, Optional, Sequence


class Kind(enum.IntEnum):
    """The kind of an event, named as its record in a trace."""
    AR, R, RK, AW, W, B, WK, AC, CR, CD, G, M, S, L, D, OP, MEM = range(17)


class State(enum.IntEnum):
    """The state of a line in a cache."""
    I, UC, UD, SC, SD = range(5)


class Channel(enum.IntEnum):
    """The channel of the transaction that a grant or a memory write is of: `flag` of G and M."""
    READ, WRITE = range(2)


class Outcome(enum.IntEnum):
    """How an operation was done: `index` of OP."""
    OK, SKIP, FAIL = range(3)


class Status(enum.IntEnum):
    """What a checker says of the events that it was fed. The first but FINE is the status for good."""
    FINE, REFUSED, OUT_OF_RANGE, TOO_MANY_LINES, NO_MEMORY, TOO_MANY_EVENTS, NOT_OPEN = range(7)


class Event(ctypes.Structure):
    """An event, with the fields of `ace_event` in ace.h. What its kind doesn't have may be anything."""
    _fields_ = [
        ('kind', ctypes.c_uint8), ('port', ctypes.c_uint8), ('id', ctypes.c_uint8), ('snoop', ctypes.c_uint8),
        ('domain', ctypes.c_uint8), ('bar', ctypes.c_uint8), ('resp', ctypes.c_uint8), ('state', ctypes.c_uint8),
        ('flag', ctypes.c_uint8), ('index', ctypes.c_uint8), ('number', ctypes.c_uint16), ('addr', ctypes.c_uint64),
        ('strobe', ctypes.c_uint64), ('data', ctypes.c_uint8 * 64),
    ]


class Answer(ctypes.Structure):
    """The status of a checker, how many events were fed or which one it is of, and which rule that breaks."""
    _fields_ = [('event', ctypes.c_uint64), ('status', ctypes.c_uint8), ('rule', ctypes.c_uint8)]

    def __str__(self) -> str:
        if self.status == Status.FINE:
            return f'accepted {self.event}'
        if self.status == Status.REFUSED:
            return f'refused event {self.event}: K{self.rule}'
        return f'event {self.event}: {Status(self.status).name.lower().replace("_", " ")}'


class NotFine(Exception):
    """An event that isn't fine: `answer` tells which and why."""

    def __init__(self, answer: Answer) -> None:
        super().__init__(str(answer))
        self.answer = answer


class _Handle(ctypes.Structure):
    _fields_ = [('at', ctypes.c_void_p), ('live', ctypes.c_uint8)]


def _load(path: Optional[str]) -> ctypes.CDLL:
    here = os.path.dirname(os.path.abspath(__file__))
    library = ctypes.CDLL(path or os.environ.get('ACE_LIBRARY') or os.path.join(here, '..', 'lib', 'libace.so'))
    handle = ctypes.POINTER(_Handle)
    library.ace_open.argtypes = [handle, ctypes.c_uint8, ctypes.c_uint8, ctypes.c_uint32, ctypes.c_size_t]
    library.ace_open.restype = ctypes.c_uint8
    library.ace_feed.argtypes = [handle, ctypes.POINTER(Event)]
    library.ace_feed.restype = ctypes.c_uint8
    library.ace_feed_many.argtypes = [handle, ctypes.POINTER(Event), ctypes.c_size_t]
    library.ace_feed_many.restype = ctypes.c_size_t
    library.ace_verdict.argtypes = [handle]
    library.ace_verdict.restype = Answer
    library.ace_close.argtypes = [handle]
    library.ace_close.restype = None
    return library


def event(kind: Kind, data: bytes = b'', **fields: int) -> Event:
    """The event of this kind with these fields and these bytes of data, in order of address. The others are zeros."""
    made = Event(kind=kind, **fields)
    for name, value in fields.items():
        if getattr(made, name) != value:
            raise ValueError(f'{value} is too large for {name}')
    if len(data) > 64:
        raise ValueError('more than the 64 bytes of a line')
    ctypes.memmove(made.data, data, len(data))
    return made


class Checker:
    """A checker of one trace. `ports` has a letter for each port, A for ACE and L for ACE-Lite. Transactions may name so many
    `lines`, or by 0 as many as there is memory for."""

    def __init__(self, ports: str, version: int = 2, library: Optional[str] = None, lines: int = 0) -> None:
        self._library = _load(library)
        self._handle = _Handle()
        if len(ports) > 32 or set(ports) - set('AL') or version not in (1, 2):
            raise ValueError(f'no ports of a trace: {ports}')
        ace = sum(1 << port for port, letter in enumerate(ports) if letter == 'A')
        status = self._library.ace_open(self._handle, version, len(ports), ace, lines)
        if status == Status.NO_MEMORY:
            raise MemoryError
        if status != Status.FINE:
            raise ValueError(f'no ports of a trace: {ports}')

    def feed(self, given: Event) -> None:
        """Looks at the next event. Raises NotFine where it, or one before it, isn't fine."""
        if self._library.ace_feed(self._handle, given) != Status.FINE:
            raise NotFine(self.verdict())

    def feed_many(self, given: Iterable[Event]) -> None:
        """Looks at the next events in one call, which is much faster for many. Raises as `feed`.

        An array of `Event`, as `(Event * n)()`, is taken as it is; else one is made."""
        if not isinstance(given, ctypes.Array):
            events: Sequence[Event] = list(given)
            given = (Event * len(events))(*events)
        if len(given) and self._library.ace_feed_many(self._handle, given, len(given)) != len(given):
            raise NotFine(self.verdict())

    def verdict(self) -> Answer:
        """The status, and the event and the rule that it is of."""
        return self._library.ace_verdict(self._handle)

    def close(self) -> None:
        """Frees the checker, and closes it."""
        self._library.ace_close(self._handle)

    def __enter__(self) -> Checker:
        return self

    def __exit__(self, *_: object) -> None:
        self.close()

    def __del__(self) -> None:
        if hasattr(self, '_handle'):
            self.close()
