"""The galley file: what a galley holds, how it is written, and which byte strings are turned away (documents 01 and 02)."""

import struct
from dataclasses import dataclass
from typing import Callable, NamedTuple, Optional

LONGEST = 100_000  # any length, in hundredths of a point
HEAVIEST = 1_000  # either weight
HIGHEST_FOLIO = 9_999  # of a first page


class Spec(NamedTuple):
    htmin: int
    htmax: int
    smin: int
    smax: int
    sides: int
    alpha: int
    beta: int
    lastmin: Optional[int] = None  # of the second edition alone

    @property
    def edition(self):
        return 1 if self.lastmin is None else 2

    @property
    def mark(self):
        return (b'GS', b'G2')[self.edition - 1]

    def floor(self, last):
        """What rule 16 asks of a page; of the last one nothing in the first edition."""
        return (self.lastmin or 0) if last else self.htmin


class Folio(NamedTuple):
    first: int  # the folio of the galley's first page


class Line(NamedTuple):
    height: int
    least: int  # the space after it
    most: int
    legal: int  # 1 if a page may end in that space

    @property
    def mark(self):
        return b'TL'


class Figure(NamedTuple):
    height: int
    least: int
    most: int
    cite: int  # the citing line, counted from 1
    kept: int = 0  # 1 if it is kept with the next one

    @property
    def mark(self):
        return b'FK' if self.kept else b'FG'

    @property
    def legal(self):
        return 1 - self.kept


class Table(NamedTuple):
    height: int
    least: int
    most: int
    cite: int

    @property
    def mark(self):
        return b'TB'

    @property
    def legal(self):
        return 1


class Kind(NamedTuple):
    """What a mark opens: so many fields, and the record that they make."""
    fields: int
    record: Callable


KINDS = {b'GS': Kind(7, Spec), b'G2': Kind(8, Spec), b'FO': Kind(1, Folio), b'TL': Kind(4, Line), b'FG': Kind(4, Figure),
         b'FK': Kind(4, lambda *fields: Figure(*fields, kept=1)), b'TB': Kind(4, Table)}
SPECS = (b'GS', b'G2')  # either edition


class Stream(NamedTuple):
    marks: tuple
    most: int  # of its blocks in a galley


# In the order in which they follow one another in a file; the first is the text, the others are cited by its lines.
STREAMS = (Stream((b'TL',), 4_000), Stream((b'FG', b'FK'), 200), Stream((b'TB',), 50))
LEAST_STREAMS = 2  # lines and figures count even where there is no figure; tables only where there are some


def streams_of(*streams):
    """The streams of a galley, without tables where there are none: so many words a page has."""
    return tuple(map(tuple, streams[:LEAST_STREAMS] + tuple(filter(None, streams[LEAST_STREAMS:]))))


@dataclass(frozen=True)
class Galley:
    spec: Spec
    streams: tuple  # of blocks: lines, figures and, where there are any, tables
    stated: Optional[int] = None  # the first folio as `FO` states it, None without the record

    @property
    def folio(self):
        """The folio of page 1."""
        return 1 if self.stated is None else self.stated

    @property
    def first(self):
        """Where line 1 begins."""
        return len(opening(self))

    @property
    def lines(self):
        return self.streams[0]

    @property
    def floats(self):
        return self.streams[1:]

    @property
    def figures(self):
        return self.streams[1]

    @property
    def tables(self):
        return self.streams[2] if len(self.streams) > 2 else ()

    @property
    def sizes(self):
        """The place at which everything is placed."""
        return tuple(map(len, self.streams))

    @property
    def nothing(self):
        """The place at which nothing is."""
        return (0,) * len(self.streams)


def read(data):
    """('galley', Galley), or ('refused', number, place) with the first of 1 to 8 in document 01's order of tests."""
    alone, streams, at = [], [[] for _ in STREAMS], 0
    while True:
        mark = data[at:at + 2]
        fault = mark_fault(mark, alone, streams)
        if fault:
            return ('refused', fault, at)
        if mark == b'ED':
            break
        kind, number = KINDS[mark], stream_of(mark)
        after = at + 2 + 4 * kind.fields
        if after > len(data):
            return ('refused', 1, at)
        record = kind.record(*struct.unpack(f'>{kind.fields}I', data[at + 2:after]))
        fault = record_fault(record, number, streams)
        if fault:
            return ('refused', fault, at)
        (alone if number is None else streams[number]).append(record)
        at = after
    if at + 2 < len(data):
        return ('refused', 8, at + 2)
    spec, *folio = alone
    return ('galley', Galley(spec, streams_of(*streams), folio[0].first if folio else None))


def stream_of(mark):
    """The number of the stream that a record belongs to; None for those that stand alone, before all streams."""
    return next((number for number, stream in enumerate(STREAMS) if mark in stream.marks), None)


def mark_fault(mark, alone, streams):
    """Why this mark cannot stand after what was read so far: 1, 2, 5 or 4, tested in that order; None if it can."""
    if len(mark) < 2:
        return 1
    # The specification opens the file and stands nowhere else.
    if (mark in SPECS) != (not alone) or mark not in (*KINDS, b'ED'):
        return 2
    if mark in SPECS:
        return None
    # A folio stands straight after it and nowhere else.
    if mark == b'FO':
        return 2 if len(alone) > 1 or any(streams) else None
    number = len(STREAMS) if mark == b'ED' else stream_of(mark)
    if any(streams[number + 1:]):
        return 2
    if number > 0 and not streams[0]:
        return 5
    if mark != b'ED' and len(streams[number]) == STREAMS[number].most:
        return 4
    return None


def record_fault(record, number, streams):
    """Why these fields are turned away: 3, then 6, then 7; None if they are not. What stands alone has no stream's number."""
    if number is None:
        return None if alone_in_range(record) else 3
    if not (record.height <= LONGEST and record.least <= record.most <= LONGEST):
        return 3
    if number == 0:
        return None if record.legal in (0, 1) else 3
    # All lines precede the first float, so their number is final here.
    if not 1 <= record.cite <= len(streams[0]):
        return 6
    if streams[number] and record.cite < streams[number][-1].cite:
        return 7
    return None


def alone_in_range(record):
    return 1 <= record.first <= HIGHEST_FOLIO if isinstance(record, Folio) else spec_in_range(record)


def spec_in_range(spec):
    return (1 <= spec.htmax <= LONGEST and spec.htmin <= spec.htmax
            and spec.smin <= spec.smax <= LONGEST and spec.sides in (1, 2)
            and spec.alpha <= HEAVIEST and spec.beta <= HEAVIEST
            and (spec.edition == 1 or spec.lastmin <= spec.htmax))


def write(galley):
    """The bytes of a galley. Ranges are not tested, so that refused files can be written too."""
    return opening(galley) + b''.join(record(block.mark, *block[:4]) for held in galley.streams for block in held) + b'ED'


def opening(galley):
    """The bytes before line 1."""
    fields = galley.spec[:KINDS[galley.spec.mark].fields]
    return record(galley.spec.mark, *fields) + (b'' if galley.stated is None else record(b'FO', galley.stated))


def record(mark, *fields):
    """The bytes of one record."""
    return mark + struct.pack(f'>{len(fields)}I', *fields)
