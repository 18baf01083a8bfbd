"""The figures and the tables that wait at a place, against the reference in Python, at every place of random galleys.

The proved walk is called through the library of crate galley_probe, from float j + 1 on and going on from what it found for an
earlier line. The last line is 'N passed, M failed'.
"""
import ctypes
import functools
import pathlib
import random
import sys

sys.path.insert(0, str(pathlib.Path(__file__).resolve().parents[1]))
import engine  # noqa: E402
import tally as counts  # noqa: E402
from choice import chosen  # noqa: E402
from reference import galley as reference  # noqa: E402
from reference import marking  # noqa: E402

SEED, RANDOM_GALLEYS = 20261115, 300
FIGURES, TABLES = 1, 2  # the streams by their numbers


@functools.cache
def probe():
    waiting = engine.load(engine.probe()).galley_probe_waiting
    waiting.argtypes, waiting.restype = (ctypes.c_char_p, *(engine.LENGTH,) * 5), engine.WORD
    return waiting


def found(data, stream, earlier, i, j):
    return probe()(data, len(data), stream, earlier, i, j)


def galley_of(lines, cites, table_cites=()):
    return reference.Galley(reference.Spec(0, 10, 0, 0, 1, 1, 1), reference.streams_of(
        [reference.Line(1, 0, 0, 1)] * lines, [reference.Figure(1, 0, 0, cite) for cite in cites],
        [reference.Table(1, 0, 0, cite) for cite in table_cites]))


def due_at(galley, stream, i, j):
    """How many floats of a stream wait with i lines and j of them placed, however many of the other stream are."""
    placed = [i, 0, 0]
    placed[stream] = j
    return len(marking.waiting(galley, placed)[stream - 1]) if stream < len(galley.streams) else 0


def every_place(tally, what, galley):
    """All i and j, and two of each beyond the last; from every earlier line, and from a later one, which tells nothing."""
    data = reference.write(galley)
    lines = len(galley.lines)
    for stream, floats in ((FIGURES, galley.figures), (TABLES, galley.tables)):
        for i in range(lines + 3):
            for j in range(len(floats) + 3):
                due = due_at(galley, stream, i, j)
                tally.kind(f'{"some" if due else "none"} of stream {stream}')
                for earlier in (*range(i + 1), lines + 5):
                    tally.same(f'{what}: stream {stream}, line {i}, {j} placed, from line {earlier}',
                               found(data, stream, earlier, i, j), due)


def chance(tally):
    draw = random.Random(SEED)
    for number in range(RANDOM_GALLEYS):
        lines = draw.randrange(1, 10)
        cites, table_cites = (sorted(draw.randrange(1, lines + 1) for _ in range(draw.randrange(most))) for most in (9, 6))
        every_place(tally, f'random galley {number}', galley_of(lines, cites, table_cites))
    tally.enough([f'{some} of stream {stream}' for some in ('some', 'none') for stream in (FIGURES, TABLES)], 1_000)


def corners(tally):
    every_place(tally, 'no figure', galley_of(3, ()))
    every_place(tally, 'all cited by line 1', galley_of(4, (1,) * 6))
    every_place(tally, 'all cited by the last line', galley_of(4, (4,) * 6, (4,) * 3))
    every_place(tally, 'figures by the last line, tables by the first', galley_of(4, (4,) * 3, (1,) * 4))
    longest = galley_of(4_000, range(20, 4_001, 20), range(80, 4_001, 80))
    data = reference.write(longest)
    for i in range(0, 4_001, 7):
        for stream, placed in ((FIGURES, (0, 1, 99, 199, 200)), (TABLES, (0, 1, 25, 49, 50))):
            for j in placed:
                due = due_at(longest, stream, i, j)
                tally.same(f'4,000 lines: stream {stream}, line {i}, {j} placed', found(data, stream, i // 2, i, j), due)


def refused(tally):
    data = reference.write(galley_of(4, (1, 2, 3), (2, 3)))
    for stream in (FIGURES, TABLES):
        for cut in range(len(data)):
            tally.same(f'stream {stream}, cut at {cut}', found(data[:cut], stream, 0, 4, 0), 0)
        for what, cites in (('figures', ((3, 2), (1, 1))), ('tables', ((1, 1), (3, 2)))):
            tally.same(f'stream {stream}, {what} whose citations decrease', found(reference.write(galley_of(4, *cites)), stream, 0, 4, 0), 0)


CASES = {group.__name__: group for group in (chance, corners, refused)}


def main():
    tally = counts.Tally()
    for name, group in chosen(CASES).items():
        group(tally)
        tally.group(name)
    return tally.end()


if __name__ == '__main__':
    sys.exit(main())
