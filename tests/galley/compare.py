"""The reader of galleys against the reference in Python, on the same byte strings.

The proved reader is called through the library of crate galley_probe; the reference shares no code with it. The last line
is 'N passed, M failed'.
"""
import ctypes
import functools
import pathlib
import random
import sys

sys.path.insert(0, str(pathlib.Path(__file__).resolve().parents[1]))
import engine  # noqa: E402
import tally as counts  # noqa: E402
from choice import chosen  # noqa: E402
from reference import galley as reference  # noqa: E402
from reference.galley import record  # noqa: E402
from records import SPEC, SECOND, FOLIO, LINE, FIGURE, KEPT, TABLE, END, A, A_FROM_38, A_SECOND, A_TABLE, FIRST_VALUES  # noqa: E402
from tables import of_tables  # noqa: E402

SEED, RANDOM_GALLEYS, RANDOM_STRINGS = 20261115, 2_000, 2_000
WORDS = (0, 1, 2, 3, 999, 1_000, 1_001, 9_999, 10_000, 99_999, 100_000, 100_001, 2**31, 2**32 - 1)
MARKS = (b'GS', b'TL', b'FG', b'ED', b'SG', b'LT', b'GF', b'DE', b'gs', b'FO', b'G2', b'FK', b'TB', b'\0\0', b'\xff\xff')


@functools.cache
def reader():
    return engine.load(engine.probe())


def words(function, data, count, *number):
    out = (ctypes.c_uint32 * count)()
    held = (ctypes.c_uint8 * max(1, len(data))).from_buffer_copy(data or b'\0')
    function(held, ctypes.c_size_t(len(data)), *map(ctypes.c_size_t, number), out)
    return tuple(out)


def proved(data):
    number, place, *rest = words(reader().galley_probe_read, data, 15)
    if number:
        return ('refused', number, place)
    *spec, folio, lines, figures, tables = rest
    return ('galley', tuple(spec), folio, *(
        [words(reader().galley_probe_block, data, 5, stream, k) for k in range(1, count + 1)]
        for stream, count in enumerate((lines, figures, tables))))


def due(data):
    answer = reference.read(data)
    if answer[0] == 'refused':
        return answer
    held = answer[1]
    return ('galley', (*held.spec[:7], held.spec.edition, held.spec.lastmin or 0), held.folio,
            *([(*block[:4], block.legal) for block in blocks] for blocks in (held.lines, held.figures, held.tables)))


class Tally(counts.Tally):
    def same(self, what, data, answer=()):
        """Both readers answer alike and, where the answer is known beforehand, with that one."""
        got, wanted = proved(data), due(data)
        super().same(what, (got, got[:len(answer)]), (wanted, answer))


def case_a(tally):
    for what, data, values, folio, tables in (
            ('case A', A, FIRST_VALUES, 1, []), ('case A from folio 38', A_FROM_38, FIRST_VALUES, 38, []),
            ('case A in the second edition', A_SECOND, (30, 30, 0, 0, 1, 1, 1, 2, 20), 1, []),
            ('case A with a table', A_TABLE, FIRST_VALUES, 1, [(15, 0, 0, 1, 1)])):
        tally.same(what, data, ('galley', values, folio, 3 * [(10, 0, 0, 1, 1)], [(20, 0, 0, 1, 1)], tables))
        for at in range(len(data)):
            for byte in range(256):
                tally.same(f'{what} with byte {at} set to {byte}', data[:at] + bytes([byte]) + data[at + 1:])


def cuts(tally):
    for parts in (A, A_FROM_38, A_SECOND, SECOND + FOLIO + LINE + END, SPEC + 2 * LINE + FIGURE + KEPT + FIGURE + END, SPEC + LINE + END,
                  A_TABLE, SPEC + LINE + 2 * TABLE + END):
        for at in range(len(parts)):
            tally.same(f'cut at {at}', parts[:at], ('refused', 1))
            tally.same(f'two bytes lost at {at}', parts[:at] + parts[at + 2:])
        for more in range(1, 40):
            tally.same(f'{more} bytes more', parts + more * b'E', ('refused', 8, len(parts)))


def marks(tally):
    for parts in ([SPEC, LINE, LINE, FIGURE, FIGURE, END], [SPEC, FOLIO, LINE, KEPT, FIGURE, END], [SECOND, FOLIO, LINE, END],
                  [SPEC, LINE, FIGURE, TABLE, TABLE, END], [SPEC, LINE, TABLE, END]):
        for at in range(len(parts)):
            before = b''.join(parts[:at])
            for mark in MARKS:
                tally.same(f'mark {mark} in record {at}', before + mark + parts[at][2:] + b''.join(parts[at + 1:]))
                for size in (0, 4, 16, 28):
                    tally.same(f'mark {mark} for record {at}', before + mark + bytes(size) + b''.join(parts[at + 1:]))
            for put in (SPEC, SECOND, FOLIO, LINE, FIGURE, KEPT, TABLE, END):
                tally.same(f'one record more at {at}', before + put + b''.join(parts[at:]))
            for mark in range(0, 65_536, 251):
                tally.same(f'mark {mark} in record {at}', before + mark.to_bytes(2, 'big') + parts[at][2:])


def ranges(tally):
    for kind, before, after, fields in ((b'GS', b'', LINE + END, (30, 40, 5, 6, 1, 1, 1)),
                                        (b'G2', b'', LINE + END, (30, 40, 5, 6, 1, 1, 1, 20)),
                                        (b'FO', SPEC, LINE + END, (38,)),
                                        (b'TL', SPEC, END, (10, 5, 6, 1)),
                                        (b'FG', SPEC + 3 * LINE, END, (10, 5, 6, 2)),
                                        (b'FK', SPEC + 3 * LINE, END, (10, 5, 6, 2)),
                                        (b'TB', SPEC + 3 * LINE, END, (10, 5, 6, 2))):
        for at in range(len(fields)):
            for word in WORDS:
                changed = fields[:at] + (word,) + fields[at + 1:]
                tally.same(f'{kind} field {at} of {word}', before + record(kind, *changed) + after)
                for other in range(len(fields)):
                    for second in WORDS:
                        twice = changed[:other] + (second,) + changed[other + 1:]
                        tally.same(f'{kind} fields {twice}', before + record(kind, *twice) + after)


def citations(tally):
    for m in (1, 2, 5):
        for first in range(m + 3):
            for second in range(m + 3):
                for one, two in ((b'FG', b'FG'), (b'TB', b'TB'), (b'FG', b'TB')):
                    floats = record(one, 1, 0, 0, first) + record(two, 1, 0, 0, second)
                    tally.same(f'{m} lines, {one} cited {first}, {two} {second}', SPEC + m * LINE + floats + END)
    two = SPEC + 2 * LINE
    tally.same('6 at 0', two + record(b'FG', 1, 0, 0, 0) + END, ('refused', 6, 66))
    tally.same('6 before 7', two + record(b'FG', 1, 0, 0, 2) + record(b'FG', 1, 0, 0, 0) + END, ('refused', 6, 84))
    tally.same('7', two + record(b'FG', 1, 0, 0, 2) + record(b'FG', 1, 0, 0, 1) + END, ('refused', 7, 84))
    tally.same('3 before 6', two + record(b'FG', 100_001, 0, 0, 9) + END, ('refused', 3, 66))


def folios(tally):
    tally.same('from folio 9,999', SPEC + record(b'FO', 9_999) + LINE + END, ('galley', FIRST_VALUES, 9_999))
    tally.same('folio 0', SPEC + record(b'FO', 0) + LINE + END, ('refused', 3, 30))
    tally.same('folio 10,000', SPEC + record(b'FO', 10_000) + LINE + END, ('refused', 3, 30))
    tally.same('a folio cut short', SPEC + FOLIO[:5], ('refused', 1, 30))
    tally.same('a folio first', FOLIO + SPEC + LINE + END, ('refused', 2, 0))
    tally.same('a second folio', SPEC + 2 * FOLIO + LINE + END, ('refused', 2, 36))
    tally.same('a folio after a line', SPEC + LINE + FOLIO + END, ('refused', 2, 48))
    tally.same('a folio after 4,000 lines', SPEC + 4_000 * LINE + FOLIO + END, ('refused', 2, 72_030))
    tally.same('a folio after a figure', SPEC + LINE + FIGURE + FOLIO + END, ('refused', 2, 66))
    tally.same('no line after a folio', SPEC + FOLIO + END, ('refused', 5, 36))
    tally.same('a figure straight after a folio', SPEC + FOLIO + FIGURE + END, ('refused', 5, 36))
    tally.same('6 after a folio', SPEC + FOLIO + LINE + record(b'FG', 1, 0, 0, 2) + END, ('refused', 6, 54))
    tally.same('4,001 lines after a folio', SPEC + FOLIO + 4_001 * LINE + END, ('refused', 4, 72_036))


def kept(tally):
    held = [(20, 0, 0, 1, legal) for legal in (0, 1, 0)]
    tally.same('kept, not kept, kept last', SPEC + LINE + KEPT + FIGURE + KEPT + END, ('galley', FIRST_VALUES, 1, [(10, 0, 0, 1, 1)], held))
    for n in range(1, 201, 33):
        data = SPEC + LINE + n * KEPT + (200 - n) * FIGURE
        tally.same(f'{n} kept of 200', data + END, ('galley',))
        for mark in (b'FG', b'FK'):
            tally.same(f'{n} kept, and a mark {mark} for figure 201', data + mark, ('refused', 4, 3_648))
    tally.same('a kept figure before any line', SPEC + KEPT + END, ('refused', 5, 30))
    tally.same('a line after a kept figure', SPEC + LINE + KEPT + LINE + END, ('refused', 2, 66))
    tally.same('a kept figure cut short', SPEC + LINE + KEPT[:17], ('refused', 1, 48))
    tally.same('a kept figure out of range', SPEC + LINE + record(b'FK', 0, 2, 1, 1) + END, ('refused', 3, 48))
    tally.same('a kept figure cited by no line', SPEC + LINE + record(b'FK', 1, 0, 0, 2) + END, ('refused', 6, 48))
    for first, second in ((b'FG', b'FK'), (b'FK', b'FG'), (b'FK', b'FK')):
        figures = record(first, 1, 0, 0, 2) + record(second, 1, 0, 0, 1)
        tally.same(f'{second} cited before {first}', SPEC + 2 * LINE + figures + END, ('refused', 7, 84))


def editions(tally):
    for high, last in ((1, 0), (1, 1), (40, 30), (40, 40), (100_000, 100_000)):
        values = (0, high, 0, 0, 1, 1, 1, 2, last)
        tally.same(f'lastMin {last} of htMax {high}', record(b'G2', *values[:7], last) + LINE + END, ('galley', values, 1))
        tally.same(f'lastMin above htMax {high}', record(b'G2', *values[:7], high + 1) + LINE + END, ('refused', 3, 0))
    tally.same('a second specification, first GS', SPEC + SECOND + LINE + END, ('refused', 2, 30))
    tally.same('a second specification, first G2', SECOND + SPEC + LINE + END, ('refused', 2, 34))
    tally.same('G2 twice', 2 * SECOND + LINE + END, ('refused', 2, 34))
    tally.same('G2 cut short', SECOND[:33], ('refused', 1, 0))
    tally.same('G2 with the fields of GS', b'G2' + SPEC[2:], ('refused', 1, 0))
    tally.same('G2 after a line', SPEC + LINE + SECOND + END, ('refused', 2, 48))
    tally.same('no line after G2', SECOND + END, ('refused', 5, 34))
    tally.same('a folio after G2', SECOND + FOLIO + LINE + END, ('galley', (30, 30, 0, 0, 1, 1, 1, 2, 20), 38))
    tally.same('a folio out of range after G2', SECOND + record(b'FO', 0) + LINE + END, ('refused', 3, 34))
    tally.same('6 after G2 and a folio', SECOND + FOLIO + LINE + record(b'FG', 1, 0, 0, 2) + END, ('refused', 6, 58))
    tally.same('4,001 lines after G2', SECOND + 4_001 * LINE + END, ('refused', 4, 72_034))


def limits(tally):
    full = SPEC + 4_000 * LINE
    tally.same('4,000 lines', full + END, ('galley',))
    tally.same('4,001 lines', full + LINE + END, ('refused', 4, 72_030))
    tally.same('a mark for line 4,001', full + b'TL', ('refused', 4, 72_030))
    tally.same('200 figures', SPEC + LINE + 200 * FIGURE + END, ('galley',))
    tally.same('201 figures', SPEC + LINE + 201 * FIGURE + END, ('refused', 4, 3_648))
    tally.same('a mark for figure 201', SPEC + LINE + 200 * FIGURE + b'FG', ('refused', 4, 3_648))
    tally.same('4,000 lines and 200 figures', full + 200 * FIGURE + END, ('galley',))
    tally.same('line 4,001 after a figure', full + FIGURE + LINE + END, ('refused', 2, 72_048))
    tally.same('no line', SPEC + END, ('refused', 5, 30))
    tally.same('a figure before any line', SPEC + FIGURE + END, ('refused', 5, 30))
    tally.same('no bytes', b'', ('refused', 1, 0))
    tally.same('one byte', b'G', ('refused', 1, 0))


def chance(tally):
    draw = random.Random(SEED)
    for _ in range(RANDOM_GALLEYS):
        lines, figures, others = draw.randrange(6), draw.randrange(4), draw.choice((0, 0, 1, 2, 3))
        data = bytearray(
            draw.choice((b'GS', b'G2')) + record(b'', draw.randrange(40), draw.randrange(60), draw.randrange(3), draw.randrange(4),
                                                 draw.randrange(1, 3), draw.randrange(1_002), draw.randrange(1_002))
            + draw.choice((b'', record(b'', draw.randrange(60))))
            + draw.choice((b'', record(b'FO', draw.randrange(10_010))))
            + b''.join(record(b'TL', draw.randrange(100_001), draw.randrange(5), draw.randrange(3, 9), draw.randrange(2))
                       for _ in range(lines))
            + b''.join(record(draw.choice((b'FG', b'FK')), draw.randrange(100_001), 0, draw.randrange(9), cite)
                       for cite in sorted(draw.randrange(1, 7) for _ in range(figures)))
            + b''.join(record(b'TB', draw.randrange(100_001), 0, draw.randrange(9), cite)
                       for cite in sorted(draw.randrange(1, 7) for _ in range(others)))
            + END)
        for _ in range(draw.randrange(3)):
            data[draw.randrange(len(data))] = draw.choice(b'\0\1GSTLFGEDFOK2B\xff')
        tally.same('a random galley', bytes(data))
    for _ in range(RANDOM_STRINGS):
        tally.same('a random string', bytes(draw.choice(b'\0\1GSTLFGEDFOK2B') for _ in range(draw.randrange(80))))


CASES = {group.__name__: group for group in (case_a, cuts, marks, ranges, citations, folios, kept, of_tables, editions, limits, chance)}


def main():
    tally = Tally()
    for name, group in chosen(CASES).items():
        group(tally)
        tally.group(name)
    return tally.end()


if __name__ == '__main__':
    sys.exit(main())
