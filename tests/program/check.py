"""The program of document 01 against the reference: what it prints for galleys of every kind (counted), its limits, its refusals.
BARLEYCHIME_PROGRAM names another program than the proved one. The last line is 'N passed, M failed'."""
import os
import pathlib
import random
import subprocess
import sys

ROOT = pathlib.Path(__file__).resolve().parents[2]
sys.path.insert(0, str(ROOT / 'tests'))
import engine  # noqa: E402
import kinds  # noqa: E402
from reference import cases, galley, marking, sample, search  # noqa: E402
from choice import chosen  # noqa: E402
from tally import Tally  # noqa: E402

PROGRAM = os.environ.get('BARLEYCHIME_PROGRAM') or ROOT / 'crates/paginate/out/paginate'
SEED = 20261117
WORK, LIST, INPUT = 10_248, 400, 8_192


def due(data, tally):
    """What the program owes for its input; the kinds of its galley and of its list are counted."""
    if len(data) > INPUT:
        return f'R 19 {INPUT}\n'
    read = galley.read(data)
    if read[0] == 'refused':
        return f'R {read[1]} {read[2]}\n'
    g = read[1]
    for number, lent, needed in zip((9, 10), (WORK, LIST), engine.lengths(g)):
        if lent < needed:
            return f'R {number} {needed}\n'
    best = search.best_by_table(g)
    tally.kind(*kinds.of_galley(g), *(kinds.of_list(g, best) if best else ()))
    if best is None:
        return 'R 11 0\n'
    rows = [marking.mark(g, best)[1:], *((q, *end) for q, end in enumerate(marking.places(g, best), 1))]
    return ''.join(' '.join(map(str, row)) + '\n' for row in rows)


def known():
    yield from (galley.write(g) for _, g, _, _ in cases.MADE if len(g.lines) < 50)


def drawn():
    yield from (galley.write(g) for g in sample.galleys(SEED, 60, 40, 8))
    yield from (galley.write(g) for g in [*sample.galleys(SEED + 2, 60, 20, 4, 4), *sample.left_galleys(SEED + 3, 20, 2)])


def broken():
    rng = random.Random(SEED)
    yield from (sample.broken(rng, galley.write(g)) for g in [*sample.galleys(SEED + 1, 40, 5, 3), *sample.galleys(SEED + 4, 20, 4, 2, 2)])


def at_the_limits():
    """Work areas and page lists at both sides of what the program lends, and input at both sides of what it takes."""
    for lines, figures in ((126, 7), (127, 7), (128, 7), (199, 1), (200, 0), (201, 0), (47, 20), (48, 20)):
        yield galley.write(cases.plain(cases.A.spec._replace(htmin=0), lines * (1,), figures * [(1, 1)]))
    # With tables: lists of 399 words and of 402, some with a page for each block; work areas of 10,240 words and of 10,260 or more.
    for lines, figures, tables in ((131, 1, 1), (132, 1, 1), (132, 0, 1), (101, 4, 1), (113, 2, 2), (63, 3, 3), (64, 3, 3)):
        for page in (1, 30):
            spec = cases.A.spec._replace(htmin=0, htmax=page)
            yield galley.write(cases.plain(spec, lines * (1,), figures * [(1, 1)], tables * [(1, lines)]))
    yield from (bytes(length) for length in (0, 1, 2, INPUT - 1, INPUT, INPUT + 1, 5 * INPUT))


CASES = {inputs.__name__: inputs for inputs in (known, drawn, broken, at_the_limits)}


def main():
    asked, tally = chosen(CASES), Tally()
    for data in (data for inputs in asked.values() for data in inputs()):
        printed = subprocess.run([PROGRAM], input=data, capture_output=True).stdout.decode()
        tally.same(f'{len(data)} bytes', printed, due(data, tally))
    if asked == CASES:
        tally.enough((*kinds.OF_GALLEYS, *kinds.OF_LISTS), 1)
    return tally.end()


if __name__ == '__main__':
    sys.exit(main())
