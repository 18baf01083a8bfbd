"""The proved report, compiled, against sums in Python: no papers up to one too many, numbers up to the highest of 32 bits,
a paper below its engine at the first, at the last and at any place. The last line is 'N passed, M failed'."""
import pathlib
import random
import sys
import time

sys.path.insert(0, str(pathlib.Path(__file__).resolve().parents[1]))
import engine  # noqa: E402
from reference import report  # noqa: E402
from choice import chosen  # noqa: E402
from tally import Tally  # noqa: E402

SEED = 20261115
BEYOND = (7, 8, 9)  # words after the lent ones, to see that they stay
SIZES = [*range(12), 100, 1_000, 9_998, 9_999, 10_000, 10_001, 10_002, 20_000]


def mark(rng, most):
    """A mark with numbers up to `most`, no fewer turns than the engine's."""
    engines, turns = sorted((rng.randint(0, most), rng.randint(0, most)))
    return (rng.randint(0, most), rng.randint(0, most), rng.randint(0, most), turns, engines)


def below(rng, most):
    """One with fewer."""
    engines = rng.randint(1, most)
    return (*mark(rng, most)[:3], rng.randint(0, engines - 1), engines)


def extremes():
    """Name and marks: all fields the highest, all the lowest, and each of T and E at either end, up to the last that fits."""
    for papers in (1, 2, 9_999, 10_000, 10_001):
        yield f'{papers} highest', [(engine.HIGHEST,) * 5] * papers
        yield f'{papers} highest, engine 0', [(engine.HIGHEST,) * 4 + (0,)] * papers
        yield f'{papers} lowest', [(0,) * 5] * papers
        yield f'{papers} below by all', [(engine.HIGHEST,) * 3 + (0, engine.HIGHEST)] * papers
    for at in (0, 4_999, 9_999):
        marks = [(1, 2, 3, 4, 4)] * 10_000
        yield f'greatest at {at + 1}', [*marks[:at], (1, 2, 3, engine.HIGHEST, 0), *marks[at + 1:]]
        yield f'least at {at + 1}', [*marks[:at], (1, 2, 3, 0, 0), *marks[at + 1:]]
        yield f'below at {at + 1}', [*marks[:at], (1, 2, 3, 3, 4), *marks[at + 1:]]
    yield 'too many, and below at the first', [(1, 2, 3, 3, 4)] + [(1, 2, 3, 4, 4)] * 10_000
    yield 'too many, and below at the last', [(1, 2, 3, 4, 4)] * 10_000 + [(1, 2, 3, 3, 4)]
    yield 'as many as fit, and below at the last', [(1, 2, 3, 4, 4)] * 9_999 + [(1, 2, 3, 3, 4)]


def random_marks(rng):
    """Name and marks, of every size and of any size; some with papers below their engine, the first and the last among them."""
    for size in SIZES + [rng.randint(0, 300) for _ in range(400)] + [rng.randint(0, 10_001) for _ in range(40)]:
        most = rng.choice((1, 5, 1_000, engine.HIGHEST))
        marks = [mark(rng, most) for _ in range(size)]
        yield f'{size} up to {most}', marks
        for at in {0, size - 1, *(rng.randrange(size) for _ in range(rng.randint(0, 3)))} if size else ():
            yield f'{size} up to {most}, below at {at + 1}', [*marks[:at], below(rng, most), *marks[at + 1:]]


CASES = {'extremes': lambda _: [('none', []), *extremes()], 'random': random_marks}


def main():
    cases = chosen(CASES)
    called = engine.Engine(engine.load(engine.archive()))
    tally, began = Tally(), time.time()
    for drawn in cases.values():
        rng = random.Random(SEED)
        for name, marks in drawn(rng):
            due = report.words(marks)
            held = [rng.randrange(2**64) for _ in range(report.WORDS)]
            tally.same(name, called.report(marks, [*held, *BEYOND]), (due[0], (*due, *BEYOND)))
            tally.kind(due[0])
    print(f'reports by number: {dict(sorted(tally.kinds.items()))}, in {time.time() - began:.0f} s')
    if cases == CASES:
        tally.enough([0, 31, 32], 10)
    return tally.end()


if __name__ == '__main__':
    sys.exit(main())
