"""The plain Rust of bench/native, which the engine is measured against: its searches against the reference, and
against each other on galleys that the reference takes too long for, and after openings. The last line is 'N passed, M failed'."""
import pathlib
import random
import subprocess
import sys

sys.path.insert(0, str(pathlib.Path(__file__).resolve().parents[1]))
import check  # noqa: E402
import engine  # noqa: E402
from reference import cases, galley, sample, search  # noqa: E402
from choice import chosen  # noqa: E402
from tally import Tally  # noqa: E402

STANDIN = engine.ROOT / 'tests' / 'host' / 'standin'
SEED = 20261118
SEARCHES = ('barleychime', 'limited', 'ahead', 'plain')
PARTS = ('beaten', 'dead', 'leaves', 'alone', 'waits', 'schedule')


def build():
    """The stand-in for the engine's archive, and its makings by name: by queues, by the plain search, within a limit, with all that is
    known of what is still to come, and with each part of that alone."""
    command = ['cargo', 'build', '--release', '--offline', '--quiet', '--manifest-path', STANDIN / 'Cargo.toml']
    subprocess.run(command, check=True)
    library = engine.load(STANDIN / 'target' / 'release' / 'libbarleychime.a')
    return {name: engine.Engine(library, f'{name}_make') for name in SEARCHES + PARTS}


def known():
    """Galleys with their best list."""
    yield from ((name, g, words) for name, g, words, _ in cases.MADE)
    yield from ((f'galley {k}', g, search.best(g)) for k, g in enumerate(sample.galleys(SEED, 1_000, 5, 3)))
    yield from ((f'galley {k} with tables', g, search.best(g)) for k, g in enumerate(sample.galleys(SEED + 5, 600, 3, 2, 2)))
    yield from check.fine(500, 150)
    yield from check.long(20, 8)


def unknown():
    """Galleys of few and of many lines, most of small height."""
    yield from sample.galleys(SEED + 1, 1_000, 30, 8)
    yield from sample.fine_galleys(SEED + 2, 3_000, 8, 40, 6)
    yield from sample.fine_galleys(SEED + 3, 20, 300, 1_000, 20, highest=400)
    yield from sample.fine_galleys(SEED + 4, 2, 4_000, 4_000, 6, highest=100)
    yield from sample.galleys(SEED + 6, 600, 30, 6, 6)
    yield from sample.fine_galleys(SEED + 7, 1_500, 8, 30, 5, 5)
    yield from sample.fine_galleys(SEED + 8, 6, 200, 500, 8, 10, highest=200)


def main():
    asked = chosen(dict.fromkeys(('known', 'unknown', 'largest')))
    makings = build()
    rng = random.Random()
    tally = Tally()

    def compare(name, g, searches, *expected):
        data = galley.write(g)
        work, pages = (tuple(rng.choices((0, 1, 2, engine.HIGHEST), k=length + 3)) for length in engine.lengths(g))
        first, *others = [makings[search].make(data, work, pages) for search in searches]
        others += [check.due(g, best, work, pages) for best in expected]
        tally.same(name, [first] * len(others), others)
        opening = begun(g, first)
        first, *others = [makings[search].make_after(data, opening, work, pages) for search in searches]
        tally.same(f'{name} after {opening}', [first] * len(others), others)

    def begun(g, made):
        """Some first pages of a list that was made, the last of them now and then with a line more or less."""
        (told, *counts), pages, width = made[0], made[-1], len(g.streams)
        if told != 'accepted':
            return g.sizes
        opening = list(pages[:width * rng.randint(1, counts[0])])
        opening[-width] += rng.choice((0, 0, 1, -1)) if 0 < opening[-width] else 0
        return tuple(opening)

    rng.seed(f'{SEED} known')
    for name, g, best in known() if 'known' in asked else ():
        compare(name, g, SEARCHES + PARTS, best)
    rng.seed(f'{SEED} unknown')
    for number, g in enumerate(unknown() if 'unknown' in asked else ()):
        compare(f'galley {number} of unknown best list', g, SEARCHES + PARTS if number % 4 == 0 else SEARCHES)
    # The plain search would take minutes.
    for search in SEARCHES[:-1] if 'largest' in asked else ():
        tally.same(f'{search}: the largest galley of height 0', check.largest(makings[search].make, cases.LONGEST), True)
        tally.same(f'{search}: a large galley of height 0 with tables', check.largest(makings[search].make, cases.LARGE_TABLES), True)
    return tally.end()


if __name__ == '__main__':
    sys.exit(main())
