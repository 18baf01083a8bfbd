"""The proved marking, compiled, against the reference in Python: document 01's cases, and random galleys with lists of
every kind, counted, so that a kind that is missing fails. The last line is 'N passed, M failed'."""
import pathlib
import random
import sys
import time

sys.path.insert(0, str(pathlib.Path(__file__).resolve().parents[1]))
import engine  # noqa: E402
import kinds  # noqa: E402
from reference import cases, galley, marking, sample, search  # noqa: E402
from choice import chosen  # noqa: E402
from tally import Tally  # noqa: E402

GALLEYS, TABLED, SEED = 2_400, 1_600, 20261115


def lists_for(rng, g):
    """At least a dozen lists: valid ones if there are any, the best among them, lists that never fall, slips, lists cut short,
    and any words."""
    every = list(search.every(g))
    valid = [search.first(g, every), *rng.sample(every, min(2, len(every)))] if every else []
    rising = [sample.page_list(rng, g) for _ in range(4)]
    slipped = [sample.mutated(rng, g, rng.choice(valid + rising)) for _ in range(5)]
    cut = [words[:-len(g.streams)] for words in valid[:1] + rising[:1]]
    highest = engine.HIGHEST
    any_words = [tuple(rng.choice((0, 1, 2, 3, highest, rng.randint(0, highest))) for _ in range(rng.randint(0, 8)))]
    return valid + rising + slipped + cut + any_words + [(highest,) * rng.choice((2, 4) if len(g.streams) == 2 else (2, 3, 6))]


def known(tally, mark):
    for name, g, words, expected in cases.MARKED + cases.MARKED_LONG:
        tally.same(name, mark(galley.write(g), words), expected)


def drawn(tally, mark):
    """Random galleys, each with lists of every kind, and broken."""
    rng = random.Random(SEED)
    for number, g in enumerate([*sample.galleys(SEED, GALLEYS, 5, 3), *sample.galleys(SEED + 1, TABLED, 3, 2, 2),
                                *sample.left_galleys(SEED + 2, 100, 2)]):
        data = galley.write(g)
        tally.kind(*kinds.of_galley(g))
        for words in lists_for(rng, g):
            expected = marking.mark(g, words)
            if expected[0] == 'refused':
                tally.kind(expected[1], *kinds.of_refusal(g, words, *expected[1:]))
            else:
                tally.kind(f'sides {g.spec.sides}', *kinds.of_list(g, words))
            tally.same(f'galley {number}, {words}', mark(data, words), expected)
        broken = sample.broken(rng, data)
        read = galley.read(broken)
        if read[0] == 'refused':
            tally.same(f'galley {number}, broken', mark(broken, (1, 0)), read)
    tally.enough([*range(12, 19), 'sides 1', 'sides 2', *kinds.OF_GALLEYS, *kinds.OF_LISTS, *kinds.OF_REFUSALS], 20)


CASES = {case.__name__: case for case in (known, drawn)}


def main():
    asked, tally = chosen(CASES), Tally()
    mark = engine.Engine(engine.load(engine.archive())).mark
    for case in asked.values():
        case(tally, mark)
    for what, g, words in (('4,200 pages, 4,000 lines, 200 figures', cases.LONGEST, cases.ONE_A_PAGE),
                           ('4,250 pages, 50 tables more', cases.LONGEST_TABLES, cases.TABLES_ONE_A_PAGE)):
        data = galley.write(g)
        began = time.perf_counter()
        mark(data, words)
        print(f'{what}: {time.perf_counter() - began:.4f} s')
    print('lists by answer:', dict(sorted(tally.kinds.items(), key=str)))
    return tally.end()


if __name__ == '__main__':
    sys.exit(main())
