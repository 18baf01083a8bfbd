"""The archive through its C interface: every answer against the reference, and every word of lent memory afterwards."""

import random

import engine
from reference import beforehand, book, cases, marking, refusals, sample, search
from reference.galley import write

BEYOND = 5  # words lent past what is needed, to see that they stay


def litter(rng, words):
    return tuple(rng.randrange(2**32) for _ in range(words))


def made_right(tally, make, rng, what, galley, best):
    """Making answers the best list or 11, counts what it weighs and leaves just what document 01 says, whatever the memory held."""
    data, (work_words, list_words) = write(galley), engine.lengths(galley)
    answer, weighed = best and marking.mark(galley, best), beforehand.weighed_by_runs(galley)
    work, pages = litter(rng, work_words + BEYOND), litter(rng, list_words + BEYOND)
    ways = [('making', work, pages), ('exact lengths for', work[:work_words], pages[:list_words]),
            ('work a word short for', work[1:work_words], pages[1:list_words]),
            ('list a word short for', work[:work_words], pages[1:list_words])]
    for way, lent_work, lent_pages in ways:
        tally.same(f'{way} {what}', make(data, lent_work, lent_pages), engine.made(galley, best, answer, weighed, lent_work, lent_pages))


def made_after(tally, make_after, rng, what, galley, opening, best, told):
    """Making after an opening, with the list and its numbers or the refusal that is due."""
    fault = None if best or told[0] == 11 else told
    weighed = beforehand.weighed(galley, opening) if fault is None else 0
    work, pages = (litter(rng, words + BEYOND) for words in engine.lengths(galley))
    due = engine.made(galley, best, best and ('accepted', *told), weighed, work, pages, fault)
    tally.same(f'making {what}', make_after(write(galley), opening, work, pages), due)


def run(tally, library):
    called = engine.Engine(engine.load(library))
    rng = random.Random(1)
    for name, galley, best, _ in cases.MADE:
        made_right(tally, called.make, rng, name, galley, best)
        tally.same(f'forecast of {name}', called.forecast(write(galley)), beforehand.forecast(('galley', galley)))
    for name, galley, words, due in cases.MARKED + cases.MARKED_LONG:
        tally.same(f'marking {name}', called.mark(write(galley), words), due)
    for name, galley, opening, best, told in cases.AFTER:
        made_after(tally, called.make_after, rng, name, galley, opening, best, told)
    for name, chapters, choice, _ in cases.BOUND:
        data = [write(chapter) for chapter in chapters]
        work, pages = (litter(rng, words + BEYOND) for words in book.lengths(chapters))
        due = engine.made_book(chapters, choice, sum(map(beforehand.weighed, chapters)), work, pages)
        tally.same(f'making {name}', called.book(b''.join(data), [len(chapter) for chapter in data], work, pages), due)
    tally.group('archive: cases')
    for name, data, number, place in refusals.files():
        due = ('refused', number, place)
        tally.same(f'marking {name}', called.mark(data, (1, 1)), due)
        work, pages = litter(rng, 64), litter(rng, 8)
        tally.same(f'making {name}', called.make(data, work, pages), (due, 0, work, pages))
        tally.same(f'making {name} after an opening', called.make_after(data, litter(rng, 3), work, pages), (due, 0, work, pages))
        tally.same(f'forecast of {name}', called.forecast(data), beforehand.forecast(due))
    tally.group('archive: refused files')
    for galley in [*sample.galleys(101, 250, 4, 3), *sample.galleys(111, 150, 3, 2, 2)]:
        made_right(tally, called.make, rng, galley, galley, search.best(galley))
    for galley in [*sample.galleys(102, 60, 40, 8), *sample.galleys(112, 40, 20, 5, 4)]:
        made_right(tally, called.make, rng, galley, galley, search.best_by_table(galley))
    tally.group('archive: random galleys made')
    for galley in [*sample.galleys(103, 300, 7, 4), *sample.galleys(113, 200, 5, 3, 3)]:
        best = search.best_by_table(galley)
        lists = [sample.page_list(rng, galley) for _ in range(8)]
        lists += [sample.mutated(rng, galley, best) for _ in range(16)] + [best] if best else []
        for words in lists:
            tally.same(f'{words} for {galley}', called.mark(write(galley), words), marking.mark(galley, words))
    tally.group('archive: random lists marked')
