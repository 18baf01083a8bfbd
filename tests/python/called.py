"""The calls of the package against the reference: cases, refused files, random galleys, books, desks, reports, sections."""
import concurrent.futures
import doctest
import random

import barleychime
from reference import beforehand, cases, desk, folding, marking, refusals, report, sample, search
from reference.galley import read, write


def answer(call, *arguments):
    """What a call gives, or its refusal as the reference has it."""
    try:
        return call(*arguments)
    except barleychime.Refusal as refusal:
        return 'refused', refusal.number, refusal.place


def ends(words, width):
    """The ends of the pages of a list, or nothing if it ends within a page."""
    return None if len(words) % width else tuple(tuple(words[k:k + width]) for k in range(0, len(words), width))


def measure(accepted):
    return barleychime.Measure(*accepted[1:]) if accepted[0] == 'accepted' else accepted


def making(galley, best, opening=()):
    """The making that is due for a galley with this best list."""
    if best is None:
        return 'refused', 11, 0
    return barleychime.Making(measure(marking.mark(galley, best)), ends(best, len(galley.streams)), beforehand.weighed(galley, opening))


def made(tally):
    for name, galley, best, _ in cases.MADE:
        tally.same(f'making {name}', answer(barleychime.make, write(galley)), making(galley, best))
        due = barleychime.Forecast(*beforehand.forecast(('galley', galley))[2:])
        tally.same(f'forecast of {name}', answer(barleychime.forecast, bytearray(write(galley))), due)
        tally.same(f'words of a page of {name}', barleychime.page_words(write(galley)), len(galley.streams))
    for galley in [*sample.galleys(201, 60, 6, 3), *sample.galleys(202, 40, 4, 2, 2)]:
        tally.same(f'making {galley}', answer(barleychime.make, write(galley)), making(galley, search.best_by_table(galley)))
    for name, galley, opening, best, told in cases.AFTER:
        printed = ends(opening, len(galley.streams))
        if printed is not None:
            due = making(galley, best, opening) if best else ('refused', *told)
            tally.same(f'making {name}', answer(barleychime.make_after, write(galley), printed), due)
    for name, data, number, place in refusals.files():
        for call, *more in ((barleychime.make,), (barleychime.make_after, ((1, 1),)), (barleychime.mark, ((1, 1),)),
                            (barleychime.forecast,), (barleychime.page_words,), (barleychime.Desk, ((1, 1),))):
            tally.same(f'{call.__name__} of {name}', answer(call, memoryview(data), *more), ('refused', number, place))
    tally.group('galleys made in Python')


def marked(tally):
    for name, galley, words, due in cases.MARKED + cases.MARKED_LONG:
        pages = ends(words, len(galley.streams))
        if pages is not None:
            tally.same(f'marking {name}', answer(barleychime.mark, write(galley), pages), measure(due))
    for name, chapters, choice, counts in cases.BOUND:
        due = 'refused', 11, 0
        if choice:
            lists = tuple(ends(words, len(chapter.streams)) for words, chapter in zip(choice, chapters))
            due = barleychime.BookMaking(barleychime.Measure(*counts), lists, sum(map(beforehand.weighed, chapters)))
        tally.same(f'making {name}', answer(barleychime.book, map(write, chapters)), due)
    whole, cut = write(cases.A), write(cases.A)[:-1]
    for name, chapters, number, place in (('no chapters', [], 28, 0), ('too many chapters', [whole] * 201, 28, 0),
                                          ('a chapter cut short', [whole, cut], 1, 2),
                                          ('another specification', [whole, write(cases.C)], 29, 2)):
        tally.same(f'a book of {name}', answer(barleychime.book, chapters), ('refused', number, place))
    tally.group('lists and books in Python')


def tried(tally):
    """Random calls at desks: the answer, the list in force, what is pending and the layouts."""
    rng = random.Random(5)
    for galley in [*sample.galleys(203, 60, 7, 3), *sample.galleys(204, 40, 5, 2, 2)]:
        best = search.best_by_table(galley)
        if best is None:
            continue
        data, source, held = write(galley), read(write(galley)), desk.Desk()
        here = barleychime.Desk(data, ends(best, len(galley.streams)))
        said, held = desk.opened(held, source, best)
        tally.same(f'desk on {galley}', here.opened, measure(said))
        for _ in range(12):
            name = rng.choice(('a', 'Blatt 2', 'ä' * 8, b'', b'\xff', b'x' * 17, *'bcdefgh'))
            page, chance = rng.randint(0, len(held.force) + 1), tuple(rng.randint(0, size) for size in galley.sizes)
            call, arguments, answered = rng.choice((
                (here.ask, (page, rng.choice((chance, *held.force))), desk.asked), (here.commit, (), desk.committed),
                (here.save, (name,), desk.saved), (here.back, (name,), desk.come_back), (here.drop, (name,), desk.dropped)))
            due, held = answered(held, *(source, *arguments) if call == here.ask else map(in_bytes, arguments))
            tally.kind(call.__name__, f'{call.__name__} {due[0]}')
            tally.same(f'{call.__name__}{arguments} on {galley}', answer(call, *arguments), None if due == desk.DONE else measure(due))
            tally.same('the list in force', here.ends, held.force)
            tally.same('what is pending', here.pending and desk.altered_list(held.force, *here.pending), held.pending)
            tally.same('the layouts', here.layouts, dict(filter(None, held.layouts)))
    tally.enough([f'{name} {said}' for name in ('ask', 'commit', 'save', 'back', 'drop') for said in ('refused',)], 20)
    tally.enough(['ask accepted', 'commit done', 'save done', 'back done', 'drop done'], 5)
    tally.group('desks in Python')


def in_bytes(name):
    return name.encode() if isinstance(name, str) else name


def summed(tally):
    rng = random.Random(6)
    for count in (0, 1, 2, 30, 10_001):
        marks = [(*(rng.randrange(2**32) for _ in range(3)), rng.randrange(5, 2**32), rng.randrange(5)) for _ in range(count)]
        for papers in (marks, marks and [*marks[:-1], (1, 2, 3, 4, 5)]):
            number, place, *words = report.words(papers)
            due = ('refused', number, place) if number else barleychime.Report(*words)
            found = answer(barleychime.report, [barleychime.Paper(*mark) for mark in papers])
            tally.same(f'report on {count} papers', found, due)
            if not number:
                tally.same(f'mean excess of {count} papers', found.mean_excess * max(1, len(papers)), words[-2])
    for size in (*range(70), 2**32 - 1):
        number, place = folding.answer(size)
        sheets = tuple(folding.sheet(size, k) for k in range(size // 4)) if not number else ('refused', number, place)
        tally.same(f'section of {size}', answer(barleychime.fold, size), sheets)
    tally.group('reports and sections in Python')


def wrong(tally):
    """What is no galley and no number is told as Python tells it, and never cut to 32 bits."""
    data, at_desk = write(cases.A), barleychime.Desk(write(cases.A), [(1, 1), (3, 1)])
    for what, call, arguments, error, words in (
            ('text as a galley', barleychime.make, ('GS',), TypeError, 'a galley is bytes, not str'),
            ('a number as a galley', barleychime.mark, (7, ()), TypeError, 'a galley is bytes, not int'),
            ('a number too high', barleychime.mark, (data, [(1, 1), (2**32 + 3, 1)]), ValueError,
             'page 2: a number of a page is 0 to 4294967295, not 4294967299'),
            ('a number below 0', barleychime.make_after, (data, [(-1, 0)]), ValueError,
             'page 1: a number of a page is 0 to 4294967295, not -1'),
            ('a fraction', barleychime.mark, (data, [(1.5, 0)]), TypeError, "'float' object cannot be interpreted as an integer"),
            ('three numbers a page', barleychime.mark, (data, [(1, 1), (3, 1, 0)]), ValueError,
             'page 2: 3 numbers, but a page of this galley has 2 (lines, figures)'),
            ('two numbers a page', barleychime.mark, (write(cases.K), [(1, 1)]), ValueError,
             'page 1: 2 numbers, but a page of this galley has 3 (lines, figures, tables)'),
            ('a section below 0', barleychime.fold, (-4,), ValueError, 'the size of a section is 0 to 4294967295, not -4'),
            ('a page too high', at_desk.ask, (2**32 + 1, (1, 1)), ValueError, 'a page is 0 to 4294967295, not 4294967297'),
            ('a paper below 0', barleychime.report, ([barleychime.Paper(1, 1, 1, 1, -1)],), ValueError,
             'a number of a paper is 0 to 4294967295, not -1')):
        try:
            found = call(*arguments)
        except (TypeError, ValueError) as caught:
            found = type(caught), str(caught)
        tally.same(what, found, (error, words))
    refusal = barleychime.Refusal(15, 3)
    tally.same('a refusal', (refusal.kind, refusal.number, refusal.place, str(refusal)),
               (barleychime.RefusalKind.TOO_HIGH, 15, 3, f'R 15 3: {refusal.words}; whoever handed in the list can mend it'))
    tally.group('wrong calls in Python')


def together(tally):
    """Threads that call at the same time get what each gets alone."""
    galleys = [write(galley) for galley in sample.galleys(205, 16, 30, 5)]
    alone = [answer(barleychime.make, data) for data in galleys]
    with concurrent.futures.ThreadPoolExecutor(4) as threads:
        tally.same('four threads', list(threads.map(lambda data: answer(barleychime.make, data), galleys * 4)), alone * 4)
    shown = doctest.testmod(barleychime, extraglobs={'galley': write(cases.A)})
    tally.same('what the package shows of itself', (shown.failed, shown.attempted > 3), (0, True))
    tally.group('threads and examples in Python')


def run(tally):
    for part in (made, marked, tried, summed, wrong, together):
        part(tally)
