"""Checks the reference against document 01's cases and against itself. The last line is 'N passed, M failed'."""

import random
import sys
from dataclasses import replace
from itertools import product
from pathlib import Path

sys.path.insert(0, str(Path(__file__).resolve().parents[1]))

import kinds  # noqa: E402
from reference import beforehand, book, cases, explanations, marking, openings, refusals, sample, search  # noqa: E402
from reference.galley import Figure, Galley, Line, Spec, Table, read, write  # noqa: E402
from choice import chosen  # noqa: E402
from tally import Tally  # noqa: E402


def made(tally):
    for name, galley, words, measure in cases.MADE:
        for search_of in (search.best, search.best_by_table):
            tally.same(f'{name} {search_of.__name__}', search_of(galley), words)
        if words:
            tally.same(f'{name} marked', marking.mark(galley, words), ('accepted', *measure))
    tally.group('cases of making')


def marked(tally):
    for name, galley, words, due in cases.MARKED:
        tally.same(name, tally.met(marking.mark(galley, words)), due)
        tally.same(f'{name}, by the paper', by_paper(galley, words), due)
    for name, galley, words, due in cases.MARKED_LONG:
        tally.same(name, marking.mark(galley, words), due)
    tally.group('cases of marking')


def by_paper(galley, words):
    """What the marking owes, from the paper's map."""
    found = marking.map_of_words(galley, words)
    if found is None or not marking.is_pagination(galley, *found):
        return ('refused', *refusals.of_list(galley, words))
    turn = marking.turn_d if galley.spec.sides == 2 else marking.turn_s
    # X and Y are what the turns come to when only the one or the other weighs.
    weights = [(1, 0), (0, 1), (galley.spec.alpha, galley.spec.beta)]
    return ('accepted', found[1],
            *(turn(cases.respec(galley, alpha=alpha, beta=beta), *found) for alpha, beta in weights),
            marking.white_by_map(galley, *found))


def turned_away(tally):
    for name, data, number, place in refusals.files():
        tally.same(name, tally.met(read(data)), ('refused', number, place))
    tally.group('refused files')


def round_trips(tally):
    edge = Spec(100_000, 100_000, 100_000, 100_000, 2, 1_000, 1_000, 100_000)
    largest = Galley(edge, (4_000 * (Line(100_000, 100_000, 100_000, 0),), 200 * (Figure(100_000, 0, 100_000, 4_000),),
                            50 * (Table(100_000, 0, 100_000, 4_000),)), 9_999)
    for galley in [largest, *sample.galleys(1, 300, 8, 5), *sample.galleys(16, 300, 8, 5, 4)]:
        tally.same(f'round trip of {galley}', read(write(galley)), ('galley', galley))
        begins = (30 if galley.spec.edition == 1 else 34) + (0 if galley.stated is None else 6)
        tally.same('line 1 begins', (galley.first, write(galley)[galley.first:][:2]), (begins, b'TL'))
    tally.group('galleys written and read')
    for galley in [*sample.galleys(2, 20, 4, 3), *sample.galleys(17, 20, 4, 3, 3)]:
        damaged(tally, galley)
    tally.group('damaged files')


def damaged(tally, galley):
    """Cut short: 1 where the broken record began. One byte changed: refused inside the file, or still what it says."""
    data = write(galley)
    begins = [0, 30 if galley.spec.edition == 1 else 34, *range(galley.first, len(data), 18)]
    cuts = [(read(data[:cut]), ('refused', 1, max(at for at in begins if at <= cut)))
            for cut in range(len(data))]
    tally.same('cut short', [cut for cut, (got, due) in enumerate(cuts) if got != due], [])
    rng = random.Random(data)
    for at in range(len(data)):
        changed = data[:at] + bytes([rng.randrange(256)]) + data[at + 1:]
        answer = tally.met(read(changed))
        sound = (write(answer[1]) == changed if answer[0] == 'galley'
                 else answer[2] in begins or (answer[1] == 8 and answer[2] - 2 in begins))
        tally.same(f'byte {at} of {galley}', sound, True)


def all_lists(tally):
    """Tiny galleys: of all lists of words, just those of paginations are accepted, with their turns, and enumerated."""
    several = 0
    for galley in [*sample.galleys(3, 300, 2, 1), *sample.galleys(4, 12, 2, 2), *sample.galleys(5, 12, 3, 1),
                   *sample.galleys(18, 300, 1, 1, 1)]:
        due = paginations(galley)
        several += len(due) > 1
        found = {}
        for words in lists_of_words(galley):
            answer = tally.met(marking.mark(galley, words))
            if answer[0] == 'accepted':
                found[words] = answer[4]
        tally.same(f'accepted lists of {galley}', found, due)
        tally.same(f'every list of {galley}', sorted(search.every(galley)), sorted(due))
    tally.group('all lists of words against all maps', f' ({several} galleys have several paginations)')
    for galley in [*sample.galleys(12, 100, 2, 1), *sample.galleys(14, 40, 1, 2), *sample.galleys(19, 60, 1, 1, 1)]:
        wrong = [words for words in lists_of_words(galley) if marking.mark(galley, words) != by_paper(galley, words)]
        tally.same(f'lists marked differently for {galley}', wrong, [])
    tally.group('all lists of words, refusals included, against the paper')


def paginations(galley):
    """List of words to turns, from every map of the material to pages."""
    turn = marking.turn_d if galley.spec.sides == 2 else marking.turn_s
    found = {}
    for p in range(1, sum(galley.sizes) + 1):
        for maps in product(*(product(range(1, p + 1), repeat=size) for size in galley.sizes)):
            if marking.is_pagination(galley, maps, p):
                found[marking.words_of_map(maps, p)] = turn(galley, maps, p)
    return found


def lists_of_words(galley):
    """Every list of no more pages than there is material, each word up to one too high; then some of a wrong length."""
    whole = galley.sizes
    ends = list(product(*(range(size + 2) for size in whole)))
    for p in range(sum(whole) + 1):
        for pages in product(ends, repeat=p):
            yield sum(pages, ())
        yield whole * p + whole[:1]
    yield whole * (sum(whole) + 1)


def random_lists(tally):
    """Lists drawn at random or spoilt by a slip: the rules and the paper agree on refusal or turns."""
    rng = random.Random(6)
    accepted = 0
    for galley in [*sample.galleys(7, 400, 7, 4), *sample.galleys(20, 400, 6, 3, 3)]:
        lists = [sample.page_list(rng, galley) for _ in range(10)]
        best = search.best_by_table(galley)
        lists += [sample.mutated(rng, galley, best) for _ in range(20)] + [best] if best else []
        for words in lists:
            answer = tally.met(marking.mark(galley, words))
            accepted += answer[0] == 'accepted'
            tally.same(f'{words} for {galley}', answer, by_paper(galley, words))
    tally.group('random and spoilt lists against the paper', f' ({accepted} accepted)')


def searches(tally):
    """The table finds what the search of all lists finds, ties included."""
    tied = solved = 0
    met = set()
    for galley in [*sample.galleys(8, 600, 5, 3), *sample.galleys(9, 100, 9, 0), *sample.fine_galleys(13, 200, 8, 11, 2),
                   *sample.galleys(21, 400, 3, 2, 2), *sample.galleys(22, 100, 4, 0, 3), *sample.left_galleys(23, 60, 2),
                   *sample.fine_galleys(24, 60, 5, 7, 1, 2)]:
        lists = list(search.every(galley))
        ranks = sorted(search.rank(galley, words) for words in lists)
        solved += bool(ranks)
        best = search.first(galley, lists)
        met.update(kinds.of_galley(galley), kinds.of_choice(galley, lists, best))
        met.update(*(kinds.of_list(galley, words) for words in lists))
        tied += len(ranks) > 1 and ranks[0][:2] == ranks[1][:2]
        tally.same(f'best of {galley}', search.best_by_table(galley), best)
    tally.same('every kind of galley, list and choice', met, {*kinds.OF_GALLEYS, *kinds.OF_LISTS, *kinds.OF_CHOICES})
    tally.group('table against search of all lists', f' ({solved} galleys have a valid list, {tied} a tie)')


def editions(tally):
    """A second edition with lastMin 0 accepts the lists of the first, with the same answers, and is another galley nonetheless."""
    for galley in [*sample.galleys(15, 150, 4, 2), *sample.galleys(25, 60, 3, 2, 1)]:
        first, second = (cases.respec(galley, lastmin=lastmin) for lastmin in (None, 0))
        lists = list(search.every(first))
        tally.same(f'lists of {galley}', (list(search.every(second)), search.best(second)), (lists, search.first(first, lists)))
        tally.same(f'marks of {galley}', [marking.mark(second, words) for words in lists],
                   [marking.mark(first, words) for words in lists])
        tally.same(f'editions of {galley}', (first == second, read(write(second))), (False, ('galley', second)))
    tally.group('lastMin 0 against the first edition')


def swapped(tally):
    """Figures of which none is kept and tables are alike: swapped they have the same lists with their words swapped, and their
    marks."""
    for galley in sample.galleys(27, 150, 3, 2, 2):
        lines, figures, tables = galley.streams
        loose = replace(galley, streams=(lines, tuple(figure._replace(kept=0) for figure in figures), tables))
        other = replace(galley, streams=(lines, tuple(Figure(*table) for table in tables), tuple(Table(*figure[:4]) for figure in figures)))
        due = {tuple(word for i, j, d in marking.places(loose, words) for word in (i, d, j)): marking.mark(loose, words)
               for words in search.every(loose)}
        tally.same(f'figures and tables of {galley} swapped', {words: marking.mark(other, words) for words in search.every(other)}, due)
    tally.group('figures and tables swapped')


def weighings(tally):
    """What is weighed, by all pairs and by runs of lines; the most blocks together, by every run of blocks; never past the ceiling."""
    for galley in [*sample.galleys(28, 150, 5, 3), *sample.galleys(29, 100, 3, 2, 2), *sample.fine_galleys(30, 40, 6, 10, 3),
                   *sample.fine_galleys(31, 20, 4, 6, 2, 2), *(galley for _, galley, _, _ in cases.MADE if sum(galley.sizes) < 20)]:
        weighed = beforehand.weighed(galley)
        tally.same(f'weighed of {galley}', beforehand.weighed_by_runs(galley), weighed)
        most = [max(b - a for a in range(len(stream) + 1) for b in range(a, len(stream) + 1)
                    if marking.stacked(stream[a:b], 'least') <= galley.spec.htmax) for stream in galley.streams]
        tally.same(f'most together of {galley}', [beforehand.most_together(galley, stream) for stream in galley.streams], most)
        tally.same(f'ceiling of {galley}', weighed <= beforehand.ceiling(galley), True)
    tally.group('what is weighed, and its ceiling')


def begun(tally):
    """Openings: the cases; and for all openings of small galleys what the searches find against the lists that begin so, what is
    weighed by all pairs and by runs of lines, and 20 against the marking of a list that goes on."""
    for name, galley, opening, words, told in cases.AFTER:
        fault, found = openings.fault(galley, opening), None
        if fault is None:
            found = search.best(galley, opening)
            tally.same(f'{name}, by table', search.best_by_table(galley, opening), found)
            fault = (11, 0) if found is None else None
        tally.same(name, (found, fault or marking.mark(galley, found)[1:]), (words, told))
    for galley in [*sample.galleys(32, 60, 4, 2), *sample.galleys(33, 40, 2, 1, 1), *sample.left_galleys(34, 20)]:
        lists = list(search.every(galley))
        for opening in openings.passed(galley):
            due = openings.beginning(lists, opening)
            best = search.first(galley, due)
            tally.same(f'lists after {opening} of {galley}', sorted(search.every(galley, opening)), sorted(due))
            tally.same('the best of them', (search.best(galley, opening), search.best_by_table(galley, opening)), (best, best))
            weighed = beforehand.weighed(galley, opening)
            tally.same('weighed after it', beforehand.weighed_by_runs(galley, opening), weighed)
            tally.same('no more than without it', weighed <= beforehand.weighed(galley), True)
            for further in openings.following(galley, opening):
                tally.same(f'{further} as an opening of {galley}', openings.fault(galley, further), fault_by_marking(galley, further))
    tally.group('openings')


def fault_by_marking(galley, opening):
    """20 and 21 as the paper's map and the marking give them: an opening's page breaks what it breaks with a page after it."""
    width = len(galley.streams)
    pages = len(opening) // width
    if len(opening) % width:
        return 20, 0
    broken = [page for page in range(1, pages + 1) if refusals.of_page(galley, opening[:width * page], last=False)]
    return (20, broken[0]) if broken else (21, pages) if opening[-width:] == galley.sizes else None


def loosened(tally):
    """A lower htMin loses no valid list and changes no mark, whatever the opening, and adds no turns (S-14)."""
    fewer = 0
    rng = random.Random(38)
    for galley in [*sample.galleys(35, 250, 5, 2), *sample.galleys(36, 80, 2, 2, 1), *sample.left_galleys(37, 40)]:
        lower = cases.respec(galley, htmin=rng.choice((0, galley.spec.htmin // 2)))
        lists = {words: marking.mark(lower, words) for words in search.every(lower)}
        kept = {words: marking.mark(galley, words) for words in search.every(galley)}
        tally.same(f'lists and marks of {galley}', [words for words in kept if lists.get(words) != kept[words]], [])
        for opening in openings.passed(galley):
            one, two = (search.best(each, opening) for each in (galley, lower))
            turns = [marking.mark(galley, one)[4], marking.mark(lower, two)[4]] if one and two else [0, 0]
            fewer += turns[1] < turns[0]
            tally.same(f'{opening} of {galley}', (openings.fault(lower, opening), one is None or two is not None, turns[1] <= turns[0]),
                       (None, True, True))
    tally.same('fewer turns now and then', fewer > 0, True)
    tally.group('a lower htMin', f' ({fewer} times fewer turns)')


def bound(tally):
    """Books: the cases; those of small chapters by every choice and by sides; and one chapter, which is made as by itself."""
    for name, chapters, choice, measure in cases.BOUND:
        for search_of in (book.best, book.best_by_sides):
            tally.same(f'{name} {search_of.__name__}', search_of(chapters), choice)
        if choice:
            tally.same(f'{name} measured', book.measure(chapters, choice), measure)
    made = 0
    for chapters in sample.books(39, 250):
        choice = book.best(chapters)
        made += choice is not None
        tally.same(f'best of {chapters}', book.best_by_sides(chapters), choice)
    tally.group('books', f' ({made} of the small ones have a choice)')
    for galley in [*sample.galleys(40, 80, 5, 2), *sample.galleys(41, 40, 3, 2, 1)]:
        best = search.best(galley)
        tally.same(f'a book of {galley}', book.best((galley,)), None if best is None else (best,))
        if best:
            tally.same('measured', book.measure((galley,), (best,)), marking.mark(galley, best)[1:])
    tally.group('books of one chapter')


def explained(tally):
    """The cases of explanations: what is broken and what is lost for good; every rule and every kind of loss is among them."""
    rules, kinds_of_loss = set(), set()
    for case, galley, words in explanations.cases():
        name, marked = case['name'], marking.mark(galley, words)
        answer = ('R ' if marked[0] == 'refused' else '') + ' '.join(map(str, marked[1:]))
        tally.same(f'{name}: answer', answer, case['answer'])
        told = [(each['page'], each['rule']) for each in case['broken']]
        tally.same(f'{name}: broken', explanations.broken(galley, words), told)
        tally.same(f'{name}: the first is the marking\'s', [('refused', rule, page) for page, rule in told[:1]], [marked] if told else [])
        lost = [(each['page'], each['line'], each['turns'], each['floats'], each['leaves']) for each in case['lost']]
        tally.same(f'{name}: lost for good', explanations.lost(galley, words) if not told else [], lost)
        rules.update(rule for _, rule in told)
        kinds_of_loss.update((bool(floats), bool(leaves)) for *_, floats, leaves in lost)
    tally.same('rules in the cases', rules, set(range(12, 19)))
    tally.same('losses in the cases', kinds_of_loss, {(True, False), (False, True), (True, True)})
    tally.group('cases of explanations')


def larger(tally):
    """Larger galleys: what the table returns is valid, and no valid list one slip away from it ranks before it."""
    rng = random.Random(10)
    for galley in [*sample.galleys(11, 60, 60, 12), *sample.galleys(26, 40, 30, 6, 5)]:
        best = search.best_by_table(galley)
        if best:
            tally.same(f'{best} for {galley}', marking.mark(galley, best), by_paper(galley, best))
            others = [words for words in (sample.mutated(rng, galley, best) for _ in range(40))
                      if marking.mark(galley, words)[0] == 'accepted']
            better = [words for words in others if search.rank(galley, words) < search.rank(galley, best)]
            tally.same(f'best of {galley}', better, [])
    tally.group('larger galleys')


CASES = {group.__name__: group for group in (
    made, marked, turned_away, round_trips, all_lists, random_lists, searches, editions, swapped, weighings, begun, loosened, bound,
    explained, larger)}


def main():
    cases_asked, tally = chosen(CASES), Tally()
    for group in cases_asked.values():
        group(tally)
    if cases_asked == CASES:
        for number in [*range(1, 9), *range(12, 19)]:
            tally.same(f'refusal {number} is reached', number in tally.refusals, True)
        tally.group('refusals reached')
    return tally.end()


if __name__ == '__main__':
    sys.exit(main())
