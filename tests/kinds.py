"""Kinds of galleys, of their lists and of the choice among them, so that a test can ask whether it has met enough of each."""

from dataclasses import replace

from reference import beforehand, book, marking, search
from reference.galley import HIGHEST_FOLIO

# Which page a spread begins with hangs on the first folio: every parity, with and without the record, in single-sided work too.
FOLIOS = [f'sides {sides}, {folio} folio' for sides in (1, 2) for folio in ('no', 'an even', 'an odd')]
KEPT = ['a kept pair', 'a chain of kept figures', 'a kept last figure']
EDITIONS = ['first edition', 'lastMin 0', 'lastMin up to htMin', 'lastMin above htMin']
TABLES = ['no table', 'tables and figures', 'tables alone']
OF_GALLEYS = FOLIOS + KEPT + EDITIONS + TABLES
OF_LISTS = ['folios past 9,999', 'figures before any line', 'kept figures on one page', 'tables before any line',
            'a table before a figure', 'a figure before a table', 'a page of three kinds', 'a figure and a table without a line']
OF_REFUSALS = ['14 by a line', '14 by a figure', '16 on an earlier page', '16 on the last page', '16 before 18', '13 by a table',
               '17 by a figure', '17 by a table', '18 for tables alone']
OF_CHOICES = ['an even last folio decides against an even page count', 'kept figures change the list',
              'kept figures leave no list', 'lastMin changes the list', 'lastMin leaves no list', 'the later figure decides',
              'the later table decides', 'white space decides', 'white space decides against an even last folio',
              'white space decides against the later start', 'equal turns and equal white space']
OF_WEIGHING = ['pages weighed and no list', 'a stream of which no block fits']
OF_REFUSED_OPENINGS = ['20 for half a page', *(f'20 by {rule}' for rule in range(13, 18)), '20 on a later page',
                       '20 after everything is placed', '20 before 21', '20 by 16, not as a last page', '21']
OF_OPENINGS = ['no opening', 'an opening that leaves none', 'an opening that costs a turn', 'an opening of the best list',
               'an opening that costs nothing and changes the list', 'an opening that a tie decides after',
               'an opening that ends on a left-hand page', 'an opening that ends on a right-hand page',
               'an opening with all lines', 'an opening with all floats', 'an opening without a line',
               'an opening whose last page waits for its citation', 'an opening whose last page is below lastMin']
OF_BOOKS = ['a book of one chapter', 'a book of several chapters', 'a single-sided book', 'a double-sided book', 'a book from folio 1, not stated',
            'a book from an even folio', 'a book from an odd folio', 'two and three words a page', 'a book of the second edition']
OF_BINDING = ['11 by parity alone', '11 by a chapter that has no list', 'a worse first chapter', 'a worse chapter between', 'a first chapter with more turns',
              'a turn between two chapters', 'chapters that face each other', 'equal turns, and white space decides', 'a tie decided by the last folio',
              'a tie decided in the last chapter', 'a tie decided in an earlier chapter', 'a tie decided in the first of three chapters',
              'a tie between numbers of pages in an earlier chapter']
# At a desk: each call with its answers, and what the call meets there or comes after.
AT_DESKS = ['open 0', 'open 1 to 8', 'open 22', 'ask 0', 'ask 1 to 8', *(f'ask {number}' for number in (*range(12, 19), 23)), 'commit 0',
            'commit 24', 'opened with 64 pages', '22 by the number of pages', '22 by the marking', 'opened over what was pending',
            'refused over what was pending', 'accepted in place of another', 'a refused ask leaves none pending',
            '23 leaves none pending', '23 before the galley is read', '23 without pages', '23 of the last page',
            'a third word that is not looked at', 'committed with two words a page', 'committed with three words a page',
            '24 after a commit', '24 after a refused ask', '24 without pages']
AT_LAYOUTS = ['save 0', 'save 25', 'save 27', 'back 0', 'back 25', 'back 26', 'drop 0', 'drop 25', 'drop 26', '24 after a back',
              'saved in place of another list', 'saved under a name held, with no room for another', 'saved in room that was dropped',
              'saved without pages', 'back without pages', 'save leaves what is pending', 'drop leaves what is pending',
              'back clears what is pending', 'back to another list', 'refused over what was pending, by a name',
              '26 with a name held that begins alike', '26 with no room for another', 'save with a name twice', 'back with a name twice',
              'drop with a name twice', 'saved beside a layout that is neither held nor free', 'a name of 1 byte',
              'a name of 16 bytes', 'names held without pages']


def of_galley(g):
    yield f'sides {g.spec.sides}, {"no" if g.stated is None else ("an even", "an odd")[g.stated % 2]} folio'
    yield EDITIONS[0 if g.spec.edition == 1 else 1 if g.spec.lastmin == 0 else 2 + (g.spec.lastmin > g.spec.htmin)]
    yield TABLES[0 if not g.tables else 1 if g.figures else 2]
    kept = [figure.kept for figure in g.figures]
    if any(kept[:-1]):
        yield 'a kept pair'
    if any(one and two for one, two in zip(kept[:-1], kept[1:-1])):
        yield 'a chain of kept figures'
    if any(kept[-1:]):
        yield 'a kept last figure'


def of_list(g, words):
    """Of a valid list."""
    if last_folio(g, words) > HIGHEST_FOLIO:
        yield 'folios past 9,999'
    ends = marking.places(g, words)
    for name, count in zip(('figures', 'tables'), ends[0][1:]):
        if ends[0][0] == 0 and count:
            yield f'{name} before any line'
    if any(figure.kept for figure in g.figures[:-1]):
        yield 'kept figures on one page'
    if g.tables:
        yield from of_tables(g, ends)


def of_tables(g, ends):
    """How a list places figures and tables: which kind comes first, and what stands on one page."""
    if any(j < len(g.figures) and d for _, j, d in ends):
        yield 'a table before a figure'
    if any(j and d < len(g.tables) for _, j, d in ends):
        yield 'a figure before a table'
    for start, end in zip([g.nothing, *ends], ends):
        line, figure, table = (u < v for u, v in zip(start, end))
        if figure and table:
            yield 'a page of three kinds' if line else 'a figure and a table without a line'


def of_refusal(g, words, number, place):
    """Of a list that is refused."""
    if number == 16:
        ends = marking.places(g, words)
        yield '16 on the last page' if place == len(ends) else '16 on an earlier page'
        if place == len(ends) and ends[-1] != g.sizes:
            yield '16 before 18'
    if number == 14:
        end = marking.places(g, words)[place - 1]
        for name, stream, count in zip(('line', 'figure'), g.streams, end):
            if 0 < count < len(stream) and not stream[count - 1].legal:
                yield f'14 by a {name}'
    if number == 17:
        end = marking.places(g, words)[place - 1]
        for name, floats, count in zip(('figure', 'table'), g.floats, end[1:]):
            if count and floats[count - 1].cite > end[0]:
                yield f'17 by a {name}'
    if g.tables and number in (13, 18):
        start, end = [g.nothing, *marking.places(g, words)][place - 1:][:2]
        if number == 13 and not start[2] <= end[2] <= len(g.tables) and all(map(between, start, end, g.sizes[:2])):
            yield '13 by a table'
        if number == 18 and end[:2] == g.sizes[:2]:
            yield '18 for tables alone'


def between(least, count, most):
    return least <= count <= most


def of_choice(g, lists, best):
    """Of all valid lists and the best of them: what decides, and what would be another list without a record."""
    ranks = {words: search.rank(g, words) for words in lists}
    if best:
        yield from of_white(ranks, best)
    if g.spec.sides == 2 and g.folio % 2 == 0:
        if len({last_folio(g, words) % 2 for words, rank in ranks.items() if rank[:2] == ranks[best][:2]}) == 2:
            yield 'an even last folio decides against an even page count'
    if best and g.tables:
        yield from of_ties(ranks, best)
    if any(figure.kept for figure in g.figures[:-1]):
        loose = replace(g, streams=(g.lines, tuple(figure._replace(kept=0) for figure in g.figures), *g.streams[2:]))
        if search.best_by_table(loose) != best:
            yield 'kept figures change the list' if best else 'kept figures leave no list'
    if g.spec.edition == 2 and search.best_by_table(replace(g, spec=g.spec._replace(lastmin=None))) != best:
        yield 'lastMin changes the list' if best else 'lastMin leaves no list'


def of_weighing(g, best, weighed):
    """Of the pages weighed and of what is told of them beforehand."""
    if best is None and weighed:
        yield 'pages weighed and no list'
    if any(stream and beforehand.most_together(g, stream) == 0 for stream in g.streams):
        yield 'a stream of which no block fits'


def of_refused_opening(g, opening, number, place):
    """Of an opening that 20 or 21 refuses."""
    if number == 21 or place == 0:
        yield '21' if number == 21 else '20 for half a page'
        return
    ends = [g.nothing, *marking.places(g, opening)]
    (start, end), last = ends[place - 1:place + 1], place == len(ends) - 1
    rule = marking.page_fault(g, start, end, place, last=False)
    yield f'20 by {rule}'
    if place > 1:
        yield '20 on a later page'
    if start == g.sizes:
        yield '20 after everything is placed'
    if last and end == g.sizes:
        yield '20 before 21'
    if rule == 16 and last and marking.page_fault(g, start, end, place, last=True) != 16:
        yield '20 by 16, not as a last page'


def of_opening(g, opening, lists, best, ordinary):
    """Of an opening that is let through, the valid lists that begin with it, the best of them, and the best of all lists."""
    if not opening:
        yield 'no opening'
        return
    if best is None:
        yield from ['an opening that leaves none'] if ordinary else []
    elif best == ordinary:
        yield 'an opening of the best list'
    else:
        dearer = search.rank(g, best)[0] > search.rank(g, ordinary)[0]
        yield 'an opening that costs a turn' if dearer else 'an opening that costs nothing and changes the list'
    if best and sum(marking.mark(g, words)[4:] == marking.mark(g, best)[4:] for words in lists) > 1:
        yield 'an opening that a tie decides after'
    yield from of_opening_end(g, opening)


def of_opening_end(g, opening):
    """Of the place and the page that an opening ends with."""
    start, end = [g.nothing, *marking.places(g, opening)][-2:]
    page = len(opening) // len(g.streams)
    if g.spec.sides == 2:
        yield f'an opening that ends on a {("left", "right")[(g.folio + page - 1) % 2]}-hand page'
    if end[0] == g.sizes[0]:
        yield 'an opening with all lines'
    if end[1:] == g.sizes[1:] and any(end[1:]):
        yield 'an opening with all floats'
    if end[0] == 0:
        yield 'an opening without a line'
    as_last = marking.page_fault(g, start, end, page, last=True)
    if as_last == 17:
        yield 'an opening whose last page waits for its citation'
    if as_last == 16:
        yield 'an opening whose last page is below lastMin'


def of_white(ranks, best):
    """Whether white space decides among lists of equal turns, and against which of the old ties; or leaves several."""
    turns, white, *ties = ranks[best]
    whiter = [rank[2:] for rank in ranks.values() if rank[0] == turns and rank[1] > white]
    if whiter:
        yield 'white space decides'
    if any(odd < ties[0] for odd, _ in whiter):
        yield 'white space decides against an even last folio'
    if any(odd == ties[0] and starts < ties[1] for odd, starts in whiter):
        yield 'white space decides against the later start'
    if sum(rank[:2] == (turns, white) for rank in ranks.values()) > 1:
        yield 'equal turns and equal white space'


def of_ties(ranks, best):
    """Which count of a start decides against a list of equal turns, white space and parity, the first that differs from the last
    page back."""
    rank = ranks[best]
    for words, other in ranks.items():
        if words != best and other[:3] == rank[:3]:
            one, two = next((one, two) for one, two in zip(rank[3], other[3]) if one != two)
            stream = next(s for s, counts in enumerate(zip(one, two)) if len(set(counts)) == 2)
            if stream:
                yield f'the later {("figure", "table")[stream - 1]} decides'


def of_book(chapters):
    """Of a book by its chapters alone."""
    first = chapters[0]
    yield f'a book of {"one chapter" if len(chapters) == 1 else "several chapters"}'
    yield f'a {("single", "double")[first.spec.sides - 1]}-sided book'
    yield 'a book from folio 1, not stated' if first.stated is None else f'a book from {("an even", "an odd")[first.stated % 2]} folio'
    if len({len(chapter.streams) for chapter in chapters}) == 2:
        yield 'two and three words a page'
    if first.spec.edition == 2:
        yield 'a book of the second edition'


def of_binding(chapters, choices, best):
    """Of all choices of a book and the best of them: why there is none, which chapters are worse than need be, what decides."""
    if best is None:
        open_on = [(chapters[0].folio,), *((1, 2) for _ in chapters[1:])]
        listed = all(any(book.lists(book.opened(chapter, folio)) for folio in folios) for chapter, folios in zip(chapters, open_on))
        yield '11 by parity alone' if listed else '11 by a chapter that has no list'
        return
    yield from of_chapters(list(book.opened_chapters(chapters, best)))
    ranks = {choice: book.rank(chapters, choice) for choice in choices}
    rank = ranks[best]
    if any(other[0] == rank[0] and other[1] > rank[1] for other in ranks.values()):
        yield 'equal turns, and white space decides'
    for choice, other in ranks.items():
        if choice != best and other[:2] == rank[:2]:
            yield from of_tied_books(chapters, (best, rank[2]), (choice, other[2]))


def of_chapters(opened):
    """Of the chapters as they open, with their lists: those that would be better by themselves, and what is between them."""
    for number, (chapter, words) in enumerate(opened):
        by_itself, here = (search.rank(chapter, listed) for listed in (search.first(chapter, book.lists(chapter)), words))
        if by_itself < here and number in (0, len(opened) - 2):
            yield 'a worse first chapter' if number == 0 else 'a worse chapter between'
        if by_itself[0] < here[0] and number == 0:
            yield 'a first chapter with more turns'
    for chapter, _ in opened[1:]:
        facing = chapter.spec.sides == 2 and chapter.folio % 2 == 1
        yield 'chapters that face each other' if facing else 'a turn between two chapters'


def of_tied_books(chapters, one, two):
    """Of two choices of equal turns and white space: the chapter that decides, the last one first."""
    (best, ranks), (other, others) = one, two
    at = next(at for at, (tie, against) in enumerate(zip(ranks, others)) if tie != against)
    if at == 0:
        yield 'a tie decided by the last folio' if ranks[0][0] != others[0][0] else 'a tie decided in the last chapter'
        return
    yield 'a tie decided in an earlier chapter'
    if at == 2 == len(chapters) - 1:
        yield 'a tie decided in the first of three chapters'
    if len({len(choice[len(chapters) - 1 - at]) for choice in (best, other)}) == 2:
        yield 'a tie between numbers of pages in an earlier chapter'


def at_desk(call, before, answer, read=None, last=''):
    """Of a call on a desk as it was before, with what the galley reads as where there is one, and the call before."""
    refused = answer[1] if answer[0] == 'refused' else 0
    yield f'{call} 1 to 8' if 1 <= refused <= 8 else f'{call} {refused}'
    if call == 'open':
        yield from at_opening(before, answer, read)
    elif call == 'ask':
        yield from at_asking(before, answer, read)
    elif call == 'commit' and not refused:
        yield f'committed with {("two", "three")[len(before.force[0]) - 2]} words a page'
    elif call == 'commit':
        yield f'24 after {last}'
        if not before.force:
            yield '24 without pages'


def at_layouts(call, before, name, answer):
    """Of a call with a name."""
    held = [layout for layout in before.layouts if layout]
    there = [pages for other, pages in held if other == name]
    if answer[0] == 'refused':
        if before.pending:
            yield 'refused over what was pending, by a name'
        if answer[1] == 26 and any(other and other[:1] == name[:1] for other, _ in held):
            yield '26 with a name held that begins alike'
        if answer[1] == 26 and len(held) == len(before.layouts):
            yield '26 with no room for another'
        return
    if len(there) > 1:
        yield f'{call} with a name twice'
    if call == 'save' and None in [other for other, _ in held]:
        yield 'saved beside a layout that is neither held nor free'
    if len(name) in (1, 16):
        yield f'a name of {len(name)} byte' + 's' * (len(name) > 1)
    if not before.force and there:
        yield 'names held without pages'
    if not before.force and call != 'drop':
        yield f'{call}{"d" * (call == "save")} without pages'
    if before.pending:
        yield f'{call} {"clears" if call == "back" else "leaves"} what is pending'
    if call == 'back' and there[0] != before.force:
        yield 'back to another list'
    if call == 'save' and there and there[0] != before.force:
        yield 'saved in place of another list'
    if call == 'save' and there and len(held) == len(before.layouts):
        yield 'saved under a name held, with no room for another'
    if call == 'save' and not there and any(before.layouts[before.layouts.index(None):]):
        yield 'saved in room that was dropped'


def at_opening(before, answer, read):
    if before.pending:
        yield f'{"opened" if answer[0] == "accepted" else "refused"} over what was pending'
    if answer[:2] == ('accepted', 64):
        yield 'opened with 64 pages'


def at_asking(before, answer, read):
    if answer[0] == 'accepted':
        if before.pending:
            yield 'accepted in place of another'
        if len(before.force[0]) == 2:
            yield 'a third word that is not looked at'
        return
    if before.pending:
        yield '23 leaves none pending' if answer[1] == 23 else 'a refused ask leaves none pending'
    if answer[1] == 23 and read[0] == 'refused':
        yield '23 before the galley is read'
    if answer[1] == 23 and not before.force:
        yield '23 without pages'
    if answer[1] == 23 and answer[2] == len(before.force) > 0:
        yield '23 of the last page'


def last_folio(g, words):
    return g.folio + len(words) // len(g.streams) - 1
