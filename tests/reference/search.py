"""Making: the best list by looking at every list, and again by a table for galleys with too many lists. An opening is one that
20 and 21 let through; the empty one is begun with by every list."""

from itertools import product

from . import marking, openings


def every(galley, opening=()):
    """Every valid list that begins with an opening, by trying each page end that rules 13 to 17 allow after each start."""
    whole = galley.sizes

    def onward(start, page):
        for end in product(*(range(u, size + 1) for u, size in zip(start, whole))):
            # Pages are never empty, so the page that ends with everything placed is the last, and no other is.
            last = end == whole
            if marking.page_fault(galley, start, end, page, last):
                continue
            for rest in [()] if last else onward(end, page + 1):
                yield end + rest

    printed = len(opening) // len(whole)
    return (tuple(opening) + rest for rest in onward(openings.end(galley, opening), printed + 1))


def best(galley, opening=()):
    """The first in document 01's order of all valid lists that begin with an opening, or None if there is none (11)."""
    return first(galley, every(galley, opening))


def first(galley, lists):
    return min(lists, key=lambda words: rank(galley, words), default=None)


def rank(galley, words):
    """What making compares: turns, white space (S-10), an odd last folio in double-sided work, the starts from the last page
    backwards."""
    _, p, _, _, turns, white = marking.mark(galley, words)
    starts = [galley.nothing] + marking.places(galley, words)[:-1]
    # Each list's starts end with the only place of nothing, so neither of two lists' starts can begin the other's.
    odd = (galley.folio + p - 1) % 2 == 1
    return turns, white, galley.spec.sides == 2 and odd, [later_first(start) for start in reversed(starts)]


def later_first(place):
    return tuple(-count for count in place)


ENDS, OPENS = 1, 0  # a page's side: whether its leaf ends with it (single-sided, always) or goes on to the next page


def best_by_table(galley, opening=()):
    """As best, from a table with one entry for each place and side of the page that ends there."""
    table, origin = filled(galley, opening)
    # Double-sided, even folios open a spread, so OPENS is the even last folio and goes first.
    ends = [(table[galley.sizes, side][0], side) for side in (OPENS, ENDS) if (galley.sizes, side) in table]
    return tuple(opening) + traced(table, galley, origin, min(ends)[1]) if ends else None


def closings(galley):
    """For each side on which a list can close, the first of those lists by rank."""
    table, origin = filled(galley)
    return [traced(table, galley, origin, side) for side in (OPENS, ENDS) if (galley.sizes, side) in table]


def filled(galley, opening=()):
    """The table: for each place and side of the page that ends there the least cost and where that page starts; and the place
    where it begins.

    Turning a leaf costs beta and, for each float that is cited but still waiting, alpha; over all turns that makes T. Nothing
    is turned before page 1. Every page but the last adds its white space to W, which is compared where turns are equal. A page's
    side fixes that of the page before it, so the least cost with the latest start is all there is to keep. What an opening costs
    is the same for every list that begins with it, so it is left out.
    """
    double = galley.spec.sides == 2
    cited = [[sum(block.cite <= i for block in floats) for floats in galley.floats] for i in range(len(galley.lines) + 1)]
    # Before page 1 there is the side of the folio before its own; an opening ends on that of its last page.
    origin, printed = openings.end(galley, opening), len(opening) // len(galley.streams)
    table = {(origin, OPENS if (galley.folio + printed) % 2 else ENDS): ((0, 0), origin)}
    for start in product(*(range(size + 1) for size in galley.sizes)):
        for side in (OPENS, ENDS):
            if (start, side) not in table:
                continue
            turns, white = table[start, side][0]
            if side == ENDS and start != galley.nothing:
                turns += galley.spec.alpha * (sum(cited[start[0]]) - sum(start[1:])) + galley.spec.beta
            next_side = OPENS if double and side == ENDS else ENDS
            for end, loose in pages_from(galley, start):
                if next_side == OPENS or all(j <= known for j, known in zip(end[1:], cited[end[0]])):
                    lacking = 0 if end == galley.sizes else max(0, galley.spec.htmax - loose)
                    entry = ((turns, white + lacking), later_first(start))
                    table[end, next_side] = min(entry, table.get((end, next_side), entry))
    return table, origin


def traced(table, galley, origin, side):
    """The pages that the table's starts spell, from the last one back to the first after the origin."""
    words, end, double = (), galley.sizes, galley.spec.sides == 2
    while end != origin:
        words = end + words
        end, side = later_first(table[end, side][1]), (ENDS - side if double else ENDS)
    return words


def page_ends(galley, start):
    """Where a page that starts at a place can end by its heights and the legal page ends alone."""
    return (end for end, _ in pages_from(galley, start))


def pages_from(galley, start):
    """The same with the page's loosest height."""
    spec = galley.spec
    runs = [list(enumerate(grown(stream[u:], spec.htmax), u)) for stream, u in zip(galley.streams, start)]
    for blocks in product(*runs):
        end = tuple(count for count, _ in blocks)
        kinds = sum(u < v for u, v in zip(start, end))
        tight, loose = (sum(heights) for heights in zip(*(heights for _, heights in blocks)))
        if kinds == 0 or not marking.may_end(galley, end) or tight + (kinds - 1) * spec.smin > spec.htmax:
            continue
        loose += (kinds - 1) * spec.smax
        if loose >= spec.floor(end == galley.sizes):
            yield end, loose


def grown(stream, limit):
    """Least and greatest height of the stream's first 0, 1, 2, ... items, as long as the least is within the limit."""
    heights = [(0, 0)]
    tight = loose = 0
    for item in stream:
        tight, loose = tight + item.height, loose + item.height
        if tight > limit:
            break
        heights.append((tight, loose))
        tight, loose = tight + item.least, loose + item.most
    return heights
