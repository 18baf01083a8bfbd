"""The windows of starting lines that the search by queues stands on, worked out page by page from the reference."""
import collections
import itertools

from reference import search


def windows(g):
    """For each starting and ending column, place by place, the lines that a page with lines can start after; without the
    full place, whose page may be low. A column is how many floats of each stream are placed."""
    m, *whole = g.sizes
    columns = list(itertools.product(*(range(size + 1) for size in whole)))
    starts = collections.defaultdict(list)
    for a, before in itertools.product(range(m), columns):
        for i, *after in search.page_ends(g, (a, *before)):
            if a < i and (i, *after) != g.sizes:
                starts[before, tuple(after), i].append(a)
    ends = [i for i in range(1, m + 1) if i == m or g.lines[i - 1].legal]
    for before, after in itertools.product(columns, columns):
        if all(b <= j for b, j in zip(before, after)):
            yield [starts[before, after, i] for i in ends if (i, *after) != g.sizes]


def only_rise(row):
    """Whether each window is without a gap, and neither end of the windows ever falls."""
    held = [lines for lines in row if lines]
    return (all(lines == list(range(lines[0], lines[-1] + 1)) for lines in held)
            and all(one[0] <= two[0] and one[-1] <= two[-1] for one, two in zip(held, held[1:])))


def refill(row):
    """Whether some window is empty after one that was not and before another that is not."""
    held = [bool(lines) for lines in row]
    return True in held and False in held[held.index(True):len(held) - held[::-1].index(True)]
