"""What making weighs, and what is told of a galley beforehand, from document 02 alone (S-5, S-6)."""

from bisect import bisect_right
from itertools import product
from math import prod

from . import marking, openings, search


def weighed(galley, opening=()):
    """The pairs of start and end with something between them whose tightest height is at most htMax, each once; the starts are
    at or past the opening's end in every stream (S-6)."""
    origin = openings.end(galley, opening)
    return sum(fits(galley, start, end) for end in between(origin, galley.sizes) for start in between(origin, end) if start != end)


def between(least, most):
    """All places with no count below that of the first one or above that of the second."""
    return product(*(range(u, v + 1) for u, v in zip(least, most)))


def fits(galley, start, end):
    return marking.tightest(galley, start, end) <= galley.spec.htmax


def weighed_by_runs(galley, opening=()):
    """The same for larger galleys: for the floats of a page the runs of lines that are low enough beside them."""
    limit, smin = galley.spec.htmax, galley.spec.smin
    m, *whole = galley.sizes
    line, *floats = openings.end(galley, opening)
    runs = [[tight for tight, _ in search.grown(galley.lines[a:], limit)[1:]] for a in range(line, m)]
    pairs = sum(map(len, runs)) * prod(size + 1 - placed for size, placed in zip(whole, floats))
    for end in between(floats, whole):
        for start in between(floats, end):
            if start != end and fits(galley, (0, *start), (0, *end)):
                room = limit - smin - marking.tightest(galley, (0, *start), (0, *end))
                pairs += m + 1 - line + sum(bisect_right(run, room) for run in runs)
    return pairs


def most_together(galley, stream):
    """The most consecutive blocks of a stream whose tightest height by themselves is at most htMax."""
    return max(len(search.grown(stream[a:], galley.spec.htmax)) - 1 for a in range(len(stream) + 1))


def ceiling(galley):
    """(m + 1)·(n + 1)·(L + 1)·(G + 1), and with tables a pair of factors more."""
    return prod((len(stream) + 1) * (most_together(galley, stream) + 1) for stream in galley.streams)


def lengths(galley):
    """The words that making needs of the work area and of the page list."""
    return 10 * prod(size + 1 for size in galley.sizes), len(galley.streams) * sum(galley.sizes)


def forecast(read):
    """Number, place, words of work area and of page list, and the ceiling, for what reading a galley's bytes gave."""
    return (*read[1:], 0, 0, 0) if read[0] == 'refused' else (0, 0, *lengths(read[1]), ceiling(read[1]))
