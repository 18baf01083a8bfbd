"""Document 01's galleys to try and some more, and what makes one galley of another."""

from dataclasses import replace

from .galley import Figure, Galley, Line, Spec, Table, streams_of


def plain(spec, heights, figures, tables=()):
    """A galley without spaces, page ends allowed everywhere; figures and tables as (height, citation)."""
    return Galley(spec, streams_of([Line(height, 0, 0, 1) for height in heights],
                                   [Figure(height, 0, 0, cite) for height, cite in figures],
                                   [Table(height, 0, 0, cite) for height, cite in tables]))


def respec(galley, **fields):
    return replace(galley, spec=galley.spec._replace(**fields))


def opening(galley, folio):
    """The galley with `FO` and this first folio; without the record where there is None."""
    return replace(galley, stated=folio)


def keep(galley, *numbers):
    """The galley with just these figures kept with the next one."""
    figures = tuple(figure._replace(kept=int(k in numbers)) for k, figure in enumerate(galley.figures, 1))
    return replace(galley, streams=(galley.lines, figures, *galley.streams[2:]))


def high(galley, height):
    """The galley with pages of one height."""
    return respec(galley, htmin=height, htmax=height)


def forbid(galley, number):
    lines = list(galley.lines)
    lines[number - 1] = lines[number - 1]._replace(legal=0)
    return replace(galley, streams=(tuple(lines), *galley.floats))


A = plain(Spec(30, 30, 0, 0, 1, 1, 1), (10, 10, 10), [(20, 1)])
A_TALL = plain(A.spec, (10, 10, 10), [(31, 1)])
B = plain(A.spec._replace(htmin=20), (20, 20), [])
C = plain(A.spec._replace(htmin=10, htmax=20, sides=2), (10, 10, 20, 20), [(20, 4)])
# Two pages and three both turn one leaf; two leave less white space.
EVEN = plain(A.spec._replace(htmin=0, htmax=20, sides=2), (10, 10, 10), [])
# The same where neither leaves any: the last line has no height.
FILLED = plain(EVEN.spec, (20, 20, 0), [])
# Three pages of which the first two lack 10 together, wherever page 1 ends; a figure without height beside the line or apart.
TIED = Galley(A.spec._replace(htmin=0), (tuple(Line(10, 0, 0, int(k in (2, 3, 5, 7))) for k in range(1, 8)), ()))
FLAT_FIGURE = plain(A.spec._replace(htmin=0, htmax=10, alpha=0, beta=0), (10,), [(0, 1), (10, 1)])
PAIR = plain(A.spec._replace(htmin=0, alpha=0, beta=0), (10,), [(10, 1), (10, 1)])
SPACED = Galley(A.spec._replace(htmin=28), (3 * (Line(10, 5, 8, 1),), ()))
# The figure fills page 1, and its line is too low for any page but the last: page 2 must lie on the same spread.
FIGURE_FIRST = plain(Spec(20, 20, 0, 0, 2, 1, 1), (10,), [(20, 1)])
# A drawing of 10 and its legend of 20, both cited by line 1: apart they fit beside the lines, together they fill a page.
LEGEND = plain(A.spec._replace(htmin=0), (10, 10, 10), [(10, 1), (20, 1)])
CHAIN = plain(A.spec._replace(htmin=0), (10,), [(10, 1), (10, 1), (10, 1)])
# Two pages: the later start of the last one leaves it a single line.
TWO_PAGES = plain(A.spec._replace(htmin=20), (10, 10, 10, 10), [])
# Galleys F, G and H of the table that is proved (crates/cases): every space and the separation stretch; every other line forbids
# a page end; a page may end after lines 255 and 300 alone.
F = Galley(Spec(0, 100_000, 4, 40, 1, 2, 3),
           ((Line(10, 0, 100, 1), Line(10, 5, 9, 1), Line(10, 1, 10, 1), Line(10, 5, 9, 1), Line(10, 5, 9, 1)),
            (Figure(10, 5, 9, 1), Figure(10, 2, 20, 1), Figure(10, 5, 9, 2), Figure(10, 5, 9, 3))))
G = Galley(Spec(20, 30, 0, 0, 1, 1, 1), (tuple(Line(10, 0, 0, legal) for legal in (0, 1, 0, 1, 0)),
                                         (Figure(10, 0, 0, 5), Figure(30, 0, 0, 5))))
H = Galley(Spec(0, 300, 0, 0, 1, 1, 1), (tuple(Line(1, 0, 0, int(k in (255, 300, 301))) for k in range(1, 302)), ()))
# Galleys K to N of the table that is proved: a figure and a table of which either may come first; separations of 4 to 5 beside two
# lines, a figure and a table; a figure and a table cited by line 1 or line 2; a table that fills a page.
K = plain(A.spec._replace(htmin=0, htmax=40), (10, 10, 10), [(20, 1)], [(20, 1)])
L = plain(Spec(0, 40, 4, 5, 1, 1, 1), (10, 10), [(10, 1)], [(10, 1)])
M = plain(Spec(0, 40, 0, 0, 1, 1, 1), (10, 10), [(10, 1)], [(10, 2)])
N = plain(Spec(0, 30, 0, 0, 2, 1, 1), (20,), [(10, 1)], [(25, 1)])
# Chapters of books, galleys P, S, T, U and V of the table that is proved: lines that stretch to a page; a line that cites a figure, each
# a page; pages of 20, no less, of which T_LATE must open on a left-hand one; a low line; K without its table.
P = Galley(Spec(0, 20, 0, 0, 2, 1, 1), (5 * (Line(5, 0, 20, 1),), ()))
S = plain(P.spec, (20,), [(20, 1)])
T_ONE = plain(P.spec._replace(htmin=20), (20,), [])
T_TWO = plain(T_ONE.spec, (20, 20), [])
T_HIGH = plain(T_ONE.spec, (21,), [])
T_LATE = plain(T_ONE.spec, (10,), [(20, 1)])
U = plain(P.spec, (5,), [])
V = plain(K.spec, (10, 10, 10), [(20, 1)])
# C with a table in place of its figure, and with one beside it; two tables that one line cites; figures that a table goes past.
C_TABLE = plain(C.spec, (10, 10, 20, 20), [], [(20, 4)])
C_BOTH = plain(C.spec, (10, 10, 20, 20), [(20, 4)], [(20, 4)])
TABLE_PAIR = plain(A.spec._replace(htmin=0, htmax=20, alpha=0), (10,), [], [(10, 1), (10, 1)])
PASSED = plain(A.spec._replace(htmin=20), (10, 10), [(10, 1), (20, 1), (20, 1)], [(10, 1)])
LONGEST = plain(Spec(0, 1, 0, 0, 1, 1_000, 1_000), 4_000 * (0,), 200 * [(0, 1)])
LARGE_TABLES = plain(LONGEST.spec, 4_000 * (0,), 30 * [(0, 1)], 10 * [(0, 4_000)])
LONGEST_TABLES = plain(LONGEST.spec, 4_000 * (0,), 200 * [(0, 1)], 50 * [(0, 1)])
ONE_A_PAGE = tuple(word for page in range(1, 4_201) for word in (min(page, 4_000), max(page - 4_000, 0)))
TABLES_ONE_A_PAGE = tuple(word for page in range(1, 4_251)
                          for word in (min(page, 4_000), min(max(page - 4_000, 0), 200), max(page - 4_200, 0)))
