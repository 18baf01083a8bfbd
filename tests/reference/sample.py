"""Random galleys and page lists from a seeded generator, small enough in height that many lists are valid."""

import random
from dataclasses import replace

from .galley import Figure, Galley, Line, Spec, Table, streams_of


def galleys(seed, count, max_lines, max_figures, max_tables=0):
    """The same galleys for the same seed, single-sided and double-sided in turn; where there may be tables, each has some."""
    rng = random.Random(seed)
    for number in range(count):
        yield one_galley(rng, max_lines, max_figures, max_tables, sides=1 + number % 2)


def one_galley(rng, max_lines, max_figures, max_tables, sides):
    htmax = rng.randint(8, 40)
    # A low least height keeps most pages possible; a high one now and then exercises 16 and 11.
    htmin = rng.choice((0, htmax // 4, htmax // 2, rng.randint(0, htmax)))
    smin = rng.choice((0, 0, 1, 3))
    spec = Spec(htmin, htmax, smin, smin + rng.choice((0, 2, 10)), sides, weight(rng), weight(rng), lastmin(rng, htmin, htmax))
    lines = tuple(Line(*sized(rng, htmax), int(rng.random() < 0.85)) for _ in range(rng.randint(1, max_lines)))
    cites = citations(rng, len(lines), rng.randint(0, max_figures))
    figures = tuple(Figure(*sized(rng, htmax), cite, kept(rng)) for cite in cites)
    others = tables(rng, len(lines), max_tables, lambda: sized(rng, htmax))
    return Galley(spec, streams_of(lines, figures, others), folio(rng))


def books(seed, count, most_chapters=3, max_lines=4, max_figures=2, max_tables=1):
    """Chapters of one specification, the first of them with a folio of its own now and then; some with tables and some without."""
    rng = random.Random(seed)
    for number in range(count):
        yield one_book(rng, rng.randint(1, most_chapters), (max_lines, max_figures, max_tables), 1 + (number % 3 > 0))


def one_book(rng, chapters, most, sides):
    """A chapter of every other book may have to open on the left, or may end on either side."""
    first = rng.choice((one_galley(rng, *most, sides), one_galley(rng, *most[:2], 0, sides), low_spec(rng, sides)))
    drawn = [first] + [one_chapter(rng, most, first.spec) for _ in range(chapters - 1)]
    return tuple(replace(galley, stated=None if number else galley.stated) for number, galley in enumerate(drawn))


def facing_books(seed, count, most_chapters=3):
    """Double-sided books of blocks that fill a page or half of one: it hangs on the side that a chapter opens on what it costs, or
    whether it has a list at all."""
    rng = random.Random(seed)
    for _ in range(count):
        spec = Spec(rng.choice((0, 0, 10, 20)), 20, 0, 0, 2, rng.choice((0, 1, 3)), rng.choice((0, 1)), rng.choice((None, 0, 10)))
        chapters = [facing_chapter(rng, spec) for _ in range(rng.randint(2, most_chapters))]
        yield (replace(chapters[0], stated=folio(rng)), *chapters[1:])


def facing_chapter(rng, spec):
    lines = tuple(Line(rng.choice((10, 10, 20)), 0, rng.choice((0, 20)), 1) for _ in range(rng.randint(1, 4)))
    figures = tuple(Figure(20, 0, 0, cite) for cite in citations(rng, len(lines), rng.choice((0, 1, 1, 2))))
    return Galley(spec, streams_of(lines, figures, tables(rng, len(lines), int(rng.random() < 0.1), lambda: (20, 0, 0))))


def low_spec(rng, sides):
    """One line, and a specification that leaves many lists: weights of 0 and 1, low pages, equal heights."""
    htmax = rng.choice((10, 20))
    spec = Spec(rng.choice((0, 0, 10)), htmax, 0, 0, sides, rng.choice((0, 1)), rng.choice((0, 1)), rng.choice((None, 0)))
    return Galley(spec, streams_of((Line(rng.choice((5, 10)), 0, rng.choice((0, 20)), 1),), ()), folio(rng))


def one_chapter(rng, most, spec):
    """A chapter under a specification: lines and figures that fill a page or half of one, or any."""
    lines, figures, others = most
    if rng.random() < 0.5:
        sizes = lambda: (rng.choice((spec.htmax, spec.htmax // 2, spec.htmin)), 0, rng.choice((0, 0, spec.htmax)))  # noqa: E731
    else:
        sizes = lambda: sized(rng, spec.htmax)  # noqa: E731
    text = tuple(Line(*sizes(), int(rng.random() < 0.9)) for _ in range(rng.randint(1, lines)))
    cites = citations(rng, len(text), rng.randint(0, figures))
    tabled = tables(rng, len(text), others if rng.random() < 0.4 else 0, sizes)
    return Galley(spec, streams_of(text, tuple(Figure(*sizes(), cite, kept(rng)) for cite in cites), tabled))


def tables(rng, lines, most, size):
    """One table or more, each of a drawn size; none where none is the most."""
    return tuple(Table(*size(), cite) for cite in citations(rng, lines, rng.randint(1, most))) if most else ()


def fine_galleys(seed, count, least_lines, most_lines, max_figures, max_tables=0, highest=24):
    """Many lines of small height, few of which make a page that is full enough: the lines that a page to a place can start
    after come and go as the place moves on."""
    rng = random.Random(seed)
    for number in range(count):
        lines, most = rng.randint(least_lines, most_lines), (max_figures, max_tables)
        yield one_fine_galley(rng, lines, most, rng.randint(6, highest), 1 + number % 2)


def one_fine_galley(rng, lines, most, htmax, sides):
    max_figures, max_tables = most
    htmin = rng.choice((htmax // 2, 2 * htmax // 3, htmax - 1, rng.randint(1, htmax)))
    smin = rng.choice((0, 0, 1, 2))
    # Weights of 0 make ties, which the latest starts decide.
    spec = Spec(htmin, htmax, smin, smin + rng.choice((0, 1, 5)), sides, rng.choice((0, 0, 1, 3)), rng.choice((0, 0, 1, 2)),
                lastmin(rng, htmin, htmax))
    barred = forbidden_ends(rng, lines)
    cites = citations(rng, lines, rng.randint(0, max_figures))
    text = tuple(Line(*fine(rng, htmax, 1.5 / lines), int(k not in barred)) for k in range(1, lines + 1))
    figures = tuple(Figure(*fine(rng, htmax, 0.2), cite, kept(rng)) for cite in cites)
    others = tables(rng, lines, max_tables, lambda: fine(rng, htmax, 0.2))
    return Galley(spec, streams_of(text, figures, others), folio(rng))


def folio(rng):
    """A first folio as `FO` states it: none, even or odd, and some after which folios pass 9,999."""
    return rng.choice((None, None, 1, 2, 38, 39, 9_998, 9_999, rng.randint(1, 9_999)))


def lastmin(rng, htmin, htmax):
    """The eighth field of a second edition, low, as a part of htMin or above it; None for the first edition."""
    return rng.choice((None, None, 0, 1, htmin // 2, htmin, rng.randint(htmin, htmax)))


def kept(rng):
    return int(rng.random() < 0.25)


def left_galleys(seed, count, max_tables=0):
    """Double-sided galleys that open on a left-hand page. A float fills a page and the first lines do not, so that the best
    list often has floats before any line; with tables there may be no figure."""
    rng = random.Random(seed)
    for _ in range(count):
        htmax = rng.randint(8, 40)
        htmin = rng.randint(htmax // 2, htmax)
        spec = Spec(htmin, htmax, 0, rng.choice((0, 2)), 2, weight(rng), weight(rng), lastmin(rng, 0, htmin))
        lines = tuple(Line(rng.randint(0, htmax // 2), 0, 2, rng.randint(0, 1)) for _ in range(rng.randint(1, 5)))
        cites = citations(rng, min(2, len(lines)), rng.randint(0, 1) if max_tables else rng.randint(1, 3))
        figures = tuple(Figure(rng.randint(spec.htmin, htmax), 0, 0, cite, kept(rng)) for cite in cites)
        others = tables(rng, min(2, len(lines)), max_tables, lambda: (rng.randint(htmin, htmax), 0, 0))
        yield Galley(spec, streams_of(lines, figures, others), rng.choice((2, 38, 9_998)))


def fine(rng, htmax, chance):
    """Height, least and greatest space: little of all, but by that chance a block that fills most of a page."""
    height = rng.randint(htmax // 2, htmax) if rng.random() < chance else rng.choice((0, 0, 1, 1, 1, 2, 3))
    least = rng.choice((0, 0, 0, 1))
    return height, least, least + rng.choice((0, 0, 1, 4))


def forbidden_ends(rng, lines):
    """Single lines and a run of lines that no page may end after."""
    first = rng.randint(1, lines)
    run = set(range(first, first + rng.choice((0, 0, 2, 4))))
    return run | {rng.randint(1, lines) for _ in range(lines // 10)}


def weight(rng):
    return rng.choice((0, 1, 1, 2, 5, 1_000))


def sized(rng, htmax):
    """Height, least and greatest space; some items fill their page, some have no height, some spaces stretch far."""
    height = rng.choice((0, 4, 5, 8, 10, rng.randint(1, htmax)))
    least = rng.choice((0, 0, 0, 1, 3))
    return height, least, least + rng.choice((0, 0, 2, 20))


def citations(rng, lines, floats):
    """Drawn from few lines, so that several floats often share one."""
    few = [rng.randint(1, lines) for _ in range(max(1, floats // 2 + 1))]
    return sorted(rng.choice(few) for _ in range(floats))


def page_list(rng, galley):
    """A list that ends with everything placed and never falls, but may break any other rule."""
    pages = rng.randint(1, sum(galley.sizes))
    counts = [sorted(rng.randint(0, size) for _ in range(pages - 1)) + [size] for size in galley.sizes]
    return tuple(word for end in zip(*counts) for word in end)


def mutated(rng, galley, words):
    """The list with one slip of the kinds a person or a program makes."""
    words, width = list(words), len(galley.streams)
    at = rng.randrange(len(words))
    page = at // width * width
    slip = rng.randrange(7)
    if slip == 0:
        words[at] += 1
    elif slip == 1:
        words[at] = max(0, words[at] - 1)
    elif slip == 2:
        words[at] = rng.choice((0, 2**31, 2**32 - 1))
    elif slip == 3:
        del words[page:page + width]
    elif slip == 4:
        words[page:page] = words[page:page + width]
    elif slip == 5:
        other = page + (at + 1 - page) % width
        words[at], words[other] = words[other], words[at]
    else:
        del words[at]
    return tuple(words)


def broken(rng, data):
    """A galley's bytes with one bit flipped, and now and then cut short."""
    damaged = bytearray(data)
    damaged[rng.randrange(len(damaged))] ^= 1 << rng.randrange(8)
    return bytes(damaged[:rng.choice((len(damaged), rng.randrange(len(damaged))))])
