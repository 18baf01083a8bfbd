"""What is drawn at random for desks: galleys with lists to open on, ends to ask about, names, and any words."""

import struct

from reference import sample, search
from reference.galley import HIGHEST_FOLIO, Figure, Galley, Line, Spec, Table, streams_of, write
from reference.marking import places

import words as desk_words

HIGHEST = 2**32 - 1
NEAR_MOST = (1, 2, 63, 64, 65, 66)  # pages of a list, about as many as a desk takes
# More than a desk holds. Some begin alike, or differ by a zero at the end alone, or by the last of all their bytes.
NAMES = [b'a', b'b', b'ab', b'a\0', b'\0', b'first', b'first ', b'\xff' * 16, b'a' * 15, b'a' * 16, b'a' * 15 + b'b', b'second try']
BAD_NAMES = [b'', b'a' * 17, b'\0' * 17, b'b' * 40]


def galleys(rng, count):
    """Galleys of both widths with lists to open a desk on, accepted ones first."""
    small = [*sample.galleys(rng.random(), count, 8, 4), *sample.galleys(rng.random(), count, 5, 3, 3)]
    for galley in small:
        best = search.best_by_table(galley)
        accepted = [best] if best else []
        drawn = [sample.page_list(rng, galley) for _ in range(2)]
        yield galley, [*accepted, *drawn, *(sample.mutated(rng, galley, listed) for listed in accepted), ()]
    for _ in range(count):
        galley = loose(rng, rng.choice((4, 8, 70)), rng.randint(0, 4), rng.choice((0, rng.randint(1, 3))))
        most = sum(galley.sizes)
        numbers = [pages for pages in (rng.randint(2, most), rng.randint(1, most), *NEAR_MOST) if pages <= most]
        yield galley, [cut(rng, galley, pages) for pages in numbers]


def loose(rng, lines, figures, tables):
    """A galley of which any number of blocks makes a page."""
    def cited(kind, number):
        return [kind(1, 0, 0, cite) for cite in sorted(rng.randint(1, lines) for _ in range(number))]

    spec = Spec(0, 1_000, 0, 0, rng.choice((1, 2)), sample.weight(rng), sample.weight(rng))
    streams = streams_of([Line(1, 0, 0, 1)] * lines, cited(Figure, figures), cited(Table, tables))
    return Galley(spec, streams, rng.choice((None, 1, 2, HIGHEST_FOLIO)))


def cut(rng, galley, pages):
    """A list of so many pages for a loose galley: its blocks in a row, each float after the line that cites it, cut anywhere."""
    numbered = [((number, 0), 0) for number in range(1, len(galley.lines) + 1)]
    for stream, floats in enumerate(galley.floats, 1):
        numbered += [((block.cite, stream), stream) for block in floats]
    row = [stream for _, stream in sorted(numbered)]
    ends = [*sorted(rng.sample(range(1, len(row)), pages - 1)), len(row)]
    return tuple(row[:end].count(stream) for end in ends for stream in range(len(galley.streams)))


def asked(rng, galley, desk):
    """A page, and three words for its end: mostly one of the list in force and not the last, ending between its neighbours, or
    as it does; some that cannot be."""
    force, sizes = desk.force, galley.sizes
    page = rng.randint(1, len(force) - 1) if len(force) > 1 and rng.random() < 0.9 else off(rng, len(force))
    if not 1 <= page < len(force) or rng.random() < 0.15:
        return page, tuple(rng.choice((0, 1, size, rng.randint(0, size), HIGHEST)) for size in (*sizes, HIGHEST)[:3])
    before, end, after = ((0,) * len(force[0]), *force)[page - 1], force[page - 1], force[page]
    between = tuple(rng.randint(*sorted(counts)) for counts in zip(before, after))
    moved = rng.choice(((), (), range(len(end)), *((stream,) for stream in range(len(end)) for _ in range(3))))
    end = tuple(between[stream] if stream in moved else count for stream, count in enumerate(end))
    return page, (*end, rng.randint(0, HIGHEST))[:3]


def off(rng, pages):
    """A page without an end that could be another."""
    return rng.choice((0, pages, pages + 1, 64, 65, 2**31, HIGHEST))


def data(rng, galley, others):
    """The galley's bytes, at times damaged or those of another galley."""
    chance = rng.random()
    if chance < 0.06:
        return sample.broken(rng, write(galley))
    return write(rng.choice(others) if chance < 0.12 else galley)


def named(rng, desk):
    """A call with a name: mostly saves, so that a desk fills up; what is come back to or dropped is often held."""
    held = [layout[0] for layout in desk.layouts if layout and layout[0]]
    call = rng.choice(('save', 'save', 'save', 'save', 'save', 'back', 'back', 'drop', 'drop'))
    if rng.random() < 0.05:
        return call, rng.choice(BAD_NAMES)
    return call, rng.choice(held if held and rng.random() < (0.15 if call == 'save' else 0.6) else NAMES)


def litter(rng):
    """Words that are lent; where a number of pages, of words or of bytes is looked for, often one that there can be."""
    words = struct.unpack(f'={desk_words.WORDS}I', rng.randbytes(4 * desk_words.WORDS))
    few = [(at, [rng.choice((0, 1, 2, 3, 16, 17, 64, 65, rng.randint(0, 80), words[at]))])
           for at in (*range(desk_words.LIST), *desk_words.LAYOUTS)]
    return desk_words.replaced(words, *few)


def junk(rng, galley, listed):
    """Words that no opening left: those of an opened desk with some of them changed."""
    width = len(galley.streams)
    pages = min(len(places(galley, listed)), 64)
    held = (0,) * desk_words.WORDS
    if pages:
        held = desk_words.opened(held, ('accepted', pages), listed[:width * pages])
    fewer = max(pages, 1) - 1
    changes = [(desk_words.PAGES, [rng.choice((pages, fewer, fewer, pages + 1, 64, 65, HIGHEST))]),
               (desk_words.WIDTH, [rng.choice((width, width, width, 2, 3, 0, 1, 4, HIGHEST))]),
               (desk_words.PAGE, [rng.choice((0, 1, fewer, pages, 64, HIGHEST))]),
               (desk_words.END, [rng.choice((0, 1, size, HIGHEST)) for size in (*galley.sizes, 0)[:3]])]
    return with_names(rng, desk_words.replaced(held, *changes))


def with_names(rng, words):
    """The words with layouts that no save left: the same name twice, bytes after a name, lengths that no name has, any lists."""
    for at in rng.sample(desk_words.LAYOUTS, rng.choice((0, 2, 5, 8))):
        named = rng.choice(NAMES[:6])
        followed = (named + rng.choice((b'\0', b'a', b'\xff')) * 16)[:16]
        length = rng.choice((len(named), len(named), len(named), 0, 1, 16, 17, HIGHEST))
        listed = rng.choice(([0] * 6, [HIGHEST] * 6, words[desk_words.LIST:desk_words.LIST + 12]))
        words = desk_words.replaced(words, (at, [length, *struct.unpack('=4I', followed)]), (at + desk_words.LAYOUT_LIST, listed))
    return words
