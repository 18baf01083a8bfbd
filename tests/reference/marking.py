"""Marking a page list, twice: by document 01's numbered rules, and by the paper's map from material to pages.

The two halves share nothing but `leaf`, so that each can convict the other. A place, and a map, has one entry for each stream.
"""


def leaf(sides, folio, page):
    """What the reader sees at once: in double-sided work the spread, which goes by folio from that of page 1 on; else the page
    itself."""
    return (folio + page - 1) // 2 + 1 if sides == 2 else page


# By document 01: a list of words, the first rule it breaks, its turns.


def mark(galley, words):
    """('accepted', p, X, Y, T, W), or ('refused', number, place) with the first rule of 12 to 18 that the list breaks."""
    width = len(galley.streams)
    if not words or len(words) % width or len(words) > width * sum(galley.sizes):
        return ('refused', 12, 0)
    ends = places(galley, words)
    start = galley.nothing
    for page, end in enumerate(ends, 1):
        fault = page_fault(galley, start, end, page, last=page == len(ends))
        if fault:
            return ('refused', fault, page)
        start = end
    if start != galley.sizes:
        return ('refused', 18, len(ends))
    return ('accepted', len(ends), *turns(galley, ends), white(galley, ends))


def places(galley, words):
    """The place where each page ends: as many words a page as there are streams."""
    return list(zip(*(iter(words),) * len(galley.streams)))


def page_fault(galley, start, end, page, last):
    """The first of 13 to 17 that a page from start to end breaks, or None."""
    spec = galley.spec
    if start == end or any(not u <= v <= size for u, v, size in zip(start, end, galley.sizes)):
        return 13
    if not may_end(galley, end):
        return 14
    if tightest(galley, start, end) > spec.htmax:
        return 15
    if loosest(galley, start, end) < spec.floor(last):
        return 16
    ends_leaf = leaf(spec.sides, galley.folio, page) != leaf(spec.sides, galley.folio, page + 1)
    if (ends_leaf or last) and any(j > 0 and floats[j - 1].cite > end[0] for floats, j in zip(galley.floats, end[1:])):
        return 17
    return None


def may_end(galley, end):
    """Whether the last block of each stream so far, if there is one and more are to come, allows a page end after it."""
    return all(not 0 < count < len(stream) or stream[count - 1].legal == 1 for stream, count in zip(galley.streams, end))


def tightest(galley, start, end):
    return height(galley, start, end, 'least', galley.spec.smin)


def loosest(galley, start, end):
    return height(galley, start, end, 'most', galley.spec.smax)


def height(galley, start, end, space, separation):
    """The blocks of each stream, the spaces strictly between them, and the separation between kinds."""
    kinds = [stream[u:v] for stream, u, v in zip(galley.streams, start, end) if u < v]
    return sum(stacked(kind, space) for kind in kinds) + (len(kinds) - 1) * separation


def stacked(blocks, space):
    """Blocks of one stream and the spaces strictly between them."""
    return sum(block.height for block in blocks) + sum(getattr(block, space) for block in blocks[:-1])


def turns(galley, ends):
    """X, Y and T of a valid list, given as the place that ends each page."""
    spec = galley.spec
    x = 0
    for stream, floats in enumerate(galley.floats, 1):
        for number, block in enumerate(floats, 1):
            placed = next(page for page, end in enumerate(ends, 1) if end[stream] >= number)
            cited = next(page for page, end in enumerate(ends, 1) if end[0] >= block.cite)
            x += leaf(spec.sides, galley.folio, placed) - leaf(spec.sides, galley.folio, cited)
    last = galley.folio + len(ends) - 1
    y = last // 2 - galley.folio // 2 if spec.sides == 2 else len(ends) - 1
    return x, y, spec.alpha * x + spec.beta * y


def white(galley, ends):
    """W of a valid list: what its pages but the last lack of htMax, however loose they are (document 02, S-10)."""
    return sum(white_on(galley, start, end) for start, end in zip([galley.nothing, *ends], ends[:-1]))


def white_on(galley, start, end):
    return max(0, galley.spec.htmax - loosest(galley, start, end))


def waiting(galley, place):
    """Of each float stream the numbers of the floats that are not placed at a place though a line that is cites them."""
    lines, *placed = place
    return tuple(tuple(k for k, block in enumerate(floats, 1) if k > j and block.cite <= lines)
                 for floats, j in zip(galley.floats, placed))


# By the paper: maps[s][k] is P of block k + 1 of stream s, the text first, and p is the page count.


def is_pagination(galley, maps, p):
    """Whether the map onto p pages meets the four constraints of the paper's section 2, the last page held to lastMin."""
    return (set().union(*maps) == set(range(1, p + 1))
            and all(map(never_falls, maps))
            and all(not_overfull(galley, maps, page) for page in range(1, p + 1))
            and all(not_underfull(galley, maps, page, galley.spec.htmin) for page in range(1, p))
            and not_underfull(galley, maps, p, galley.spec.lastmin or 0)
            and ends_are_legal(galley, maps)
            and citations_come_first(galley, maps))


def never_falls(pages):
    return all(here <= there for here, there in zip(pages, pages[1:]))


def not_overfull(galley, maps, page):
    return page_height(galley, maps, page, 'least', galley.spec.smin) <= galley.spec.htmax


def not_underfull(galley, maps, page, least):
    return page_height(galley, maps, page, 'most', galley.spec.smax) >= least


def page_height(galley, maps, page, space, separation):
    """What the streams put on a page, and a separation for each of its kinds beyond the first."""
    streams = sum(stream_height(stream, page_of, page, space) for stream, page_of in zip(galley.streams, maps))
    kinds = sum(page in page_of for page_of in maps)
    return streams + separation * max(kinds - 1, 0)


def stream_height(stream, page_of, page, space):
    """One stream's part of a page; a space counts only if the items on both sides of it are on the page."""
    total = 0
    for k, item in enumerate(stream):
        if page_of[k] == page:
            total += item.height
            if k + 1 < len(stream) and page_of[k + 1] == page:
                total += getattr(item, space)
    return total


def ends_are_legal(galley, maps):
    """A space between blocks of a stream that lie on different pages vanishes there, so it must allow a page end."""
    return all(block.legal or here == there for stream, page_of in zip(galley.streams, maps)
               for block, here, there in zip(stream, page_of, page_of[1:]))


def citations_come_first(galley, maps):
    return all(cited <= placed for cited, placed in citation_leaves(galley, maps, galley.spec.sides))


def citation_leaves(galley, maps, sides):
    """The leaf of each float's citing line, and its own."""
    for floats, page_of in zip(galley.floats, maps[1:]):
        for block, page in zip(floats, page_of):
            yield leaf(sides, galley.folio, maps[0][block.cite - 1]), leaf(sides, galley.folio, page)


def turn_s(galley, maps, p):
    """Turn.S of the paper's section 3, weights from the galley."""
    return turn(galley, maps, p, sides=1)


def turn_d(galley, maps, p):
    """Turn.D of the paper's section 3, weights from the galley."""
    return turn(galley, maps, p, sides=2)


def turn(galley, maps, p, sides):
    thumbing = sum(galley.spec.alpha * (placed - cited) for cited, placed in citation_leaves(galley, maps, sides))
    return thumbing + galley.spec.beta * (leaf(sides, galley.folio, p) - leaf(sides, galley.folio, 1))


def white_by_map(galley, maps, p):
    """W from the map: of each page but the last the space between its greatest height and htMax (document 02, S-10)."""
    heights = [page_height(galley, maps, page, 'most', galley.spec.smax) for page in range(1, p)]
    return sum(galley.spec.htmax - height for height in heights if height < galley.spec.htmax)


def words_of_map(maps, p):
    """The page list of a map: how many blocks of each stream lie on pages 1 to q, for each page q."""
    return tuple(sum(at <= page for at in page_of) for page in range(1, p + 1) for page_of in maps)


def map_of_words(galley, words):
    """The map whose page list this is, and its page count; None if no map has this list."""
    ends = places(galley, words)
    maps = tuple(first_reaching(size, [end[stream] for end in ends]) for stream, size in enumerate(galley.sizes))
    if words_of_map(maps, len(ends)) != tuple(words) or any(0 in page_of for page_of in maps):
        return None
    return maps, len(ends)


def first_reaching(count, placed):
    """For each item of a stream the first page at whose end it is placed, 0 if there is none."""
    return [next((page for page, so_far in enumerate(placed, 1) if so_far >= item), 0) for item in range(1, count + 1)]
