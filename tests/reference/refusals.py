"""Which refusal is due: to some files, from document 01, and to any list, again, from the paper's map of its pages."""

from dataclasses import replace

from . import marking
from .galley import record


def of_list(galley, words):
    """Number and place for a list that is no pagination's, from the paper's map of its pages so far."""
    width = len(galley.streams)
    pages = len(words) // width
    if len(words) not in range(width, width * sum(galley.sizes) + 1, width):
        return 12, 0
    for page in range(1, pages + 1):
        number = of_page(galley, words[:width * page], page == pages)
        if number:
            return number, page
    return 18, pages


def of_page(galley, words, last):
    """The first of 13 to 17 that the last of these pages breaks, or None; the pages before it break none."""
    width = len(galley.streams)
    page, end = len(words) // width, words[-width:]
    so_far = replace(galley, streams=tuple(stream[:count] for stream, count in zip(galley.streams, end)))
    found = marking.map_of_words(so_far, words)
    if found is None or set().union(*found[0]) != {*range(1, page + 1)}:
        return 13
    maps = found[0]
    # What is still to come goes to the next page at the earliest, and to no page that could be seen if there is none.
    later = page + 2 if last else page + 1
    ahead = [page_of + [later] * (size - len(page_of)) for page_of, size in zip(maps, galley.sizes)]
    if not marking.ends_are_legal(galley, ahead):
        return 14
    if not marking.not_overfull(so_far, maps, page):
        return 15
    if not marking.not_underfull(so_far, maps, page, (galley.spec.lastmin or 0) if last else galley.spec.htmin):
        return 16
    if not marking.citations_come_first(galley, ahead):
        return 17
    return None


def files():
    """Name, bytes, number and place; each number where it is due, and each where two compete."""
    spec, line = record(b'GS', 30, 30, 0, 0, 1, 1, 1), record(b'TL', 10, 0, 0, 1)
    figure = record(b'FG', 20, 0, 0, 1)
    opened, full = spec + line, spec + 4_000 * line
    yield 'no bytes', b'', 1, 0
    yield 'half a mark', b'G', 1, 0
    yield 'half a specification', spec[:29], 1, 0
    yield 'no end', opened, 1, 48
    yield 'half a mark after a line', opened + b'X', 1, 48
    yield 'half a figure out of range', opened + record(b'FG', 2**32 - 1, 0), 1, 48
    yield 'no specification', line, 2, 0
    yield 'end first', b'ED', 2, 0
    yield 'figure first', figure, 2, 0
    yield 'second specification', spec + spec, 2, 30
    yield 'specification after a line, cut short', opened + b'GS', 2, 48
    yield 'unknown mark, nothing after it', opened + b'tl', 2, 48
    yield 'unknown mark before any line', spec + b'XX', 2, 30
    yield 'line after a figure', opened + figure + line, 2, 66
    yield 'line 4,001 after a figure', full + figure + line, 2, 30 + 4_000 * 18 + 18
    yield 'line 4,001', full + line + b'ED', 4, 30 + 4_000 * 18
    yield 'line 4,001 cut short', full + b'TL', 4, 30 + 4_000 * 18
    yield 'figure 201', opened + 201 * figure, 4, 48 + 200 * 18
    yield 'figure 201 cut short', opened + 200 * figure + b'FG', 4, 48 + 200 * 18
    yield 'end before any line', spec + b'ED', 5, 30
    yield 'figure before any line', spec + figure, 5, 30
    yield 'figure before any line, cut short', spec + b'FG', 5, 30
    yield 'citation 0', opened + record(b'FG', 1, 0, 0, 0) + b'ED', 6, 48
    yield 'citation above m', opened + record(b'FG', 1, 0, 0, 2) + b'ED', 6, 48
    yield 'citation 0 out of order', opened + figure + record(b'FG', 1, 0, 0, 0), 6, 66
    yield 'height before citation', opened + record(b'FG', 100_001, 0, 0, 0), 3, 48
    yield 'citations fall', opened + line + record(b'FG', 1, 0, 0, 2) + figure, 7, 84
    cites = [record(b'FG', 1, 0, 0, cite) for cite in (1, 3, 2)]
    yield 'citation below the previous but not the first', opened + line + line + b''.join(cites), 7, 84 + 2 * 18
    yield 'a byte after the end', opened + b'EDx', 8, 50
    yield 'a second end', opened + figure + b'EDED', 8, 68
    yield from folios(spec, line, figure)
    yield from kept(opened, line, figure)
    yield from editions(spec, line, figure)
    yield from tables(opened, line, figure)
    yield from out_of_range(opened)


def folios(spec, line, figure):
    """`FO` out of place, cut short and out of range, and what comes after one."""
    folio, unfit = record(b'FO', 38), record(b'FO', 0)
    opened, full = spec + folio + line, spec + folio + 4_000 * line
    yield 'folio first', folio, 2, 0
    yield 'folio after a line', spec + line + folio, 2, 48
    yield 'folio after a line, out of range', spec + line + unfit, 2, 48
    yield 'folio after a line, cut short', spec + line + b'FO', 2, 48
    yield 'folio after a figure', spec + line + figure + folio, 2, 66
    yield 'folio after 4,000 lines', full + folio, 2, 36 + 4_000 * 18
    yield 'second folio', spec + folio + folio, 2, 36
    yield 'second folio after a line', opened + folio + line, 2, 54
    yield 'second folio, cut short', spec + folio + b'FO', 2, 36
    yield 'specification after a folio', spec + folio + spec, 2, 36
    yield 'half a mark after the specification', spec + b'F', 1, 30
    yield 'half a folio', (spec + folio)[:35], 1, 30
    yield 'half a folio out of range', spec + record(b'FO', 2**32 - 1)[:5], 1, 30
    yield 'nothing after a folio', spec + folio, 1, 36
    yield 'end straight after a folio', spec + folio + b'ED', 5, 36
    yield 'figure straight after a folio', spec + folio + figure, 5, 36
    yield 'line 4,001 after a folio', full + line, 4, 36 + 4_000 * 18
    yield 'line out of range after a folio', spec + folio + record(b'TL', 1, 0, 0, 2), 3, 36
    yield 'citation above m after a folio', opened + record(b'FG', 1, 0, 0, 2), 6, 54
    yield 'citations fall after a folio', opened + line + record(b'FG', 1, 0, 0, 2) + figure, 7, 90
    yield 'a byte after the end, after a folio', opened + b'ED?', 8, 56
    for first in (0, 10_000, 65_536 + 38, 2**32 - 1):
        yield f'folio {first}', spec + record(b'FO', first) + line + b'ED', 3, 30


def kept(opened, line, figure):
    """`FK` is turned away where `FG` is; both count as figures, in one order of citations."""
    spec, keeps = opened[:30], record(b'FK', 20, 0, 0, 1)
    mixed = opened + 100 * figure + 100 * keeps
    yield 'kept figure first', keeps, 2, 0
    yield 'kept figure before any line', spec + keeps, 5, 30
    yield 'kept figure before any line, cut short', spec + b'FK', 5, 30
    yield 'line after a kept figure', opened + keeps + line, 2, 66
    yield 'folio after a kept figure', opened + keeps + record(b'FO', 38), 2, 66
    yield 'figure 201, after 100 kept ones', mixed + figure, 4, 48 + 200 * 18
    yield 'kept figure 201', mixed + keeps, 4, 48 + 200 * 18
    yield 'kept figure 201, cut short', mixed + b'FK', 4, 48 + 200 * 18
    yield 'half a kept figure', opened + keeps[:17], 1, 48
    yield 'no end after a kept figure', opened + keeps, 1, 66
    yield 'kept figure, citation 0', opened + record(b'FK', 1, 0, 0, 0) + b'ED', 6, 48
    yield 'kept figure, citation above m', opened + record(b'FK', 1, 0, 0, 2) + b'ED', 6, 48
    for one, two in ((b'FK', b'FG'), (b'FG', b'FK'), (b'FK', b'FK')):
        yield f'citations fall from {one} to {two}', opened + line + record(one, 1, 0, 0, 2) + record(two, 1, 0, 0, 1), 7, 84
    yield 'a byte after the end, after a kept figure', opened + keeps + b'ED?', 8, 68


def tables(opened, line, figure):
    """`TB` is turned away where `FG` is, for a stream of its own: 50 at most, after the figures, in an order of its own."""
    spec, table = opened[:30], record(b'TB', 20, 0, 0, 1)
    full = opened + 50 * table
    yield 'table first', table, 2, 0
    yield 'table before any line', spec + table, 5, 30
    yield 'table before any line, cut short', spec + b'TB', 5, 30
    yield 'table straight after a folio', spec + record(b'FO', 38) + table, 5, 36
    yield 'line after a table', opened + table + line, 2, 66
    yield 'line after a table, cut short', opened + table + b'TL', 2, 66
    yield 'figure after a table', opened + table + figure, 2, 66
    yield 'figure after a table, others before it', opened + figure + table + figure, 2, 84
    yield 'kept figure after a table', opened + table + record(b'FK', 20, 0, 0, 1), 2, 66
    yield 'figure 201 after a table', opened + 200 * figure + table + figure, 2, 48 + 201 * 18
    yield 'folio after a table', opened + table + record(b'FO', 38), 2, 66
    yield 'specification after a table', opened + table + spec, 2, 66
    yield 'table 51', full + table, 4, 48 + 50 * 18
    yield 'table 51 cut short', full + b'TB', 4, 48 + 50 * 18
    yield 'table 51 after 200 figures', opened + 200 * figure + 51 * table, 4, 48 + 250 * 18
    yield 'half a table', opened + table[:17], 1, 48
    yield 'no end after a table', opened + figure + table, 1, 84
    yield 'table, citation 0', opened + record(b'TB', 1, 0, 0, 0) + b'ED', 6, 48
    yield 'table, citation above m', opened + figure + record(b'TB', 1, 0, 0, 2) + b'ED', 6, 66
    yield 'tables, citations fall', opened + line + record(b'TB', 1, 0, 0, 2) + table, 7, 84
    # The figure before it is cited by a later line, which is nothing to the first table, and the second table is cited earlier.
    later = opened + line + line + record(b'FG', 1, 0, 0, 3) + record(b'TB', 1, 0, 0, 2)
    yield 'tables, citations fall after a figure', later + record(b'TB', 1, 0, 0, 1), 7, 48 + 4 * 18
    yield 'a byte after the end, after a table', opened + table + b'ED?', 8, 68


def editions(first, line, figure):
    """`G2` is turned away where `GS` is, and where its eighth field is out of range; what comes after one."""
    spec, folio = record(b'G2', 30, 30, 0, 0, 1, 1, 1, 20), record(b'FO', 38)
    opened, full = spec + line, spec + 4_000 * line
    yield 'half a second edition', spec[:33], 1, 0
    yield 'a second edition without its eighth field', spec[:30], 1, 0
    yield 'nothing after a second edition', spec, 1, 34
    yield 'second edition after the first', first + spec, 2, 30
    yield 'first edition after the second', spec + first, 2, 34
    yield 'second edition twice', spec + spec, 2, 34
    yield 'second edition twice, cut short', spec + b'G2', 2, 34
    yield 'second edition after a folio', first + folio + spec, 2, 36
    yield 'second edition after a line', opened + spec, 2, 52
    yield 'second edition after a figure, out of range', opened + figure + record(b'G2', *8 * (2**32 - 1,)), 2, 70
    yield 'second folio in a second edition', spec + folio + folio, 2, 40
    yield 'half a folio in a second edition', (spec + folio)[:39], 1, 34
    yield 'folio out of range in a second edition', spec + record(b'FO', 0), 3, 34
    yield 'end straight after a second edition', spec + b'ED', 5, 34
    yield 'figure straight after a second edition', spec + figure, 5, 34
    yield 'end straight after a folio in a second edition', spec + folio + b'ED', 5, 40
    yield 'line 4,001 in a second edition', full + line, 4, 34 + 4_000 * 18
    yield 'citation above m in a second edition', opened + record(b'FG', 1, 0, 0, 2), 6, 52
    yield 'a byte after the end of a second edition', opened + b'ED?', 8, 54
    for last in (31, 100_000, 2**32 - 1):
        yield f'lastMin {last} above htMax', record(b'G2', 0, 30, 0, 0, 1, 1, 1, last) + line + b'ED', 3, 0


def out_of_range(opened):
    """One field at a time just outside its range, the others inside."""
    for fields in [(2, 1, 0, 0, 1, 1, 1), (0, 0, 0, 0, 1, 1, 1), (0, 100_001, 0, 0, 1, 1, 1), (0, 1, 2, 1, 1, 1, 1),
                   (0, 1, 0, 100_001, 1, 1, 1), (0, 1, 0, 0, 0, 1, 1), (0, 1, 0, 0, 3, 1, 1),
                   (0, 1, 0, 0, 1, 1_001, 1), (0, 1, 0, 0, 1, 1, 1_001), (2**32 - 1, 1, 0, 0, 1, 1, 1)]:
        yield f'specification {fields}', record(b'GS', *fields) + opened[30:] + b'ED', 3, 0
        yield f'second edition {fields}', record(b'G2', *fields, 0) + opened[30:] + b'ED', 3, 0
    for sizes in [(100_001, 0, 0), (0, 1, 0), (0, 0, 100_001), (0, 100_001, 100_001), (2**32 - 1, 0, 0)]:
        yield f'line {sizes}', opened + record(b'TL', *sizes, 1) + b'ED', 3, 48
        yield f'figure {sizes}', opened + record(b'FG', *sizes, 1) + b'ED', 3, 48
        yield f'kept figure {sizes}', opened + record(b'FK', *sizes, 1) + b'ED', 3, 48
        yield f'table {sizes}', opened + record(b'TB', *sizes, 1) + b'ED', 3, 48
    for legal in (2, 256, 2**32 - 1):
        yield f'page end {legal}', opened + record(b'TL', 1, 0, 0, legal) + b'ED', 3, 48
