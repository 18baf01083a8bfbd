"""What explains a list, from the rules alone: every rule that every page breaks, and the page ends with which turns are lost for
good. A page that goes backwards or past the galley places what it can, and the pages after it go on from there."""

import json
import struct
from pathlib import Path

from . import marking, search
from .galley import read

CASES = Path(__file__).resolve().parents[1] / 'explanations/cases.json'


def cases():
    """The cases that the command's words and the page's are held to: each with its galley and its list of words."""
    for case in json.loads(CASES.read_text())['cases']:
        kind, galley = read(packed(case['galley']))
        assert kind == 'galley', case['name']
        yield case, galley, tuple(word for page in case['list'] for word in page)


def packed(text):
    """The bytes of a galley as text, without comments."""
    records = [line.split() for line in text.splitlines()]
    return b''.join(mark.encode() + struct.pack(f'>{len(fields)}I', *map(int, fields)) for mark, *fields in records)


def broken(galley, words):
    """(page, rule) for every rule that a list breaks, page by page; page 0 is the list as a whole."""
    fault = marking.mark(galley, words)
    if fault[:2] == ('refused', 12):
        return [(0, 12)]
    found, start, ends = [], galley.nothing, marking.places(galley, words)
    for page, end in enumerate(ends, 1):
        found += [(page, rule) for rule in faults(galley, start, end, page, page == len(ends))]
        start = placed(galley, start, end)
    return found + ([(len(ends), 18)] if start != galley.sizes else [])


def placed(galley, start, end):
    return tuple(min(max(u, v), size) for u, v, size in zip(start, end, galley.sizes))


def faults(galley, start, end, page, last):
    """Every one of 13 to 17 that a page breaks; 13 leaves nothing else to ask."""
    if start == end or any(not u <= v <= size for u, v, size in zip(start, end, galley.sizes)):
        return [13]
    spec = galley.spec
    ends_leaf = last or marking.leaf(spec.sides, galley.folio, page) != marking.leaf(spec.sides, galley.folio, page + 1)
    soon = any(j > 0 and floats[j - 1].cite > end[0] for floats, j in zip(galley.floats, end[1:]))
    return [rule for rule, holds in ((14, not marking.may_end(galley, end)), (15, marking.tightest(galley, start, end) > spec.htmax),
                                     (16, marking.loosest(galley, start, end) < spec.floor(last)), (17, ends_leaf and soon)) if holds]


def lost(galley, words):
    """(page, line, turns, floats, leaves) for each page end of an accepted list with which turns are lost for good, page after
    page: the best list after the first q pages against the best after q - 1."""
    width, found = len(galley.streams), []
    before = search.best_by_table(galley)
    for page in range(1, len(words) // width + 1):
        printed = words[:width * page]
        after = words if len(printed) == len(words) else search.best_by_table(galley, printed)
        more = marking.mark(galley, after)[4] - marking.mark(galley, before)[4]
        if more:
            found.append((page, printed[-width], more, *waits(galley, before, after)))
        before = after
    return found


def waits(galley, before, after):
    """The floats with more turns in one list than in another, if turns to floats have a weight; and the same of the leaves."""
    spec = galley.spec
    (_, _, _, less, _, _), (_, _, _, more, _, _) = marking.mark(galley, before), marking.mark(galley, after)
    longer = [name for (name, then), (_, now) in zip(floats(galley, before), floats(galley, after)) if now > then]
    return longer if spec.alpha else [], max(0, more - less) if spec.beta else 0


def floats(galley, words):
    """Each float's name and the leaves from its citation to it."""
    ends, spec = marking.places(galley, words), galley.spec
    page = lambda stream, count: next(q for q, end in enumerate(ends, 1) if end[stream] >= count)
    leaf = lambda stream, count: marking.leaf(spec.sides, galley.folio, page(stream, count))
    return [(f'{letter}{number}', leaf(stream, number) - leaf(0, block.cite))
            for stream, (letter, blocks) in enumerate(zip('FT', galley.floats), 1) for number, block in enumerate(blocks, 1)]
