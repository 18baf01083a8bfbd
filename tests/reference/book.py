"""A whole book from its chapters, from document 02 alone (S-9, with W as S-10 amends it): by looking at every choice, and again by
sides for books with too many choices. A choice has a page list for each chapter, valid at the folio on which the chapter opens."""

from dataclasses import replace
from functools import lru_cache

from . import beforehand, marking, search
from .galley import read

MOST_CHAPTERS = 200


def chapters(data, lengths):
    """('book', galleys), or ('refused', number, place): 28, then chapter by chapter its own refusal, 29 and 30."""
    if not 1 <= len(lengths) <= MOST_CHAPTERS or sum(lengths) != len(data):
        return ('refused', 28, 0)
    galleys, at = [], 0
    for number, length in enumerate(lengths, 1):
        found = read(data[at:at + length])
        fault = chapter_fault(found, galleys)
        if fault:
            return ('refused', fault, number)
        galleys.append(found[1])
        at += length
    return ('book', tuple(galleys))


def chapter_fault(found, before):
    """Why a chapter is turned away, by what reading it gave and by the chapters before it; None if it is not."""
    if found[0] == 'refused':
        return found[1]
    if before and found[1].spec != before[0].spec:
        return 29
    return 30 if before and found[1].stated is not None else None


def lengths(galleys):
    """The words that making a book needs of the work area and of the page list."""
    needed = [beforehand.lengths(galley) for galley in galleys]
    return 2 * max(work for work, _ in needed), sum(listed for _, listed in needed)


def opened(galley, folio):
    """A chapter that opens on a folio."""
    return replace(galley, stated=folio)


def opened_chapters(galleys, choice):
    """Each chapter that the choice has a list for, as it opens on the folio after the one before, and its list."""
    folio = galleys[0].folio
    for galley, words in zip(galleys, choice):
        yield opened(galley, folio), words
        folio += len(words) // len(galley.streams)


def every(galleys, folio=None):
    """Every choice: each list that is valid where the first chapter opens, and after it each choice of the others."""
    if not galleys:
        yield ()
        return
    first, *others = galleys
    first = opened(first, first.folio if folio is None else folio)
    for words in lists(first):
        for rest in every(others, first.folio + len(words) // len(first.streams)):
            yield (words, *rest)


@lru_cache(maxsize=1_000)
def lists(galley):
    return tuple(search.every(galley))


def best(galleys):
    """The first by rank of all choices, or None if there is none (11)."""
    return first(galleys, every(galleys))


def first(galleys, choices):
    return min(choices, key=lambda choice: rank(galleys, choice), default=None)


def measure(galleys, choice):
    """p, X, Y, T and W, of the chapters that the choice has a list for: Y is that of the first page and the last."""
    spec, marks = galleys[0].spec, [marked(*chapter)[0] for chapter in opened_chapters(galleys, choice)]
    p, x, white = (sum(mark[at] for mark in marks) for at in (1, 2, 5))
    y = marking.leaf(spec.sides, galleys[0].folio, p) - marking.leaf(spec.sides, galleys[0].folio, 1)
    return p, x, y, spec.alpha * x + spec.beta * y, white


def rank(galleys, choice):
    """What making a book compares: turns, white space, then the chapters' lists in a galley's tie order, the last chapter's first."""
    ties = [marked(*chapter)[1] for chapter in opened_chapters(galleys, choice)]
    return (*measure(galleys, choice)[3:], ties[::-1])


@lru_cache(maxsize=20_000)
def marked(galley, words):
    """What the marking says of a list, and what a galley's tie order looks at."""
    return marking.mark(galley, words), search.rank(galley, words)[2:]


def best_by_sides(galleys):
    """As best, chapter by chapter: after choices that close on one side the book goes on alike, so that only the first of them by
    rank is kept, and of a chapter's lists from one side to another only the first."""
    kept = [()]
    for chapter in galleys:
        longer = {}
        for choice in kept:
            folio = galleys[0].folio + pages(galleys, choice)
            for words in search.closings(opened(chapter, folio)):
                together = (*choice, words)
                side = (folio + len(words) // len(chapter.streams)) % chapter.spec.sides
                longer[side] = first(galleys, [together, longer.get(side, together)])
        kept = list(longer.values())
    return first(galleys, kept)


def pages(galleys, choice):
    return sum(len(words) // len(galley.streams) for galley, words in zip(galleys, choice))


def forecast(galleys):
    """Words of work area and of page list, and a ceiling on the pages weighed."""
    return (*lengths(galleys), sum(map(beforehand.ceiling, galleys)))
