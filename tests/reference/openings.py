"""An opening that is already printed, from document 02 alone (S-6): a page list, as tuples of words, that a list begins with."""

from itertools import product

from . import marking


def fault(galley, opening):
    """20 or 21 with its place, as document 02 tests them; None for an opening that a list may begin with."""
    width = len(galley.streams)
    if len(opening) % width:
        return 20, 0
    place = galley.nothing
    for page, end in enumerate(marking.places(galley, opening), 1):
        if marking.page_fault(galley, place, end, page, last=False):
            return 20, page
        place = end
    return (21, len(opening) // width) if place == galley.sizes else None


def end(galley, opening):
    """Where an opening of whole pages ends."""
    return tuple(opening[-len(galley.streams):]) or galley.nothing


def beginning(lists, opening):
    """Of these lists the ones that begin with the opening."""
    return [words for words in lists if words[:len(opening)] == tuple(opening)]


def passed(galley):
    """Every opening that is let through, the empty one first: each with one page less is let through too."""
    def onward(opening):
        yield opening
        for page in product(*(range(u, size + 1) for u, size in zip(end(galley, opening), galley.sizes))):
            if fault(galley, opening + page) is None:
                yield from onward(opening + page)

    return onward(())


def following(galley, opening):
    """The opening with any page after it, each count from one too few to one too many; and with half a page after it."""
    for page in product(*(range(max(0, u - 1), size + 2) for u, size in zip(end(galley, opening), galley.sizes))):
        yield opening + page
    yield opening + galley.sizes[:-1]
