"""The make-up desk, from document 02 alone (S-7, S-8). A galley is what `read` makes of its bytes; a list of pages is the place
where each of them ends."""

from dataclasses import dataclass, replace
from typing import Optional

from . import marking

MOST_PAGES, MOST_LAYOUTS, LONGEST_NAME = 64, 8, 16
DONE = ('done',)


@dataclass(frozen=True)
class Desk:
    force: tuple = ()  # the list in force
    pending: Optional[tuple] = None  # the list that a commit puts in force
    layouts: tuple = (None,) * MOST_LAYOUTS  # room for so many, each as a name and a list; None where it is free. The name is
    # None where no call left the layout: it is neither held nor free


def opened(desk, read, words):
    """The answer, and the desk: without pages where it is refused, on the list and in every layout."""
    answer = marked(read, words)
    if answer[0] == 'accepted' and answer[1] <= MOST_PAGES:
        return answer, Desk(tuple(marking.places(read[1], words)))
    without_pages = Desk(layouts=tuple(layout and (layout[0], ()) for layout in desk.layouts))
    return read if read[0] == 'refused' else ('refused', 22, 0), without_pages


def asked(desk, read, page, end):
    """The answer about the list in force with another end of a page, and the desk."""
    if not 1 <= page < len(desk.force):
        return ('refused', 23, page), replace(desk, pending=None)
    altered = altered_list(desk.force, page, end)
    answer = marked(read, [word for place in altered for word in place])
    return answer, replace(desk, pending=altered if answer[0] == 'accepted' else None)


def committed(desk):
    if desk.pending is None:
        return ('refused', 24, 0), desk
    return DONE, replace(desk, force=desk.pending, pending=None)


def saved(desk, name):
    """The list in force kept under a name, in place of what was there."""
    if is_bad(name):
        return ('refused', 25, 0), desk
    at = held_at(desk, name)
    if at is None and None not in desk.layouts:
        return ('refused', 27, 0), desk
    at = desk.layouts.index(None) if at is None else at
    return DONE, replace(desk, layouts=(*desk.layouts[:at], (name, desk.force), *desk.layouts[at + 1:]))


def come_back(desk, name):
    """The layout of a name put in force, and nothing pending."""
    fault, at = not_held(desk, name), held_at(desk, name)
    return (fault, desk) if fault else (DONE, replace(desk, force=desk.layouts[at][1], pending=None))


def dropped(desk, name):
    """The name freed, wherever it is held."""
    fault = not_held(desk, name)
    freed = tuple(None if layout and layout[0] == name else layout for layout in desk.layouts)
    return (fault, desk) if fault else (DONE, replace(desk, layouts=freed))


def is_bad(name):
    return not 1 <= len(name) <= LONGEST_NAME


def not_held(desk, name):
    """Why there is no layout of this name: 25, then 26; None if there is one."""
    if is_bad(name):
        return ('refused', 25, 0)
    return ('refused', 26, 0) if held_at(desk, name) is None else None


def held_at(desk, name):
    """Where a name is held, the first of them; None if it is not."""
    return next((at for at, layout in enumerate(desk.layouts) if layout and layout[0] == name), None)


def altered_list(pages, page, end):
    return (*pages[:page - 1], end, *pages[page:])


def marked(read, words):
    """A refused galley is refused as ever, before its list is looked at."""
    return read if read[0] == 'refused' else marking.mark(read[1], tuple(words))
