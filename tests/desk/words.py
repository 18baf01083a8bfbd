"""The words of a desk as include/barleychime.h has them: what is read from any words, and what each call leaves of them, given
the answer that is due."""

import struct

from reference.desk import LONGEST_NAME, MOST_LAYOUTS, MOST_PAGES, Desk, altered_list, held_at

PAGES, WIDTH, PAGE, END, LIST = 0, 1, 2, 3, 6  # where each begins
LIST_WORDS = 3 * MOST_PAGES
# A layout has the length of its name, the name's bytes, and a list; it is free where the length is 0.
NAME, LAYOUT_LIST = 1, 1 + LONGEST_NAME // 4
LAYOUT_WORDS = LAYOUT_LIST + LIST_WORDS
LAYOUTS = [LIST + LIST_WORDS + LAYOUT_WORDS * k for k in range(MOST_LAYOUTS)]
WORDS = LAYOUTS[-1] + LAYOUT_WORDS


def seen(words):
    """The desk that these words are, whatever they hold."""
    force = pages_of(words, LIST)
    page, end = words[PAGE], tuple(words[END:END + words[WIDTH]]) if force else ()
    pending = altered_list(force, page, end) if 1 <= page < len(force) else None
    return Desk(force, pending, tuple(layout_of(words, at) for at in LAYOUTS))


def layout_of(words, at):
    """The layout from a place on, as a name and a list; None where it is free, and without a name where none is so long."""
    if words[at] == 0:
        return None
    name = struct.pack('=4I', *words[at + NAME:at + LAYOUT_LIST])[:words[at]] if words[at] <= LONGEST_NAME else None
    return name, pages_of(words, at + LAYOUT_LIST)


def pages_of(words, at):
    """The place where each page of a list ends; no pages where their number, or that of the words of each, is none that there
    can be."""
    pages, width = words[PAGES], words[WIDTH]
    if pages > MOST_PAGES or width not in (2, 3):
        return ()
    return tuple(zip(*(iter(words[at:at + pages * width]),) * width))


def replaced(words, *puts):
    """The words with others from some places on."""
    words = list(words)
    for at, new in puts:
        words[at:at + len(new)] = new
    return tuple(words)


def opened(words, answer, listed):
    """Refused, a desk has no pages, and is as before otherwise; accepted, nothing of what it held is left."""
    if answer[0] == 'refused':
        return replaced(words, (PAGES, [0]))
    return replaced((0,) * len(words), (PAGES, [answer[1], len(listed) // answer[1]]), (LIST, listed))


def asked(words, answer, page, end):
    """What was pending is replaced, or is none."""
    return replaced(words, (PAGE, [page, *end] if answer[0] == 'accepted' else [0]))


def committed(words, answer):
    if answer[0] == 'refused':
        return words
    width, page = words[WIDTH], words[PAGE]
    return replaced(words, (LIST + width * (page - 1), words[END:END + width]), (PAGE, [0]))


def saved(words, answer, name):
    """The name, with zeros after it, and all words of the list."""
    if answer[0] == 'refused':
        return words
    desk = seen(words)
    at = held_at(desk, name)
    at = LAYOUTS[desk.layouts.index(None) if at is None else at]
    named = struct.unpack('=4I', name.ljust(LONGEST_NAME, b'\0'))
    return replaced(words, (at, [len(name), *named]), (at + LAYOUT_LIST, words[LIST:LIST + LIST_WORDS]))


def come_back(words, answer, name):
    if answer[0] == 'refused':
        return words
    at = LAYOUTS[held_at(seen(words), name)] + LAYOUT_LIST
    return replaced(words, (LIST, words[at:at + LIST_WORDS]), (PAGE, [0]))


def dropped(words, answer, name):
    """Of layouts that are dropped all stays but the length of the name."""
    if answer[0] == 'refused':
        return words
    named = [at for at in LAYOUTS if (layout_of(words, at) or [None])[0] == name]
    return replaced(words, *((at, [0]) for at in named))


def listed(words, pages):
    """The list in force at the beginning of lent words, which are as before otherwise."""
    return replaced(pages, (0, [word for end in seen(words).force for word in end]))
