"""Calls at a desk with their answers worked out by hand from document 02, one after the other on one desk."""

from reference import cases
from reference.desk import DONE
from reference.galley import write

A, CUT = write(cases.A), write(cases.A)[:-1]
AT_END = len(A) - 2  # where the cut galley stops short
BEST, LONGER = ((1, 1), (3, 1)), ((3, 0), (3, 1))
BEST_MARK, LONGER_MARK = ('accepted', 2, 0, 1, 1, 0), ('accepted', 2, 1, 1, 2, 0)


def refused(number, place=0):
    return ('refused', number, place)


# Call, its arguments, its answer, and the list in force afterwards.
STEPS = [
    # A desk of zeros has no pages.
    ('commit', (), refused(24), ()), ('ask', (A, 1, (3, 0, 0)), refused(23, 1), ()), ('ask', (CUT, 0, (3, 0, 0)), refused(23, 0), ()),
    # Nor has one that is refused: page 1 is too high, the list is empty, the galley stops short.
    ('open', (A, (2, 1, 3, 1)), refused(22), ()), ('open', (A, ()), refused(22), ()), ('open', (CUT, (1, 1, 3, 1)), refused(1, AT_END), ()),
    ('ask', (A, 1, (3, 0, 0)), refused(23, 1), ()), ('commit', (), refused(24), ()),
    # An ask does not change the list; the last page and pages that are not there are 23, whatever the galley.
    ('open', (A, (1, 1, 3, 1)), BEST_MARK, BEST), ('commit', (), refused(24), BEST),
    ('ask', (A, 1, (3, 0, 9)), LONGER_MARK, BEST), ('ask', (CUT, 2, (3, 0, 0)), refused(23, 2), BEST), ('commit', (), refused(24), BEST),
    # A refused ask leaves none pending, by whatever number; an accepted one takes the place of another.
    ('ask', (A, 1, (3, 0, 0)), LONGER_MARK, BEST), ('ask', (A, 1, (2, 1, 0)), refused(15, 1), BEST), ('commit', (), refused(24), BEST),
    ('ask', (A, 1, (3, 0, 0)), LONGER_MARK, BEST), ('ask', (CUT, 1, (3, 0, 0)), refused(1, AT_END), BEST), ('commit', (), refused(24), BEST),
    ('ask', (A, 1, (1, 1, 0)), BEST_MARK, BEST), ('ask', (A, 1, (3, 0, 0)), LONGER_MARK, BEST), ('commit', (), DONE, LONGER),
    ('commit', (), refused(24), LONGER),
    # Bad lengths come first, then names that are not held.
    ('save', (b'',), refused(25), LONGER), ('save', (b'a' * 17,), refused(25), LONGER), ('back', (b'',), refused(25), LONGER),
    ('drop', (b'a' * 17,), refused(25), LONGER), ('back', (b'a',), refused(26), LONGER), ('drop', (b'a',), refused(26), LONGER),
    # To save, to drop and to be refused leave what is pending; to come back does not.
    ('ask', (A, 1, (1, 1, 0)), BEST_MARK, LONGER), ('save', (b'a',), DONE, LONGER), ('save', (b'b' * 16,), DONE, LONGER),
    ('drop', (b'b' * 16,), DONE, LONGER), ('back', (b'b' * 16,), refused(26), LONGER), ('back', (b'ab',), refused(26), LONGER),
    ('commit', (), DONE, BEST), ('save', (b'b',), DONE, BEST),
    ('ask', (A, 1, (3, 0, 0)), LONGER_MARK, BEST), ('back', (b'b',), DONE, BEST), ('commit', (), refused(24), BEST),
    # A name gives what was in force when it was last saved.
    ('back', (b'a',), DONE, LONGER), ('save', (b'b',), DONE, LONGER), ('ask', (A, 1, (1, 1, 0)), BEST_MARK, LONGER),
    ('commit', (), DONE, BEST), ('back', (b'b',), DONE, LONGER),
    # Eight names and no ninth; those that are held can be saved under, and another is not held.
    *(('save', (name,), DONE, LONGER) for name in (b'a\0', b'ab', b'\0', b'3', b'4', b'a' * 16)),
    ('save', (b'9',), refused(27), LONGER), ('save', (b'a' * 17,), refused(25), LONGER), ('back', (b'9',), refused(26), LONGER),
    ('drop', (b'9',), refused(26), LONGER), ('save', (b'a\0',), DONE, LONGER), ('drop', (b'ab',), DONE, LONGER),
    ('save', (b'9',), DONE, LONGER), ('back', (b'ab',), refused(26), LONGER), ('save', (b'ab',), refused(27), LONGER),
    # Refused at opening it has no pages, nor has any layout; opened again it holds no name.
    ('open', (A, (2, 1, 3, 1)), refused(22), ()), ('back', (b'9',), DONE, ()), ('save', (b'9',), DONE, ()),
    ('open', (A, (3, 0, 3, 1)), LONGER_MARK, LONGER), ('back', (b'9',), refused(26), LONGER), ('save', (b'9',), DONE, LONGER),
]
