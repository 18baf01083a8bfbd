"""The refusals: numbers, names, words, and who can mend each. The project's tests hold them to the table of the Rust library."""
from __future__ import annotations

import enum


class RefusalKind(enum.IntEnum):
    """Why the engine turns work away. The value is the number of the refusal."""

    STOPS_SHORT = 1
    UNKNOWN_MARK = 2
    BAD_FIELD = 3
    TOO_MANY = 4
    BEFORE_FIRST_LINE = 5
    NO_SUCH_LINE = 6
    OUT_OF_ORDER = 7
    AFTER_END = 8
    WORK_TOO_SHORT = 9
    LIST_TOO_SHORT = 10
    NO_PAGINATION = 11
    BAD_LIST = 12
    BAD_PAGE = 13
    FORBIDDEN_END = 14
    TOO_HIGH = 15
    TOO_LOW = 16
    TOO_SOON = 17
    UNFINISHED = 18
    INPUT_TOO_LONG = 19
    BAD_OPENING = 20
    NOTHING_LEFT = 21
    NOT_FOR_DESK = 22
    NO_SUCH_PAGE = 23
    NOTHING_PENDING = 24
    BAD_NAME = 25
    NO_SUCH_LAYOUT = 26
    NO_ROOM = 27
    BAD_CHAPTERS = 28
    UNLIKE_FIRST = 29
    FOLIO_STATED = 30
    TOO_MANY_MARKS = 31
    FEWER_THAN_ENGINE = 32
    NO_SUCH_SECTION = 33

    @property
    def words(self) -> str:
        """What is wrong, in words."""
        return MEANINGS[self][0]

    @property
    def mender(self) -> str:
        """Who can mend it."""
        return MEANINGS[self][2]

    @property
    def counts(self) -> str:
        """What the place of such a refusal counts."""
        return MEANINGS[self][1]


class Refusal(Exception):
    """Work that the engine turned away: the kind of the refusal, and its place, of which the kind says what it counts."""

    def __init__(self, number: int, place: int) -> None:
        super().__init__(number, place)
        self.kind = RefusalKind(number)
        self.place = place

    @property
    def number(self) -> int:
        """The number of the refusal, 1 to 33."""
        return int(self.kind)

    @property
    def words(self) -> str:
        """What is wrong, in words."""
        return self.kind.words

    def __str__(self) -> str:
        return f'R {self.number} {self.place}: {self.words}; {self.kind.mender} can mend it'


MEANINGS = {
    RefusalKind.STOPS_SHORT: (
        'the galley stops short, inside a record or without its `ED`',
        'byte offset of the record', "the galley's writer"),
    RefusalKind.UNKNOWN_MARK: ('a mark is unknown, or known but out of place', 'byte offset of the record', "the galley's writer"),
    RefusalKind.BAD_FIELD: ('the value of a field is not allowed', 'byte offset of the record', "the galley's writer"),
    RefusalKind.TOO_MANY: (
        'there is a line too many (4,000 is the most), a figure too many (200) or a table too many (50)',
        'byte offset of the record', "the galley's writer"),
    RefusalKind.BEFORE_FIRST_LINE: (
        'figures, tables or the end come before the first line',
        'byte offset of the record', "the galley's writer"),
    RefusalKind.NO_SUCH_LINE: (
        'a figure or table names a citing line that the galley does not have',
        'byte offset of the record', "the galley's writer"),
    RefusalKind.OUT_OF_ORDER: (
        'a figure is cited earlier than the figure in front of it, or a table than the table in front of it',
        'byte offset of the record', "the galley's writer"),
    RefusalKind.AFTER_END: ('something follows `ED`', 'byte offset of what follows', "the galley's writer"),
    RefusalKind.WORK_TOO_SHORT: ('the work area that is lent is not long enough', 'words needed', 'the host program'),
    RefusalKind.LIST_TOO_SHORT: ('the page list that is lent is not long enough', 'words needed', 'the host program'),
    RefusalKind.NO_PAGINATION: ('no pagination of this galley meets its page specification', '0', 'the designer'),
    RefusalKind.BAD_LIST: (
        'the list is empty, ends within a page, or is longer than any of this galley can be',
        '0', 'whoever handed in the list'),
    RefusalKind.BAD_PAGE: ('the page goes backwards, goes past what the galley has, or is empty', 'page', 'whoever handed in the list'),
    RefusalKind.FORBIDDEN_END: (
        'the page ends after a line that must not end a page, or between figures that are kept together',
        'page', 'whoever handed in the list'),
    RefusalKind.TOO_HIGH: ('the page is higher than htMax even at its tightest', 'page', 'whoever handed in the list'),
    RefusalKind.TOO_LOW: (
        'the page is lower than htMin, or the last page lower than lastMin, even at its loosest',
        'page', 'whoever handed in the list'),
    RefusalKind.TOO_SOON: (
        'a figure or table stands on a spread that ends before the line that cites it',
        'page', 'whoever handed in the list'),
    RefusalKind.UNFINISHED: ('the list ends before everything is placed', 'number of pages', 'whoever handed in the list'),
    RefusalKind.INPUT_TOO_LONG: ('the input is longer than the small program takes', '8192', 'the person at the program'),
    RefusalKind.BAD_OPENING: (
        'the opening ends within a page, or the page, as one that is not the last, breaks one of 13 to 17',
        'page, or 0 within a page', 'whoever handed in the opening'),
    RefusalKind.NOTHING_LEFT: (
        'the opening already places everything, and no page is left to make',
        'number of pages', 'whoever handed in the opening'),
    RefusalKind.NOT_FOR_DESK: ('the marking does not accept the list, or it has more than 64 pages', '0', 'whoever handed in the list'),
    RefusalKind.NO_SUCH_PAGE: ('the page asked about is not one of the list in force, or is its last', 'page', 'the make-up hand'),
    RefusalKind.NOTHING_PENDING: ('nothing is pending that could be put in force', '0', 'the make-up hand'),
    RefusalKind.BAD_NAME: ('the name of a layout has no bytes, or more than 16', '0', 'the make-up hand'),
    RefusalKind.NO_SUCH_LAYOUT: ('no layout is held under this name', '0', 'the make-up hand'),
    RefusalKind.NO_ROOM: ('eight layouts are held under other names, and a desk has no room for a ninth', '0', 'the make-up hand'),
    RefusalKind.BAD_CHAPTERS: (
        'there is no chapter, there are more than 200, or their lengths do not add up to the bytes',
        '0', 'whoever bound the book'),
    RefusalKind.UNLIKE_FIRST: ('the page specification of the chapter is unlike that of the first', 'chapter', 'whoever bound the book'),
    RefusalKind.FOLIO_STATED: (
        'the chapter states a first folio (`FO`), which only the first one may',
        'chapter', 'whoever bound the book'),
    RefusalKind.TOO_MANY_MARKS: ('there are more marks than a report takes (10,000 is the most)', '0', 'whoever handed in the marks'),
    RefusalKind.FEWER_THAN_ENGINE: ('the paper has fewer turns than the engine', 'paper', 'whoever handed in the marks'),
    RefusalKind.NO_SUCH_SECTION: (
        'no section has so many pages: their number is a multiple of 4 from 4 to 64',
        'the size', 'whoever asked for the section'),
}
