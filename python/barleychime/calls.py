"""The calls on galleys, books, marks and sections. Each answers, or raises `Refusal`."""
from __future__ import annotations

import dataclasses
import operator
from typing import Any, Iterable, Sequence, Tuple, Union

from .answers import BookMaking, End, Ends, Forecast, Making, Measure, Paper, Report
from .library import ANSWER_WORDS, BOOK_WORDS, FORECAST_WORDS, REPORT_WORDS, WIDE, WORD, functions
from .refusals import Refusal, RefusalKind

Galley = Union[bytes, bytearray, memoryview]
HIGHEST = 2**32 - 1
SECTION_WORDS = 64
SHEET = 4  # pages of a sheet that is folded once


def make(galley: Galley) -> Making:
    """The best page list of a galley: of all that are valid one with the fewest turns, and of those the one with the least white
    space. `Refusal` has one of 1 to 8 for a galley that is none, 11 where no pagination exists."""
    return make_after(galley, ())


def make_after(galley: Galley, opening: Iterable[Sequence[int]]) -> Making:
    """The best page list that begins with the pages of an opening, which are printed. An opening with a page that breaks a rule is
    refused with 20, one that leaves nothing to make with 21."""
    data = read(galley)
    needs, width = forecast(data), page_words(data)
    printed, work, pages, answer = flat(opening, width), lent(needs.work), lent(needs.list), lent(ANSWER_WORDS)
    functions().make_after(data, len(data), printed, len(printed), work, needs.work, pages, needs.list, answer)
    measure, weighed = measured(answer)
    return Making(measure, ends_of(pages[:width * measure.pages], width), weighed)


def mark(galley: Galley, ends: Iterable[Sequence[int]]) -> Measure:
    """What a page list comes to, if it is a pagination of the galley. Else `Refusal` has the rule that the first wrong page breaks, 12
    to 18, with the page."""
    data = read(galley)
    words, answer = flat(ends, page_words(data)), lent(ANSWER_WORDS)
    functions().mark(data, len(data), words, len(words), answer)
    return measured(answer)[0]


def page_words(galley: Galley) -> int:
    """The numbers that a page has in a list: 3 where the galley has tables, else 2. Two words are one page, unless the marking says
    that they end within one."""
    data, answer = read(galley), lent(ANSWER_WORDS)
    number = functions().mark(data, len(data), lent(2), 2, answer)
    if 0 < number <= RefusalKind.AFTER_END:
        raise Refusal(answer[0], answer[1])
    return 3 if number == RefusalKind.BAD_LIST else 2


def forecast(galley: Galley) -> Forecast:
    """What making asks for, told beforehand and at once."""
    data, told = read(galley), lent(FORECAST_WORDS)
    functions().forecast(data, len(data), told)
    refuse(told)
    _, _, work, pages, low, high = told
    return Forecast(work, pages, wide(low, high))


def book(galleys: Iterable[Galley]) -> BookMaking:
    """The best choice of a page list for each chapter of a book, each opened on the folio after the last of the one before. A chapter
    that is refused is the place of the refusal, counted from 1."""
    chapters = [read(galley) for galley in galleys]
    data, lengths = b''.join(chapters), (WORD * max(1, len(chapters)))(*map(len, chapters))
    work_words, list_words = book_needs(chapters)
    work, pages, answer = lent(work_words), lent(list_words), (WIDE * BOOK_WORDS)()
    functions().book(data, len(data), lengths, len(chapters), work, work_words, pages, list_words, answer)
    refuse(answer)
    lists, begins = [], 0
    for chapter in chapters:
        listed = chapter_list(pages, begins, placed(chapter))
        lists.append(listed)
        begins += len(listed) * len(listed[0])
    return BookMaking(Measure(*answer[2:7]), tuple(lists), answer[7])


def report(papers: Iterable[Paper]) -> Report:
    """Sums over at most 10,000 papers (31). A paper with fewer turns than the engine is refused with 32 and its number."""
    marks = [word(number, 'a number of a paper') for paper in papers for number in dataclasses.astuple(paper)]
    lent_marks, told = (WORD * max(1, len(marks)))(*marks), (WIDE * REPORT_WORDS)()
    functions().report(lent_marks, len(marks) // len(dataclasses.fields(Paper)), told)
    refuse(told)
    return Report(*told[2:])


def fold(size: int) -> Tuple[Tuple[int, int, int, int], ...]:
    """How the pages of a stitched section stand on its nested sheets, the outermost first: left and right of the front, left and right
    of the back. Sections have 4, 8, ... 64 pages (33)."""
    pages, answer = lent(SECTION_WORDS), lent(2)
    functions().section(word(size, 'the size of a section'), pages, answer)
    refuse(answer)
    return tuple((pages[k], pages[k + 1], pages[k + 2], pages[k + 3]) for k in range(0, size, SHEET))


def read(galley: Galley) -> bytes:
    """The bytes of a galley."""
    if not isinstance(galley, (bytes, bytearray, memoryview)):
        raise TypeError(f'a galley is bytes, not {type(galley).__name__}')
    return bytes(galley)


def lent(words: int) -> Any:
    """Memory of so many words that is lent to the engine; never none, since the engine takes no null."""
    try:
        return (WORD * max(1, words))()
    except MemoryError:
        raise MemoryError(f'{4 * words:,} bytes cannot be had, which the engine asks for') from None


def wide(low: int, high: int) -> int:
    """A number of 64 bits that is told in two words."""
    return low | high << 32


def word(number: int, what: str) -> int:
    """A number that fits a word of the engine."""
    number = operator.index(number)
    if not 0 <= number <= HIGHEST:
        raise ValueError(f'{what} is 0 to {HIGHEST}, not {number}')
    return number


def flat(ends: Iterable[Sequence[int]], width: int) -> Any:
    """The words of a page list, with each page of the galley's own width."""
    words = []
    for page, end in enumerate(ends, 1):
        if len(end) != width:
            kinds = ', '.join(('lines', 'figures', 'tables')[:width])
            raise ValueError(f'page {page}: {len(end)} numbers, but a page of this galley has {width} ({kinds})')
        words += [word(number, f'page {page}: a number of a page') for number in end]
    return (WORD * len(words))(*words)


def ends_of(words: Sequence[int], width: int) -> Ends:
    """The ends of the pages whose words these are."""
    return tuple(tuple(words[k:k + width]) for k in range(0, len(words), width))


def measured(answer: Any) -> Tuple[Measure, int]:
    """What an answer of nine words tells, unless it is a refusal, and the pages weighed."""
    refuse(answer)
    _, _, pages, x, y, turns, low, high, white = answer
    return Measure(pages, x, y, turns, white), wide(low, high)


def refuse(answer: Any) -> None:
    """Raises what an answer refuses."""
    if answer[0]:
        raise Refusal(answer[0], answer[1])


def book_needs(chapters: Iterable[bytes]) -> Tuple[int, int]:
    """The words of work area and of page list for a book. A chapter that is refused needs none: the book is then refused as well."""
    work = pages = 0
    for chapter in chapters:
        try:
            needs = forecast(chapter)
        except Refusal:
            continue
        work, pages = max(work, 2 * needs.work), pages + needs.list
    return work, pages


def placed(galley: bytes) -> End:
    """What a galley has that is read without refusal: its lines and figures, and its tables where there are any. Records are of 18
    bytes after the specification, of 30 or 34, and the folio, of 6, and before the end, of 2."""
    begins = 34 if galley.startswith(b'G2') else 30
    begins += 6 if galley.startswith(b'FO', begins) else 0
    marks = [galley[at:at + 2] for at in range(begins, len(galley) - 2, 18)]
    counts = marks.count(b'TL'), marks.count(b'FG') + marks.count(b'FK'), marks.count(b'TB')
    return counts if counts[2] else counts[:2]


def chapter_list(pages: Any, begins: int, whole: End) -> Ends:
    """The pages of a chapter, which end with the one that places everything."""
    ends: list[End] = []
    while not ends or ends[-1] != whole:
        ends.append(tuple(pages[begins:begins + len(whole)]))
        begins += len(whole)
    return tuple(ends)
