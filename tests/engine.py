"""The C interface of the engine, for every test that calls it with words of its own: what the calls of the Python package do not show,
as memory of any contents, too little of it, and whether a word was written that should not be. The package declares the functions."""
import ctypes
import os
import pathlib
import struct
import subprocess
import sys
import tempfile

ROOT = pathlib.Path(__file__).resolve().parents[1]
sys.path.insert(0, str(ROOT / 'python'))

from barleychime.library import ANSWER_WORDS, BOOK_WORDS, FORECAST_WORDS, LENGTH, WIDE, WORD, Functions  # noqa: E402, F401
from reference import book  # noqa: E402
from reference.beforehand import lengths  # noqa: E402

HIGHEST = 2**32 - 1


def archive(crate='barleychime', variable='BARLEYCHIME_LIB'):
    """The archive of a crate that is tested: the one that the variable names, else it is proved and compiled here."""
    named = os.environ.get(variable)
    if named:
        return pathlib.Path(named).resolve()
    subprocess.run([ROOT / 'tools/archive', crate], check=True, stdout=subprocess.DEVNULL, stderr=subprocess.DEVNULL)
    return ROOT / 'target' / 'staticlib' / f'lib{crate}.a'


def probe():
    """The archive of galley_probe."""
    return archive('galley_probe', 'BARLEYCHIME_PROBE')


def shared(archive, file):
    """An archive as a shared library, which it can be made since it is position independent."""
    subprocess.run(['gcc', '-shared', '-Wl,--whole-archive', archive, '-Wl,--no-whole-archive', '-o', file], check=True)
    return file


def load(archive):
    """The functions of an archive. Tests run beside each other, so each has a shared library of its own, which it keeps when the file is
    gone."""
    with tempfile.TemporaryDirectory() as folder:
        return ctypes.CDLL(str(shared(archive, pathlib.Path(folder) / f'{archive.stem}.so')))


def lent(words):
    return (WORD * max(1, len(words)))(*words)


def held(lent_words, words):
    """What lent memory of so many words holds."""
    return tuple(lent_words)[:len(words)]


def told(words):
    """Lent words for so many that are told, and one past them that stays."""
    return lent([HIGHEST] * (words + 1))


def wide(low, high):
    return high << 32 | low


def answered(returned, lent_answer):
    """An answer as the reference gives it, with anything amiss in its numbers told; and the count of pages weighed."""
    *nine, beyond = lent_answer
    number, place, *turns, low, high, white = nine
    weighed, counts = wide(low, high), (*turns, white)
    if returned != number:
        return ('returned', returned, *nine), weighed
    if beyond != HIGHEST:
        return ('wrote past the answer', *nine), weighed
    if number == 0:
        return ('accepted', *counts) if place == 0 else ('accepted with a place', *nine), weighed
    return ('refused', number, place) if not any(counts) else ('refused with counts', *nine), weighed


def bound(returned, number, place, *counts):
    """The answer for a book as the reference gives it, and the count of pages weighed."""
    *counts, weighed, beyond = counts
    if returned != number or beyond != HIGHEST or (place if number == 0 else any(counts)):
        return ('amiss', returned, number, place, *counts, beyond), weighed
    return ('refused', number, place) if number else ('accepted', *counts), weighed


def nine(answer, weighed=0):
    """The nine words of an answer that the reference gives, with this count of pages weighed."""
    number, place, *turns, white = (0, 0, *answer[1:]) if answer[0] == 'accepted' else (*answer[1:], 0, 0, 0, 0, 0)
    return (number, place, *turns, weighed % 2**32, weighed >> 32, white)


def done(answer, *after):
    """What a call that answers number and place alone answered: nothing else is told."""
    told_more = answer[0] != 'accepted' or any(answer[1:])
    return answer if told_more else ('done',), *after


class Engine:
    """The functions of include/barleychime.h, on bytes and tuples of words; `making` names another function of making's type, which
    has a namesake that takes an opening."""

    def __init__(self, library, making='barleychime_make'):
        self.c = Functions(library, making)

    def make(self, data, work, pages):
        """The answer, the count of pages weighed, and the work area and the page list afterwards."""
        lent_work, lent_pages, answer = lent(work), lent(pages), told(ANSWER_WORDS)
        returned = self.c.make(data, len(data), lent_work, len(work), lent_pages, len(pages), answer)
        return *answered(returned, answer), held(lent_work, work), held(lent_pages, pages)

    def make_after(self, data, opening, work, pages):
        """The same of lists that begin with an opening, which is only read."""
        lent_opening, lent_work, lent_pages, answer = lent(opening), lent(work), lent(pages), told(ANSWER_WORDS)
        returned = self.c.make_after(data, len(data), lent_opening, len(opening), lent_work, len(work), lent_pages, len(pages), answer)
        if held(lent_opening, opening) != tuple(opening):
            return ('wrote to the opening',)
        return *answered(returned, answer), held(lent_work, work), held(lent_pages, pages)

    def book(self, data, lengths, work, pages):
        """The same of chapters lent end to end; their lengths are only read, and the words of the answer are of 64 bits."""
        lent_lengths, lent_work, lent_pages = lent(lengths), lent(work), lent(pages)
        answer = (WIDE * (BOOK_WORDS + 1))(*[HIGHEST] * (BOOK_WORDS + 1))
        returned = self.c.book(data, len(data), lent_lengths, len(lengths), lent_work, len(work), lent_pages, len(pages), answer)
        if held(lent_lengths, lengths) != tuple(lengths):
            return ('wrote to the lengths',)
        return *bound(returned, *answer), held(lent_work, work), held(lent_pages, pages)

    def mark(self, data, words):
        """The answer; the list is only read."""
        lent_words, answer = lent(words), told(ANSWER_WORDS)
        marked, weighed = answered(self.c.mark(data, len(data), lent_words, len(words), answer), answer)
        if held(lent_words, words) != tuple(words):
            return ('wrote to the list',)
        return ('marked with a count', *marked, weighed) if weighed else marked

    def forecast(self, data):
        """Number, place, words of work area and of page list, and the ceiling; or what is amiss."""
        forecast = told(FORECAST_WORDS)
        returned = self.c.forecast(data, len(data), forecast)
        number, *words, low, high, beyond = forecast
        right = returned == number and beyond == HIGHEST
        return (number, *words, wide(low, high)) if right else ('returned', returned, *forecast)

    def section(self, size, numbers, answer):
        """The number that is returned, and the numbers and the answer afterwards."""
        lent_numbers, lent_answer = lent(numbers), lent(answer)
        returned = self.c.section(size, lent_numbers, lent_answer)
        return returned, held(lent_numbers, numbers), held(lent_answer, answer)

    def report(self, marks, report):
        """The number that is returned, and the words of the report and after it; the marks, five words each, are only read."""
        words = [word for mark in marks for word in mark]
        lent_words, lent_report = lent(words), (WIDE * len(report))(*report)
        returned = self.c.report(lent_words, len(marks), lent_report)
        return returned, tuple(lent_report) if held(lent_words, words) == tuple(words) else ('wrote to the marks',)

    @staticmethod
    def at_desk(call, desk, *before):
        """The answer of a call whose last arguments are a desk and an answer, and the words of the desk afterwards."""
        packed, answer = struct.Struct(f'={len(desk) + 1}I'), told(ANSWER_WORDS)
        lent_desk = (WORD * (len(desk) + 1)).from_buffer_copy(packed.pack(*desk, HIGHEST))
        said, weighed = answered(call(*before, lent_desk, answer), answer)
        after = packed.unpack(lent_desk)
        wrong = weighed or after[-1] != HIGHEST
        return ('counted, or wrote past the desk', weighed, *said) if wrong else said, after[:-1]

    def desk_open(self, data, words, desk):
        return self.at_desk(self.c.desk_open, desk, data, len(data), lent(words), len(words))

    def desk_ask(self, data, page, end, desk):
        lent_end = lent(end)
        said, after = self.at_desk(self.c.desk_ask, desk, data, len(data), page, lent_end)
        return said if held(lent_end, end) == tuple(end) else ('wrote to the end', *said), after

    def desk_commit(self, desk):
        return done(*self.at_desk(self.c.desk_commit, desk))

    def desk_save(self, name, desk):
        return done(*self.at_desk(self.c.desk_save, desk, name, len(name)))

    def desk_back(self, name, desk):
        return done(*self.at_desk(self.c.desk_back, desk, name, len(name)))

    def desk_drop(self, name, desk):
        return done(*self.at_desk(self.c.desk_drop, desk, name, len(name)))

    def desk_list(self, pages, desk):
        """The answer, and the words of the list and of the desk, which is only read, afterwards."""
        lent_desk, lent_pages, answer = lent(desk), lent([*pages, HIGHEST]), told(ANSWER_WORDS)
        said, weighed = answered(self.c.desk_list(lent_desk, lent_pages, answer), answer)
        *after, beyond = lent_pages
        wrong = weighed or beyond != HIGHEST or held(lent_desk, desk) != tuple(desk) or any(said[2:])
        return ('counted, or wrote to the desk or past the list', *said) if wrong else ('list', said[1]), tuple(after)


def made(galley, best, answer, weighed, work, pages, fault=None):
    """What making owes for a galley with this best list, whose marking is given, and so many pages weighed: the answer, the
    count, the work area and the page list. A fault is that of an opening, 20 or 21 with its place."""
    work_words, list_words = lengths(galley)
    if len(work) < work_words:
        return ('refused', 9, work_words), 0, work, pages
    if len(pages) < list_words:
        return ('refused', 10, list_words), 0, work, pages
    if fault:
        return ('refused', *fault), 0, work, pages
    cleared = (0,) * work_words + work[work_words:]
    if best is None:
        return ('refused', 11, 0), weighed, cleared, pages
    return answer, weighed, cleared, tuple(best) + pages[len(best):]


def made_book(galleys, choice, weighed, work, pages):
    """What making a book owes for chapters that are let through, with this best choice and so many pages weighed: the answer, the
    count, the work area and the page list."""
    work_words, list_words = book.lengths(galleys)
    if len(work) < work_words:
        return ('refused', 9, work_words), 0, work, pages
    if len(pages) < list_words:
        return ('refused', 10, list_words), 0, work, pages
    cleared = (0,) * work_words + work[work_words:]
    if choice is None:
        return ('refused', 11, 0), weighed, cleared, pages
    listed = tuple(word for words in choice for word in words)
    return ('accepted', *book.measure(galleys, choice)), weighed, cleared, listed + pages[len(listed):]
