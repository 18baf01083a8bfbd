"""Calls of every function of include/barleychime.h on random galleys, lists, books, desks and marks, with what the native archive answered:
answers.py FILE writes them, and answers.test.js makes the same calls of the engine in WebAssembly. A call is written as it is made, with the
bytes of every area that is lent, and what every area holds afterwards; a line a call:

    [name, [argument...], returned, [after...]]

An argument is a number, {"length": n}, {"bytes": hex}, {"noise": [seed, n]} (n bytes that hang on the seed), or "desk", which is one area for all
calls of a sitting. After a call an area is 0 where it is as before, else its bytes, or their sum where there are many. Kinds of galleys and
refusals are counted, and one that is missing is an error."""
import collections
import ctypes
import hashlib
import json
import pathlib
import random
import struct
import sys

TESTS = pathlib.Path(__file__).resolve().parents[1]
sys.path[:0] = [str(TESTS), str(TESTS / 'desk'), str(TESTS / 'book')]
import drawn  # noqa: E402
import engine  # noqa: E402
import faults  # noqa: E402
import kinds  # noqa: E402
import words as desk_words  # noqa: E402
from reference import beforehand, sample  # noqa: E402
from reference.galley import read, write  # noqa: E402

SEED, PLAIN, TABLED, FINE, LEFT, LONG, BROKEN, BOOKS, SITTINGS = 20261117, 2_200, 1_300, 700, 300, 60, 1_200, 500, 140
GUARD, SHOWN = 16, 128  # bytes after every area that nobody lent; the most bytes that are written whole
ANSWER, FORECAST, SECTION = 36, 24, 8  # bytes of answers
LIST_WORDS = 12_750


class Desk:
    """The desk of a sitting, which all its calls have in common."""

    def __init__(self, words):
        self.words = words


def noise(seed, length):
    """Bytes that hang on a seed, the same in answers.test.js."""
    block = hashlib.sha256(str(seed).encode()).digest()
    return (block * (length // len(block) + 1))[:length]


def told(data):
    """Bytes, or their sum where there are many."""
    return data.hex() if len(data) <= SHOWN else hashlib.sha256(data).hexdigest()


class Recorder:
    """Calls the native library and writes each call."""

    def __init__(self, library, file, rng):
        self.library, self.file, self.rng, self.seed = library, file, rng, 0
        self.calls, self.refusals = collections.Counter(), collections.Counter()

    def lent(self, length):
        """An area of any contents, and a guard after it."""
        self.seed += 1
        return {'noise': [self.seed, length + GUARD]}

    @staticmethod
    def given(data):
        """An area that is only read, and a guard after it."""
        return {'bytes': (data + b'\xee' * GUARD).hex()}

    def words(self, words):
        return self.given(struct.pack(f'<{len(words)}I', *words))

    def call(self, name, *arguments):
        """What the call returned, and the bytes of each area afterwards."""
        passed, areas = [], []
        for argument in arguments:
            before = contents(argument)
            if before is None:
                plain = argument if isinstance(argument, int) else argument['length']
                passed.append(ctypes.c_uint32(plain) if isinstance(argument, int) else ctypes.c_size_t(plain))
                continue
            areas.append((argument, before, ctypes.create_string_buffer(before, len(before))))
            passed.append(areas[-1][2])
        function = self.library[f'barleychime_{name}']
        function.restype = ctypes.c_uint32
        returned = function(*passed)
        for argument, _, area in areas:
            if isinstance(argument, Desk):
                argument.words = struct.unpack(f'<{desk_words.WORDS}I', area.raw[:-GUARD])
        after = [0 if area.raw == before else told(area.raw) for _, before, area in areas]
        shown = ['desk' if isinstance(argument, Desk) else argument for argument in arguments]
        self.file.write(json.dumps([name, shown, returned, after], separators=(',', ':')) + '\n')
        self.calls[name] += 1
        self.refusals[returned] += 1
        return returned, [area.raw for _, _, area in areas]

    def desk(self, words):
        """A desk of these words, for the calls that follow."""
        self.file.write(json.dumps(['desk', self.words(words)['bytes']]) + '\n')
        return Desk(tuple(words))


def contents(argument):
    """The bytes of an area; None for what is no area."""
    if isinstance(argument, Desk):
        return struct.pack(f'<{desk_words.WORDS}I', *argument.words) + b'\xee' * GUARD
    if isinstance(argument, int) or 'length' in argument:
        return None
    return bytes.fromhex(argument['bytes']) if 'bytes' in argument else noise(*argument['noise'])


def sized(data):
    return {'length': len(data)}


class Calls:
    """Calls on galleys and lists, each recorded."""

    def __init__(self, recorder, rng):
        self.recorder, self.rng = recorder, rng

    def forecast(self, data):
        """The words of work area and of page list; none of a refused galley."""
        recorder = self.recorder
        returned, areas = recorder.call('forecast', recorder.given(data), sized(data), recorder.lent(FORECAST))
        return struct.unpack('<6I', areas[-1][:FORECAST])[2:4] if returned == 0 else (0, 0)

    def make(self, data, work, pages, opening=None):
        """The list that is made, or none: with areas of these lengths in words."""
        recorder = self.recorder
        after = [] if opening is None else [recorder.words(opening), {'length': len(opening)}]
        returned, areas = recorder.call('make' if opening is None else 'make_after', recorder.given(data), sized(data), *after,
                                        recorder.lent(4 * work), {'length': work}, recorder.lent(4 * pages), {'length': pages},
                                        recorder.lent(ANSWER))
        if returned:
            return None
        answer, width = struct.unpack('<9I', areas[-1][:ANSWER]), self.width(data)
        return struct.unpack(f'<{answer[2] * width}I', areas[-2][:4 * answer[2] * width])

    @staticmethod
    def width(data):
        return len(read(data)[1].streams)

    def mark(self, data, words):
        recorder = self.recorder
        recorder.call('mark', recorder.given(data), sized(data), recorder.words(words), {'length': len(words)}, recorder.lent(ANSWER))

    def galley(self, g):
        """Every call on a galley that is read: areas that fit, longer ones and short ones; lists and openings, good and bad."""
        rng, data = self.rng, write(g)
        work, pages = self.forecast(data)
        best = self.make(data, work + rng.choice((0, 0, 7)), pages + rng.choice((0, 0, 5)))
        if rng.random() < 0.1:
            self.make(data, rng.randrange(work), pages)
            self.make(data, work, rng.randrange(pages))
        lists = [sample.page_list(rng, g), *([best, sample.mutated(rng, g, best)] if best else [])]
        if rng.random() < 0.1:
            lists += [(), best[:-1] if best else (0,), (0,) * (LIST_WORDS + 3), (2**32 - 1,) * len(g.streams)]
        for words in lists:
            self.mark(data, words)
        if best:
            width, cut = len(g.streams), rng.randint(0, len(best) // len(g.streams))
            for opening in (best[:cut * width], sample.mutated(rng, g, best)[:cut * width], *([best[:-1]] if rng.random() < 0.1 else [])):
                self.make(data, work, pages, opening)

    def broken(self, data):
        """A galley that may be refused: every call reads it alike."""
        self.forecast(data)
        needed = beforehand.lengths(read(data)[1]) if read(data)[0] == 'galley' else (9, 9)
        self.make(data, *needed)
        self.mark(data, (1, 0))
        self.make(data, *needed, (1, 0))


def galleys(rng):
    yield from sample.galleys(SEED, PLAIN, 14, 5)
    yield from sample.galleys(SEED + 1, TABLED, 9, 4, 3)
    yield from sample.fine_galleys(SEED + 2, FINE, 8, 40, 5, 2)
    yield from sample.left_galleys(SEED + 3, LEFT)
    yield from sample.fine_galleys(SEED + 4, LONG, 60, 300, 10, highest=120)


def books(recorder, rng):
    """Books that are made, and every number of those that are turned away."""
    drawn_books = [*sample.books(SEED + 5, BOOKS), *sample.facing_books(SEED + 6, BOOKS // 2)]
    for chapters in drawn_books:
        work, pages = book_lengths(chapters)
        bind(recorder, *faults.bound(*chapters), work + rng.choice((0, 3)), pages)
        bind(recorder, *faults.drawn(rng, chapters), work, pages)
    bind(recorder, *faults.bound(*drawn_books[0]), 3, 3)
    bind(recorder, *faults.bound(*drawn_books[0]), *(length - short for short, length in enumerate(book_lengths(drawn_books[0]))))
    for _, data, lengths, _, _ in faults.known():
        bind(recorder, data, lengths, 4_000, 400)


def book_lengths(chapters):
    needed = [beforehand.lengths(chapter) for chapter in chapters]
    return 2 * max(work for work, _ in needed), sum(pages for _, pages in needed)


def bind(recorder, data, lengths, work, pages):
    recorder.call('book', recorder.given(data), sized(data), recorder.words(lengths), {'length': len(lengths)}, recorder.lent(4 * work),
                  {'length': work}, recorder.lent(4 * pages), {'length': pages}, recorder.lent(64))


def marks(recorder, rng):
    """Reports on few and on many papers, with 31 and 32."""
    for number in [*(rng.randint(0, 30) for _ in range(300)), 10_000, 10_001]:
        papers = []
        for _ in range(number):
            engine_turns = rng.choice((0, 3, rng.randint(0, 2**32 - 1)))
            turns = rng.randint(engine_turns, 2**32 - 1) if rng.random() < 0.99 else rng.randint(0, engine_turns)
            papers += [*(rng.randint(0, 2**32 - 1) for _ in range(3)), turns, engine_turns]
        recorder.call('report', recorder.words(papers), {'length': number}, recorder.lent(88))


def sections(recorder):
    for size in [*range(70), 2**31, 2**32 - 1]:
        recorder.call('section', size, recorder.lent(256), recorder.lent(SECTION))


def sittings(recorder, rng):
    """Runs of calls at desks: opened, refused, and with any words on them."""
    drawn_galleys = list(drawn.galleys(rng, SITTINGS // 3))
    others = [g for g, _ in drawn_galleys]
    for number, (g, lists) in enumerate(drawn_galleys):
        start = (0,) * desk_words.WORDS if number % 2 else rng.choice((drawn.litter(rng), drawn.junk(rng, g, lists[0])))
        desk = recorder.desk(start)
        sitting(recorder, rng, g, lists, others, desk, number % 2)


def sitting(recorder, rng, g, lists, others, desk, opened):
    data = write(g)
    if opened:
        at_desk(recorder, 'open', desk, recorder.given(data), sized(data), recorder.words(lists[0]), {'length': len(lists[0])})
    for _ in range(rng.randint(5, 50)):
        chance, given = rng.random(), drawn.data(rng, g, others)
        if chance < 0.05:
            words = rng.choice(lists)
            at_desk(recorder, 'open', desk, recorder.given(given), sized(given), recorder.words(words), {'length': len(words)})
        elif chance < 0.5:
            page, end = drawn.asked(rng, g, desk_words.seen(desk.words))
            at_desk(recorder, 'ask', desk, recorder.given(given), sized(given), page, recorder.words((*end, 0, 0)[:3]))
        elif chance < 0.7:
            at_desk(recorder, 'commit', desk)
        elif chance < 0.95:
            call, name = drawn.named(rng, desk_words.seen(desk.words))
            at_desk(recorder, call, desk, recorder.given(name), sized(name))
        else:
            recorder.call('desk_list', desk, recorder.lent(4 * 192), recorder.lent(ANSWER))


def at_desk(recorder, call, desk, *before):
    recorder.call(f'desk_{call}', *before, desk, recorder.lent(ANSWER))


def missing(recorder, seen):
    """Kinds that were not met."""
    due = [*kinds.OF_GALLEYS, *(number for number in range(1, 34) if number != 19)]
    return [kind for kind in due if not (seen[kind] or recorder.refusals[kind])]


def main(file):
    rng, seen, count = random.Random(SEED), collections.Counter(), 0
    recorder = Recorder(engine.load(engine.archive()), file, rng)
    calls = Calls(recorder, rng)
    for g in galleys(rng):
        seen.update(kinds.of_galley(g))
        calls.galley(g)
        count += 1
        if count % 4 == 0 and count < 4 * BROKEN:
            calls.broken(sample.broken(rng, write(g)))
            count += 1
    books(recorder, rng)
    marks(recorder, rng)
    sections(recorder)
    sittings(recorder, rng)
    if hasattr(recorder.library, 'barleychime_version'):
        recorder.call('version')
    file.write(json.dumps(['galleys', count]) + '\n')
    print(f'{count} galleys; ' + ', '.join(f'{name} {number}' for name, number in recorder.calls.items()))
    absent = missing(recorder, seen)
    if absent:
        sys.exit(f'FAILED: no case of {absent}')


if __name__ == '__main__':
    with open(sys.argv[1], 'w') as cases:
        main(cases)
