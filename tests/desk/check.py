"""The proved desk, compiled, against the reference in Python: long runs of calls, drawn at random, on desks that were opened,
that were refused at opening, and that hold any words. After every call the answer and every word of the desk are compared, and
of an opened desk that is asked about one galley, what the calls come to: its list and its layouts. The last line is
'N passed, M failed'."""
import pathlib
import random
import sys
import time

sys.path.insert(0, str(pathlib.Path(__file__).resolve().parents[1]))
import byhand  # noqa: E402
import drawn  # noqa: E402
import engine  # noqa: E402
import kinds  # noqa: E402
import words as desk_words  # noqa: E402
from reference import desk, galley, marking  # noqa: E402
from choice import chosen  # noqa: E402
from tally import Tally  # noqa: E402

GALLEYS, CALLS, SEED = 60, 60, 20261116
NAMED = {'save': (desk.saved, desk_words.saved), 'back': (desk.come_back, desk_words.come_back),
         'drop': (desk.dropped, desk_words.dropped)}


class Sitting:
    """A desk of the engine, by its words, and the reference's; each call is made at both."""

    def __init__(self, called, tally, rng, words):
        self.called, self.tally, self.rng = called, tally, rng
        self.words, self.desk, self.last = words, desk_words.seen(words), 'nothing'

    def compare(self, call, got, answer, after, left, read=None):
        """What the engine answered and left, with the answer, the desk and the words that are due."""
        self.tally.same(f'{call} after {self.last}, {len(self.desk.force)} pages', got, (answer, left))
        self.tally.same(f'{call} after {self.last}: the desk in these words', desk_words.seen(left), after)
        self.tally.kind(*kinds.at_desk(call, self.desk, answer, read, self.last))
        self.last = f'a refused {call}' if answer[0] == 'refused' else f'a {call}'
        self.words, self.desk = left, after
        return answer

    def open(self, data, listed):
        read = galley.read(data)
        answer, after = desk.opened(self.desk, read, listed)
        if answer == ('refused', 22, 0):
            marked = marking.mark(read[1], listed)
            self.tally.kind('22 by the marking' if marked[0] == 'refused' else '22 by the number of pages')
        got = self.called.desk_open(data, listed, self.words)
        return self.compare('open', got, answer, after, desk_words.opened(self.words, answer, listed), read)

    def ask(self, data, page, end):
        read = galley.read(data)
        width = len(self.desk.force[0]) if self.desk.force else 0
        answer, after = desk.asked(self.desk, read, page, end[:width])
        got = self.called.desk_ask(data, page, end, self.words)
        return self.compare('ask', got, answer, after, desk_words.asked(self.words, answer, page, end), read)

    def commit(self):
        answer, after = desk.committed(self.desk)
        return self.compare('commit', self.called.desk_commit(self.words), answer, after, desk_words.committed(self.words, answer))

    def save(self, name):
        return self.named('save', name)

    def back(self, name):
        return self.named('back', name)

    def drop(self, name):
        return self.named('drop', name)

    def named(self, call, name):
        """One of the calls that take a name."""
        at_desk, on_words = NAMED[call]
        answer, after = at_desk(self.desk, name)
        got = getattr(self.called, f'desk_{call}')(name, self.words)
        self.tally.kind(*kinds.at_layouts(call, self.desk, name, answer))
        return self.compare(call, got, answer, after, on_words(self.words, answer, name))

    def list(self):
        """The list in force, at the beginning of lent words."""
        lent = tuple(self.rng.randrange(2**32) for _ in range(desk_words.LIST_WORDS))
        due = ('list', len(self.desk.force)), desk_words.listed(self.words, lent)
        self.tally.same(f'list after {self.last}, {len(self.desk.force)} pages', self.called.desk_list(lent, self.words), due)


def run(sitting, rng, g, lists, others, calls=CALLS):
    """Calls of every kind; galleys that are damaged or another's among them, and desks opened again."""
    for _ in range(rng.randint(1, calls)):
        chance = rng.random()
        if chance < 0.05:
            sitting.open(drawn.data(rng, g, others), rng.choice(lists))
        elif chance < 0.5:
            sitting.ask(drawn.data(rng, g, others), *drawn.asked(rng, g, sitting.desk))
        elif chance < 0.7:
            sitting.commit()
        elif chance < 0.95:
            sitting.named(*drawn.named(rng, sitting.desk))
        else:
            sitting.list()


def theorem(tally, sitting, rng, g, opening):
    """Calls about one galley, from a desk opened unrefused. By its own answers the list in force is the last layout returned to, or else the
    opening list, plus the page ends committed since then. A name gives the list that was in force when it was last saved, until it is
    dropped. The marking accepts all these lists. At half of the desks there are only asks and commits."""
    data, pending, force, layouts = galley.write(g), None, tuple(marking.places(g, opening)), {}
    names = rng.random() < 0.5
    for _ in range(CALLS):
        chance = rng.random()
        if chance < 0.5:
            page, end = drawn.asked(rng, g, sitting.desk)
            pending = (page, end[:len(g.streams)]) if sitting.ask(data, page, end)[0] == 'accepted' else None
        elif chance < 0.7 or not names:
            if sitting.commit() == desk.DONE:
                force, pending = desk.altered_list(force, *pending), None
        else:
            call, name = drawn.named(rng, sitting.desk)
            if sitting.named(call, name) != desk.DONE:
                continue
            if call == 'save':
                layouts[name] = force
            elif call == 'back':
                force, pending = layouts[name], None
            else:
                del layouts[name]
    ended = desk_words.seen(sitting.words)
    tally.same(f'the list in force for {g}', ended.force, force)
    tally.same(f'the layouts for {g}', dict(filter(None, ended.layouts)), layouts)
    for pages in (force, *layouts.values()):
        words = tuple(word for end in pages for word in end)
        tally.same(f'the marking of {pages} for {g}', marking.mark(g, words)[:2], ('accepted', len(words) // len(g.streams)))
        tally.same(f'pages of {pages} for {g}', len(pages), len(opening) // len(g.streams))


def by_hand(tally, called, rng):
    """Answers that were worked out by hand."""
    sitting = Sitting(called, tally, rng, (0,) * desk_words.WORDS)
    for number, (call, arguments, answer, force) in enumerate(byhand.STEPS, 1):
        got = getattr(sitting, call)(*arguments)
        tally.same(f'step {number}, {call} {arguments[1:]}', (got, sitting.desk.force), (answer, force))


def at_random(tally, called, rng):
    some = list(drawn.galleys(rng, GALLEYS))
    others = [g for g, _ in some]
    for g, lists in some:
        for words in (drawn.litter(rng), *(drawn.junk(rng, g, listed) for listed in lists[:2])):
            run(Sitting(called, tally, rng, words), rng, g, lists, others)
        sitting = Sitting(called, tally, rng, drawn.litter(rng))
        for listed in lists:
            if sitting.open(galley.write(g), listed)[0] == 'accepted':
                theorem(tally, sitting, rng, g, listed)
            else:
                run(sitting, rng, g, lists[-1:], others, 5)


CASES = {case.__name__: case for case in (by_hand, at_random)}


def main():
    asked, tally, began = chosen(CASES), Tally(), time.time()
    called = engine.Engine(engine.load(engine.archive()))
    for name, case in asked.items():
        case(tally, called, random.Random(f'{SEED} {name}'))
    if asked == CASES:
        tally.enough([*kinds.AT_DESKS, *kinds.AT_LAYOUTS], 20)
    print('calls by kind:', dict(sorted(tally.kinds.items(), key=str)), f'in {time.time() - began:.0f} s')
    return tally.end()


if __name__ == '__main__':
    sys.exit(main())
