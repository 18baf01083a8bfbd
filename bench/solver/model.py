"""The page model of one galley as an integer programme, in the LP format that cbc and glpsol read. Its pagination is the paper's map from
blocks to pages (docs/MODEL.md, "A pagination as the paper has it"), and its least value is T. White space and ties are left out.

placed[s][k][q] is 1 where block k of stream s is on page q or an earlier one, any[s][q] where page q has a block of stream s, and used[q] where
there is a page q. All else is a sum of these."""
import itertools

from reference.galley import LONGEST


def most_pages(galley):
    """No pagination has more pages: each has a block, and all but the last are htMin high."""
    blocks, spec = sum(galley.sizes), galley.spec
    full = spec.htmin - (len(galley.streams) - 1) * spec.smax  # without its separations
    if full <= 0:
        return blocks
    return min(blocks, sum(block.height + block.most for stream in galley.streams for block in stream) // full + 1)


def packed(stream, htmax):
    """The page of each block of a stream by itself where no page could take more."""
    pages, room = [], 0
    for block in stream:
        if not pages or block.height > room:
            pages.append(pages[-1] + 1 if pages else 1)
            room = htmax
        else:
            pages.append(pages[-1])
        room -= block.height + block.least
    return pages


def back_packed(stream, htmax):
    """The pages that each block of a stream and those after it take at least, by their heights alone."""
    pages, room = [], 0
    for block in reversed(stream):
        new = not pages or block.height > room
        pages.append((pages[-1] if pages else 0) + new)
        room = (htmax if new else room) - block.height
    return pages[::-1]


def ends_leaf(galley, page):
    return galley.spec.sides == 1 or (galley.folio + page - 1) % 2 == 1


class Sum:
    """A sum of variables with whole factors, and a number."""

    def __init__(self, terms=(), number=0):
        self.terms, self.number = {}, number
        for factor, name in terms:
            self.terms[name] = self.terms.get(name, 0) + factor

    def plus(self, other, factor=1):
        terms = itertools.chain(((f, name) for name, f in self.terms.items()), ((factor * f, name) for name, f in other.terms.items()))
        return Sum(terms, self.number + factor * other.number)

    def minus(self, other):
        return self.plus(other, -1)

    def times(self, factor):
        return Sum().plus(self, factor)

    def text(self):
        words = [f'{"-" if factor < 0 else "+"} {abs(factor)} {name}' for name, factor in self.terms.items() if factor]
        # A line of the format has room for so much.
        return '\n   '.join(' '.join(words[at:at + 8]) for at in range(0, len(words), 8)) or '0 nothing'


def summed(sums):
    total = Sum()
    for each in sums:
        total = total.plus(each)
    return total


class Programme:
    def __init__(self, galley):
        self.galley, self.pages = galley, most_pages(galley)
        self.rows, self.whole, self.real = [], [], []
        self.used = [None, *(self.binary(f'u{q}') for q in range(1, self.pages + 1)), Sum()]
        self.placed = [self.placings(s, stream) for s, stream in enumerate(galley.streams)]
        self.any = [[None, *(self.binary(f'a{s}_{q}') for q in range(1, self.pages + 1))] for s in range(len(galley.streams))]
        self.below(Sum(number=1), self.used[1])
        for q in range(1, self.pages + 1):
            self.page(q)

    def binary(self, name):
        self.whole.append(name)
        return Sum([(1, name)])

    def below(self, low, high):
        """low is at most high."""
        difference = low.minus(high)
        if difference.terms or difference.number > 0:
            self.rows.append(f'{difference.text()} <= {-difference.number}')

    def placings(self, s, stream):
        """By block and page. Blocks that a page may not part share their variables: rule 14. Pages never go back: rule 13."""
        earliest, left = packed(stream, self.galley.spec.htmax), back_packed(stream, self.galley.spec.htmax)
        pages = range(1, self.pages)

        def placed(k, q):
            """Before page 1 nothing is placed, and after the last one everything is; what heights alone decide is no variable."""
            if q == self.pages:
                return Sum(number=1)
            if q < earliest[k]:
                return Sum()
            return Sum(number=1) if q > self.pages - left[k] else self.binary(f'p{s}_{k}_{q}')

        rows = [None] * len(stream)
        for k in reversed(range(len(stream))):
            parts = k + 1 == len(stream) or stream[k].legal
            rows[k] = [placed(k, q) for q in range(self.pages + 1)] if parts else rows[k + 1]
            if parts:
                for q in pages:
                    self.below(rows[k][q], rows[k][q + 1])
                    if k + 1 < len(stream):
                        self.below(rows[k + 1][q], rows[k][q])
        return rows

    def on(self, s, k, q):
        return self.placed[s][k][q].minus(self.placed[s][k][q - 1])

    def stacked(self, s, q, space):
        """The blocks of a stream on page q with the spaces between them: with the space after each, less that after the last on the page."""
        stream, any_of = self.galley.streams[s], self.any[s][q]
        blocks = summed(self.on(s, k, q).times(block.height + getattr(block, space)) for k, block in enumerate(stream))
        after = Sum()  # the space after the last block so far
        for k, block in enumerate(stream):
            further = self.placed[s][k + 1][q] if k + 1 < len(stream) else Sum()
            after = after.plus(self.placed[s][k][q].minus(further), getattr(block, space))
        greatest = max((getattr(block, space) for block in stream), default=0)
        if greatest == 0:
            return blocks
        self.real.append(name := f's{s}_{q}_{space}')
        vanished = Sum([(1, name)])  # `after` where the page has a block of the stream, else 0
        self.below(vanished, after)
        self.below(vanished, any_of.times(greatest))
        self.below(after.minus(vanished), Sum(number=greatest).minus(any_of.times(greatest)))
        return blocks.minus(vanished)

    def page(self, q):
        """The rules of page q, as far as it is used."""
        galley, spec, used, follows = self.galley, self.galley.spec, self.used[q], self.used[q + 1]
        streams = range(len(galley.streams))
        self.below(follows, used)
        kinds = summed(self.any[s][q] for s in streams)
        self.below(used, kinds)  # rule 13: it has a block
        for s in streams:
            self.below(self.any[s][q], used)
            self.below(self.any[s][q], summed(self.on(s, k, q) for k in range(len(galley.streams[s]))))
            for k in range(len(galley.streams[s])):
                self.below(self.on(s, k, q), self.any[s][q])
        apart = kinds.minus(used)
        self.below(summed(self.stacked(s, q, 'least') for s in streams).plus(apart, spec.smin), used.times(spec.htmax))  # rule 15
        floor = follows.times(spec.htmin).plus(used.minus(follows), spec.floor(True))  # rule 16
        self.below(floor, summed(self.stacked(s, q, 'most') for s in streams).plus(apart, spec.smax))
        if ends_leaf(galley, q):  # rule 17
            for s, floats in enumerate(galley.floats, 1):
                for k, block in enumerate(floats):
                    self.below(self.placed[s][k][q], self.placed[0][block.cite - 1][q])

    def turns(self):
        """T: at each page that ends its leaf β where another follows, and α for each float that is cited and not yet placed."""
        spec, total = self.galley.spec, Sum()
        for q in (q for q in range(1, self.pages + 1) if ends_leaf(self.galley, q)):
            total = total.plus(self.used[q + 1], spec.beta)
            for s, floats in enumerate(self.galley.floats, 1):
                for k, block in enumerate(floats):
                    total = total.plus(self.placed[0][block.cite - 1][q].minus(self.placed[s][k][q]), spec.alpha)
        return total

    def text(self):
        rows = '\n'.join(f' r{number}: {row}' for number, row in enumerate(self.rows))
        bounds = '\n'.join(f' 0 <= {name} <= {LONGEST}' for name in self.real)
        turns = self.turns()
        turns = turns.plus(Sum([(turns.number, 'one')]))
        return (f'Minimize\n turns: {turns.text()}\nSubject To\n{rows}\nBounds\n one = 1\n nothing = 0\n{bounds}\n'
                f'Binary\n ' + '\n '.join(self.whole) + '\nEnd\n')

    def words(self, values):
        """The page list of the variables that are 1."""
        value = lambda each: each.number + sum(factor * values.get(name, 0) for name, factor in each.terms.items())  # noqa: E731
        last = sum(round(value(used)) for used in self.used[1:-1])
        return tuple(sum(round(value(row[q])) for row in rows) for q in range(1, last + 1) for rows in self.placed)
