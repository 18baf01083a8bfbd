"""Books that are turned away: bytes and lengths, each number where it is due, and each where two compete."""
from dataclasses import replace

from reference import cases, refusals, sample
from reference.galley import read, write

OTHER = cases.respec(cases.EVEN, htmax=21)
SECOND = cases.respec(cases.EVEN, lastmin=0)


def bound(*chapters):
    """The bytes of chapters, galleys or bytes, and their lengths."""
    data = [chapter if isinstance(chapter, bytes) else write(chapter) for chapter in chapters]
    return b''.join(data), [len(chapter) for chapter in data]


def known():
    """Name, bytes, lengths, number and place."""
    good, cut = cases.EVEN, write(cases.EVEN)[:-1]
    data, (length, other) = bound(good, good)
    yield 'no chapter', b'', [], 28, 0
    yield 'no chapter, and bytes', data, [], 28, 0
    yield '201 chapters', *bound(*[good] * 201), 28, 0
    yield '201 chapters without a byte', b'', [0] * 201, 28, 0
    yield '201 chapters, the first cut short', *bound(cut, *[good] * 200), 28, 0
    yield 'a byte too many', data + b'?', [length, other], 28, 0
    yield 'a byte too few', data[:-1], [length, other], 28, 0
    yield 'lengths that would wrap', data, [length, 2**32 - length, length, other], 28, 0
    yield 'lengths that would wrap a sum of 32 bits', data, [2**32 - 1, 1, length, other], 28, 0
    yield 'highest lengths', data, [2**32 - 1] * 200, 28, 0
    yield 'a length of all bytes', data, [length + other], 8, 1
    yield 'a border one byte too early', data, [length - 1, other + 1], 1, 1
    yield 'a border one byte too late', data, [length + 1, other - 1], 8, 1
    yield 'a chapter without a byte', data, [length, 0, other], 1, 2
    yield 'no byte in one chapter', b'', [0], 1, 1
    yield 'the last of 200 cut short', *bound(*[good] * 199, cut), 1, 200
    yield 'another height', *bound(good, OTHER), 29, 2
    yield 'another height in chapter 3', *bound(good, good, OTHER), 29, 3
    yield 'other heights from chapter 2 on', *bound(good, OTHER, OTHER), 29, 2
    yield 'the second edition after the first', *bound(good, SECOND), 29, 2
    yield 'the first edition after the second', *bound(SECOND, good), 29, 2
    yield 'another lastMin', *bound(SECOND, cases.respec(good, lastmin=1)), 29, 2
    yield 'a folio in chapter 2', *bound(good, cases.opening(good, 3)), 30, 2
    yield 'folio 1 in chapter 2', *bound(good, cases.opening(good, 1)), 30, 2
    yield 'a folio in the last of 200 chapters', *bound(*[good] * 199, cases.opening(good, 3)), 30, 200
    yield 'a folio in chapters 1 and 2', *bound(cases.opening(good, 2), cases.opening(good, 4)), 30, 2
    yield 'its own refusal before 29 and 30', *bound(good, write(cases.opening(OTHER, 3))[:-1]), 1, 2
    yield '29 before 30', *bound(good, cases.opening(OTHER, 3)), 29, 2
    yield '30 before the next chapter is read', *bound(good, cases.opening(good, 3), cut), 30, 2
    yield '29 before the next chapter is read', *bound(good, OTHER, cut), 29, 2
    yield 'chapter 2 before 29 in chapter 3', *bound(good, cut, OTHER), 1, 2
    yield '30 in chapter 2 before 29 in chapter 3', *bound(good, cases.opening(good, 3), OTHER), 30, 2
    for name, field in zip(cases.Spec._fields[:7], (1, 21, 1, 1, 1, 0, 0)):
        wider = {'smax': 1} if name == 'smin' else {}
        yield f'another {name}', *bound(good, cases.respec(good, **{name: field, **wider})), 29, 2
    for name, data, number, _ in refusals.files():
        yield f'{name} as chapter 1', *bound(data, good), number, 1
        yield f'{name} as chapter 2', *bound(plain_like(data), data), number, 2


def plain_like(data):
    """A chapter of one line with the specification of a refused one where that has one, so that 29 cannot be due."""
    alike = data[:34 if data[:2] == b'G2' else 30] + write(cases.U)[30:]
    return alike if read(alike)[0] == 'galley' else cases.EVEN


def drawn(rng, chapters):
    """Chapters of a book with faults here and there: damaged, of another specification, with a folio; or with a wrong length."""
    faulty = []
    for galley in chapters:
        chance = rng.random()
        if chance < 0.15:
            galley = replace(galley, spec=galley.spec._replace(beta=galley.spec.beta + 1))
        if 0.1 < chance < 0.25:
            galley = replace(galley, stated=sample.folio(rng))
        data = write(galley)
        faulty.append(sample.broken(rng, data) if 0.2 < chance < 0.3 else data)
    data, lengths = bound(*faulty)
    if rng.random() < 0.1:
        lengths[rng.randrange(len(lengths))] += rng.choice((1, -1, 18, 2**32 - 1)) % (2**32 - 200)
    return data, [length % 2**32 for length in lengths]
