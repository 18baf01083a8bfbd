"""The folding order of stitched sections, from document 02's formulas alone."""

SIZES = tuple(range(4, 65, 4))
WORDS = 64


def sheet(n, k):
    """Sheet k from 0 of n pages: front left, front right, back left, back right."""
    return n - 2 * k, 2 * k + 1, 2 * k + 2, n - 2 * k - 1


def section(n):
    return tuple(page for k in range(n // 4) for page in sheet(n, k))


def table():
    """All sections, smaller ones first."""
    return tuple(page for n in SIZES for page in section(n))


def answer(size):
    """Number and place."""
    return (0, 0) if size in SIZES else (33, size)


def numbers_after(size, words):
    """The lent words afterwards."""
    return section(size) + tuple(words[size:]) if size in SIZES else tuple(words)
