"""The report on marks, from document 02 alone (S-12): a mark is (p, X, Y, T, E), E being the engine's T."""

MOST, WORDS = 10_000, 11


def words(marks):
    """Number, place, papers, sums of p, X, Y, T, least T, greatest T, excess, count."""
    if len(marks) > MOST:
        return (31, 0) + (0,) * (WORDS - 2)
    for paper, mark in enumerate(marks, 1):
        if mark[3] < mark[4]:
            return (32, paper) + (0,) * (WORDS - 2)
    if not marks:
        return (0,) * WORDS
    p, x, y, t, engines = (sum(field) for field in zip(*marks))
    turns = [mark[3] for mark in marks]
    return (0, 0, len(marks), p, x, y, t, min(turns), max(turns), t - engines, len(marks))
