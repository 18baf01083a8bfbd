"""What the engine answers."""
from __future__ import annotations

import dataclasses
import fractions
from typing import Tuple

End = Tuple[int, ...]
"""Where a page ends: the lines and the figures placed so far, and the tables too where the galley has any."""

Ends = Tuple[End, ...]
"""A page list: the end of each page."""


@dataclasses.dataclass(frozen=True)
class Measure:
    """What a page list comes to."""

    pages: int
    x: int  #: turns from citations to their figures and tables
    y: int  #: turns from the first page to the last
    turns: int  #: T, the weighted sum of both
    white: int  #: W, what all pages but the last lack of htMax at their loosest, in hundredths of a point


@dataclasses.dataclass(frozen=True)
class Making:
    """The best page list of a galley."""

    measure: Measure
    ends: Ends
    weighed: int  #: the pairs of a start and an end that a page could have


@dataclasses.dataclass(frozen=True)
class BookMaking:
    """The best choice of a page list for each chapter of a book."""

    measure: Measure  #: sums over the chapters, but that Y is from the first page of the book to the last
    chapters: Tuple[Ends, ...]
    weighed: int


@dataclasses.dataclass(frozen=True)
class Forecast:
    """What making a galley asks for."""

    work: int  #: words of work area, of 4 bytes each
    list: int  #: words of page list
    ceiling: int  #: no making weighs more pages


@dataclasses.dataclass(frozen=True)
class Paper:
    """The mark of one paper, and the engine's turns for the same galley."""

    pages: int
    x: int
    y: int
    turns: int
    engine: int


@dataclasses.dataclass(frozen=True)
class Report:
    """Exact sums over papers."""

    papers: int
    pages: int
    x: int
    y: int
    turns: int
    least: int  #: the least turns of a paper
    greatest: int
    excess: int  #: the turns of all papers above the engine's, summed
    count: int  #: the papers over which they are summed

    @property
    def mean_excess(self) -> fractions.Fraction:
        """The mean of the turns above the engine's; 0 where there is no paper."""
        return fractions.Fraction(self.excess, self.count or 1)
