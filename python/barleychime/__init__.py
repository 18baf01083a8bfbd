"""Page make-up that is proved: the pagination with the fewest page turns that a galley's specification allows, and the marking of others.

    >>> import barleychime
    >>> made = barleychime.make(galley)
    >>> made.measure.turns, made.ends
    (1, ((1, 1), (3, 1)))
    >>> barleychime.mark(galley, made.ends) == made.measure
    True

A galley is bytes, as `barleychime pack` writes them. A page list has an end for each page: the lines and the figures placed so far, and
the tables too where the galley has any. What the engine turns away is raised as `Refusal`, with its kind, number, place and words; what
is no galley and no number at all is a `TypeError` or a `ValueError`. Calls share nothing, so that threads may call at the same time.
"""
from .answers import BookMaking, End, Ends, Forecast, Making, Measure, Paper, Report
from .calls import book, fold, forecast, make, make_after, mark, page_words, report
from .desk import Desk
from .library import LibraryMissing
from .refusals import Refusal, RefusalKind

__version__ = '0.2.0'
__all__ = ['BookMaking', 'Desk', 'End', 'Ends', 'Forecast', 'LibraryMissing', 'Making', 'Measure', 'Paper', 'Refusal', 'RefusalKind',
           'Report', 'book', 'fold', 'forecast', 'make', 'make_after', 'mark', 'page_words', 'report']
