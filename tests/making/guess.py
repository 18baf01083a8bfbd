"""The engine's first limit, as crates/estimate has it: the turns of pages that are set greedily, and a little more. A galley whose
best list has more is searched twice, which no answer shows; so the tests count such galleys."""
import pathlib
import sys

sys.path.insert(0, str(pathlib.Path(__file__).resolve().parents[1]))
from reference import marking, search  # noqa: E402

KINDS = [f'sides {sides}, {kind}' for sides in (1, 2) for kind in ('within the first limit', 'dearer than the first limit')]


def of_limit(g, best):
    """Of a galley and its best list."""
    dearer = search.rank(g, best)[0] > first_limit(g)
    yield f"sides {g.spec.sides}, {'dearer than' if dearer else 'within'} the first limit"


def first_limit(g):
    """The turns within which the engine looks for a list first."""
    spec, placed, room, page, cost, turned = g.spec, [0] * len(g.streams), g.spec.htmax, 1, 0, 0
    while tuple(placed) != g.sizes:
        stream = next((s for s in (*range(1, len(placed)), 0) if goes(g, placed, s, room)), None)
        if stream is not None:
            block = g.streams[stream][placed[stream]]
            room = max(0, room - block.height - max(block.least, spec.smin if stream else 0))
            placed[stream] += 1
            continue
        if marking.leaf(spec.sides, g.folio, page) < marking.leaf(spec.sides, g.folio, page + 1):
            cost += spec.alpha * sum(map(len, marking.waiting(g, placed))) + spec.beta
            turned += 1
        page, room = page + 1, spec.htmax
    return cost + spec.beta * (turned // 16) + 2 * (spec.alpha + spec.beta) if turned else 0


def goes(g, placed, stream, room):
    """Whether the next block of a stream may be set now: a float from its citation on. A page with all its room takes any block."""
    if placed[stream] == len(g.streams[stream]):
        return False
    block = g.streams[stream][placed[stream]]
    return (stream == 0 or block.cite <= placed[0]) and (block.height <= room or room == g.spec.htmax)
