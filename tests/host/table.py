"""The table of real chapters: LaTeX's turns against the engine's, as section 5 of the paper compares them.

As a program it prints the table, made with the command that tests/host/run.py builds.
"""

import re
import sys
import tempfile
from pathlib import Path

ROOT = Path(__file__).resolve().parents[2]
if __name__ == '__main__':
    sys.path.insert(0, str(ROOT / 'tests'))

from command import Command  # noqa: E402
from reference import marking  # noqa: E402
from reference.cases import respec  # noqa: E402
from reference.galley import read, write  # noqa: E402

STANDS = 'samples/real/TABLE.md'
FILLS = (100, 90, 70)
# recorded before there was a package
OLDER = ('gretl-p046', 'gretl-p441', 'handbook-p047', 'memdesign-p049', 'memman-p211', 'memman-p211-tables', 'mpman-p003', 'mpman-p081')
HEAD = '| chapter | fill | LaTeX, single-sided | engine, single-sided | LaTeX, double-sided | engine, double-sided |\n'
RULE = '|---|---|---|---|---|---|\n'


def by_number(path):
    """memman-9 is before memman-15, and memman-p211-tables behind memman-p211."""
    name, number, kind = re.fullmatch(r'(.*?)-p?(\d+)(.*)', path.stem).groups()
    return name, int(number), kind


def tables(command, root):
    """The table of the chapters that the package has made, and that of the older ones."""
    paths = sorted((root / 'samples/real').glob('*.galley'), key=by_number)
    for older in (False, True):
        yield HEAD + RULE + ''.join(f'{line}\n' for line in rows(command, [path for path in paths if (path.stem in OLDER) == older]))


def rows(command, paths):
    for path in paths:
        for fill in FILLS:
            yield f'| {" | ".join(row(command, path, fill))} |'


def row(command, path, fill):
    _, galley = read(path.read_bytes())
    words = tuple(map(int, path.with_suffix('.latex').read_text().split()))
    cells = [path.stem, f'{fill} %']
    for sides in (1, 2):
        tried = respec(galley, htmin=galley.spec.htmax * fill // 100, sides=sides)
        cells += [latex(command, tried, words, path.stem in OLDER), engine(command, tried)]
    return cells


def turns(x, y, t):
    return f'{x} + {y} = {t}'


def distances(galley, ends):
    """X, Y and T of any list: a float that stands before its citation, as LaTeX may have it, counts by its distance too."""
    def leaf(stream, number):
        page = next(page for page, end in enumerate(ends, 1) if end[stream] >= number)
        return marking.leaf(galley.spec.sides, galley.folio, page)

    x = sum(abs(leaf(stream, number) - leaf(0, block.cite))
            for stream, floats in enumerate(galley.floats, 1) for number, block in enumerate(floats, 1))
    _, y, _ = marking.turns(galley, ends)
    return x, y, galley.spec.alpha * x + galley.spec.beta * y


def latex(command, galley, words, older):
    """X + Y = T by the goal functions, of older recordings as they are, and the first rule that the engine says is broken."""
    ends = marking.places(galley, words)
    counted = turns(*(marking.turns if older else distances)(galley, ends))
    with tempfile.NamedTemporaryFile(suffix='.galley') as file:
        file.write(write(galley))
        file.flush()
        listed = ''.join(' '.join(map(str, end)) + '\n' for end in ends)
        _, output, _ = command.text('mark', file.name, '-', given=listed.encode())
    found = output.split()
    if found[0] == 'R':
        return f'{counted} (rule {found[1]}, page {found[2]})'
    assert turns(*found[1:4]) == counted, 'the engine and the goal functions differ'
    return counted


def engine(command, galley):
    """X + Y = T of the best list; where there is none, the greatest fill at which there is one."""
    _, output, remarks = command.text('make', '--advise', '-', given=write(galley))
    if output != 'R 11 0\n':
        return turns(*output.split()[1:4])
    fill = re.search(r'\(([\d.]+) % of htMax\)', remarks)
    return f'none; {fill[1]} % at most' if fill else 'none'


def told(readme):
    """The turns of LaTeX and of the engine that README.md gives as an example: mpman-p003 at 90 %, double-sided."""
    sentence = r"MetaPost's manual .*?90 % full, double-sided: (\d+) turns .*? and (\d+) as the engine does"
    found = re.search(sentence, ' '.join(readme.split()))
    return found and found.groups()


def run(tally, command, root):
    """The tables beside the chapters are today's and the only ones; README.md leads to them, and has its example from them."""
    made = list(tables(command, root))
    documents = [root / 'README.md', *sorted((root / 'docs').rglob('*.md')), *sorted((root / 'samples').rglob('*.md'))]
    where = {str(path.relative_to(root)): path.read_text().count(HEAD) for path in documents if HEAD in path.read_text()}
    tally.same('where the tables stand', where, {STANDS: len(made)})
    stands = (root / STANDS).read_text()
    tally.same(STANDS, [table in stands for table in made], [True, True])
    readme = (root / 'README.md').read_text()
    tally.same('a link in README.md', f']({STANDS})' in readme, True)
    row_told = next(line for line in made[1].splitlines() if line.startswith('| mpman-p003 | 90 % |'))
    tally.same('the example in README.md', told(readme), tuple(re.findall(r'= (\d+)', row_told)[2:]))
    tally.group('table of real chapters')


if __name__ == '__main__':
    print(*tables(Command(ROOT / 'host/command/target/release/barleychime'), ROOT), sep='\n', end='')
