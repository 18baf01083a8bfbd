"""The course: each list of samples/course has its stated mark, each report is the stated one, and docs/COURSE.md shows what is printed."""

import os
import re
import shutil
import subprocess
from dataclasses import replace

from reference import marking
from reference.galley import read, streams_of, write

GALLEYS = {'short': 'samples/real/gretl-p441.galley', 'chapter': 'samples/course/chapter.galley',
           'long': 'samples/real/handbook-p047.galley'}
ANSWERS = {'marks': ('mark', '--why'), 'why': ('explain', '--why'), 'report': ('report',)}
KEPT = 5  # the figure of the chapter that is kept with the next one
NO_PAGE = 'built without the page'


class Place:
    """A folder in which the documents' commands can be run as in the project's; what they write is left there."""

    def __init__(self, command, folder, samples):
        self.folder = folder
        folder.mkdir()
        shutil.copytree(samples, folder / 'samples')
        path = f'{command.program.parent}{os.pathsep}{os.environ["PATH"]}'
        self.environment = {**os.environ, 'PATH': path, 'LC_ALL': 'C', 'NO_COLOR': '1'}

    def ran(self, line, errors=subprocess.STDOUT):
        """The exit status of this line, and what a terminal shows after it; `errors` is where standard error goes."""
        done = subprocess.run(line, shell=True, cwd=self.folder, env=self.environment, text=True, encoding='utf-8', timeout=300,
                              stdin=subprocess.DEVNULL, stdout=subprocess.PIPE, stderr=errors)
        return done.returncode, done.stdout

    def printed(self, line):
        return self.ran(line)[1]


def shown(document):
    """The commands of a document, each with the output that is stated."""
    for block in re.findall(r'^```console\n(.*?)^```$', document, re.M | re.S):
        for call in re.split(r'^\$ ', block, flags=re.M)[1:]:
            line, _, output = call.partition('\n')
            yield line, output


def can_run(line, place):
    """False of `show` where the command was built without the page, which the gate does not take."""
    if not line.startswith('barleychime show ') or os.environ.get('CI') == 'true' or NO_PAGE not in place.printed(line):
        return True
    print(f'{line}: did not run, since the command was {NO_PAGE}')
    return False


def unlike_shown(calls, place):
    """Commands that print something else than is stated."""
    for line, due in calls:
        output = place.printed(line)
        if output != due:
            yield line, output, due


def stated(readme):
    """The marks that the table of lists states, by the list's name."""
    return dict(re.findall(r'^\| `([\w-]+)` \| `([^`]+)` \|', readme, re.M))


def marks(place):
    """The mark that each list gets, by its name."""
    found = {}
    for name, galley in GALLEYS.items():
        for row in place.printed(f'barleychime mark --why {galley} samples/course/lists/{name}-*.list 2> /dev/null').splitlines():
            mark, _, path = row.rpartition(' ')
            found[path.removeprefix('samples/course/lists/').removesuffix('.list')] = mark
    return found


def unlike_stated(readme, place):
    """Lists whose mark is not the stated one, that have none, or that are not there."""
    due, found = stated(readme), marks(place)
    for name in sorted(due.keys() | found.keys()):
        if found.get(name) != due.get(name):
            yield name, found.get(name), due.get(name)


def by_reference(tally, root, due):
    """The stated marks, without what is lost for good, are the reference's."""
    for name, mark in due.items():
        if mark == '?':
            continue
        galley = read((root / GALLEYS[name.split('-')[0]]).read_bytes())[1]
        rows = [line.split() for line in (root / f'samples/course/lists/{name}.list').read_text().splitlines()]
        words = tuple(int(word) for row in rows if len(row) < 5 for word in row[-2:])  # five numbers are a head line
        kind, *numbers = marking.mark(galley, words)
        told = ' '.join(map(str, ['R', *numbers] if kind == 'refused' else numbers))
        tally.same(f'{name} by the reference', told, ' '.join(mark.split()[:5]))


def every_kind(tally, due):
    """Twelve lists: each rule from 13 to 18 is broken, one cannot be read, and some are accepted, without a loss and with several."""
    tally.same('lists of the course', len(due), 12)
    tally.same('rules that they break', sorted(mark.split()[1] for mark in due.values() if mark[0] == 'R'), [str(n) for n in range(13, 19)])
    tally.same('lists that cannot be read', list(due.values()).count('?'), 1)
    losses = [mark.split()[5] for mark in due.values() if mark[0] not in 'R?']
    tally.same('losses', ('-' in losses, any(',' in loss for loss in losses), len(losses)), (True, True, 5))


def planted(tally, readme, place):
    """A fault of each kind is found."""
    wrong = '```console\n$ barleychime fold 8\n8 1 2 7\n6 3 4 5\n$ barleychime fold 4\n4 1 3 2\n```\n'
    tally.same('planted: a wrong output is found', [line for line, *_ in unlike_shown(shown(wrong), place)], ['barleychime fold 4'])
    wrong = readme.replace('`R 14 8`', '`R 14 9`')
    tally.same('planted: a wrong mark is found', [name for name, *_ in unlike_stated(wrong, place)], ['chapter-pair-parted'])
    altered = place.folder / 'samples/course/lists/short-cut-short.list'
    kept = altered.read_text()
    altered.write_text(f'{kept}77 4\n')
    tally.same('planted: another list is found', [name for name, *_ in unlike_stated(readme, place)], ['short-cut-short'])
    altered.write_text(kept)


def derived(tally, command, root):
    """The chapter is the real one with a kept pair, and has the same best list."""
    real = root / 'samples/real/gretl-p046.galley'
    galley, chapter = read(real.read_bytes())[1], root / GALLEYS['chapter']
    figures = [figure._replace(kept=int(number == KEPT)) for number, figure in enumerate(galley.figures, 1)]
    tally.same('the chapter with a kept pair', chapter.read_bytes(), write(replace(galley, streams=streams_of(galley.lines, figures))))
    tally.same('its best list', command.text('make', chapter), command.text('make', real))


def none(tally, faults, asked):
    """So many were asked, and these are unlike what is stated."""
    found = list(faults)
    for what, got, due in found:
        tally.same(what, got, due)
    tally.passed += max(asked - len(found), 0)


def run(tally, command, root, folder):
    here = root / 'samples/course'
    document, readme = (root / 'docs/COURSE.md').read_text(), (here / 'README.md').read_text()
    place = Place(command, folder / 'course', root / 'samples')
    planted(tally, readme, place)
    calls = list(shown(document))
    tally.same('commands that docs/COURSE.md shows', len(calls), len(re.findall(r'^ *\$ |^ {4}barleychime', document, re.M)))
    calls = [call for call in calls if can_run(call[0], place)]
    none(tally, unlike_shown(calls, place), len(calls))
    none(tally, unlike_stated(readme, place), len(stated(readme)))
    every_kind(tally, stated(readme))
    by_reference(tally, root, stated(readme))
    for name, galley in GALLEYS.items():
        for answer, call in ANSWERS.items():
            line = f'barleychime {" ".join(call)} {galley} samples/course/lists/{name}-*.list 2> /dev/null'
            tally.same(f'{name}, {answer}', place.printed(line), (here / f'expected/{name}-{answer}.txt').read_text())
    derived(tally, command, root)
    tally.group('the course')
