"""Series: many galleys made into a folder. What is written is what `make` prints, whole; what is there already stays; what cannot be
made is told, and counted."""

import os
import re
import time

from make_advise import on_terminal
from command_line import file
from reference import cases, sample
from reference.galley import write


def summary(made=0, kept=0, refused=0, failed=0):
    return f'{made} made, {kept} left as they were, {refused} refused, {failed} failed\n'


def parts(folder):
    """What is left of files that were not written whole."""
    return [path.name for path in folder.iterdir() if path.suffix != '.list']


def series(tally, command, folder):
    """Galleys of every kind: each list as `make` prints it, a refusal where it prints one; and again, when nothing is to be made."""
    work = folder / 'series'
    work.mkdir()
    galleys = [*sample.galleys(170, 30, 8, 4), *sample.galleys(171, 20, 5, 3, 2), cases.A, cases.A_TALL]
    names = [file(work, f'{number}.galley', write(galley)) for number, galley in enumerate(galleys)]
    names.append(file(work, 'a name.galley', write(cases.C)))
    names.append(file(work, 'cut', write(cases.A)[:-1]))
    before(*names)
    lists = [folder / 'lists/deep' / f'{name.name.removesuffix(".galley")}.list' for name in names]
    due = [command.text('make', name) for name in names]
    refused = sum(status for status, *_ in due)
    status, output, remarks = command.text('make', '--out', lists[0].parent, *names)
    tally.same('a series', (status, output, remarks.count('\n')), (1, summary(len(names) - refused, refused=refused), refused))
    tally.same('both kinds are in it', refused > 3 and len(names) - refused > 20, True)
    for name, path, (_, text, _) in zip(names, lists, due):
        tally.same(f'the list of {name.name}', path.read_text(), text)
    tally.same('nothing else is there', sorted(lists[0].parent.iterdir()), sorted(lists))
    stamps = [path.stat().st_mtime_ns for path in lists]
    status, output, _ = command.text('make', f'--out={lists[0].parent}', *names)
    tally.same('nothing is made again', (status, output), (1, summary(kept=len(names) - refused, refused=refused)))
    tally.same('nothing is touched', [path.stat().st_mtime_ns for path in lists], stamps)
    file(work, '0.galley', write(cases.A))
    lists[1].unlink()
    status, output, _ = command.text('make', '--out', lists[0].parent, *names[:2], names[-2])
    tally.same('what is newer is made again', (status, output, lists[0].read_text()), (0, summary(2, 1), '2 0 1 1 0\n1 1 1\n2 3 1\n'))
    tally.group('command: a series')


def before(*paths):
    """Lets files be older than what is written now, however coarse the clock of the files is."""
    then = time.time() - 10
    for path in paths:
        os.utime(path, (then, then))


def turned_away(tally, command, folder):
    """What is told before anything is made, and what fails while the others are made."""
    work, out = folder / 'turned', folder / 'out'
    (work / 'other').mkdir(parents=True)
    one, two, other = file(work, 'one.galley', write(cases.A)), file(work, 'two.galley', write(cases.K)), file(work / 'other', 'one.galley', write(cases.A))
    plain, nowhere, taken = file(work, 'one', write(cases.A)), work / 'nowhere.galley', file(work, 'taken', b'')
    inner = file(work, 'two.list', write(cases.A))
    for what, arguments, told in [
            ('two of one name', ('--out', out, one, two, other), f'{one} and {other} would both be made into {out}/one.list; nothing is made'),
            ('one of them without its end', ('--out', out, one, plain), 'would both be made into'),
            ('a list in place of a galley', ('--out', work, two, inner), f'the list of {two} would take the place of the galley {inner}; nothing is made'),
            ('standard input', ('--out', out, '-'), 'standard input has no name'),
            ('no folder', (one, two), 'several galleys want a folder for their lists, --out DIR'),
            ('no amount', ('--out', out, '--memory', 'much', one), 'no amount of memory'),
            ('memory without a folder', ('--memory', '1G', one), '--out'),
            ('an opening', ('--out', out, '--after', one, two), '--out DIR cannot stand beside --after LIST')]:
        status, output, remarks = command.text('make', *arguments)
        tally.same(f'{what}: {remarks}', (status, output, told in remarks, out.exists()), (2, '', True, False))
    status, output, remarks = command.text('make', '--out', out, one, nowhere, work / 'other', two)
    tally.same('two that cannot be read', (status, output, str(nowhere) in remarks, remarks.count('\n')), (2, summary(2, failed=2), True, 2))
    status, output, remarks = command.text('make', '--out', taken, one)
    tally.same('a file in place of the folder', (status, output, f'{taken} cannot be written' in remarks), (2, '', True))
    (out / 'one.list').unlink()
    (out / 'one.list').mkdir()
    status, output, remarks = command.text('make', '--out', out, one)
    tally.same('a folder in place of a list', (status, output, f'{out}/one.list cannot be written' in remarks, parts(out)), (2, summary(failed=1), True, []))
    tally.group('command: series that are turned away')


def memory(tally, command, folder):
    """A galley that needs more than is allowed fails by itself; the others are made, however little is allowed at a time."""
    work, out = folder / 'memory', folder / 'lent'
    work.mkdir()
    names = [file(work, f'{number}.galley', write(galley)) for number, galley in enumerate(sample.galleys(172, 30, 8, 3))]
    needed = [4 * sum(map(int, command.text('forecast', '--lines', name)[1].split()[:2])) for name in names]
    most, over = max(needed), sum(each > max(needed) - 1 for each in needed)
    refused = [command.text('make', name)[0] for name, each in zip(names, needed) if each <= most - 1]
    status, output, remarks = command.text('make', '--out', out, f'--memory={most - 1}', *names)
    tally.same('all but the largest', (status, output), (2, summary(len(refused) - sum(refused), refused=sum(refused), failed=over)))
    tally.same('why', re.findall(r'(making needs \d+ MB of memory, and --memory allows \d+)$', remarks, re.M), over * ['making needs 1 MB of memory, and --memory allows 1'])
    tally.group('command: a series within memory')


def at_terminal(tally, command, folder):
    """A bar where somebody waits, which is gone in the end, and remarks that stand above it; nothing of that elsewhere."""
    work = folder / 'watched'
    work.mkdir()
    names = [file(work, f'{number}.galley', write(galley)) for number, galley in enumerate(sample.galleys(173, 40, 8, 4))]
    names.append(file(work, 'cut.galley', b''))
    status, output, said = on_terminal(command, 'make', '--out', work / 'lists', *names)
    text = '\n'.join(said)
    tally.same(f'on a terminal: {text[:200]!r}', (status, output.endswith(' 0 failed\n'), f' of {len(names)} galleys' in text, 'cut.galley: R 1 0: ' in text),
               (1, True, True, True))
    tally.same('elsewhere', [line for line in command.text('make', '--out', work / 'again', *names)[2].splitlines() if not line.startswith('barleychime: ')], [])
    tally.group('command: a series on a terminal')


def run(tally, command, folder):
    series(tally, command, folder)
    turned_away(tally, command, folder)
    memory(tally, command, folder)
    at_terminal(tally, command, folder)
