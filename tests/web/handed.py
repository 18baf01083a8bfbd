"""The page that `barleychime show` writes: what is in it, what it opens as, and what the command says where it cannot be written."""
import os
import pathlib
import subprocess

import native
import shown
from driver import PAGE

ROOT = pathlib.Path(__file__).resolve().parents[2]
GALLEY = ROOT / 'samples/real/gretl-p441.galley'
MOST = 1_000_000  # bytes, for the largest galley and two lists
WILD = '</script><script>document.title=1</script><!--   & <b>'


def run(tally, browser, command, folder):
    galley = folder / 'chapter.galley'
    galley.write_bytes(GALLEY.read_bytes())
    written(tally, command, galley, folder)
    refused(tally, command, galley, folder)
    largest(tally, command, folder)
    one(tally, browser, command, galley, folder)
    many(tally, browser, command, folder)
    wild(tally, browser, command, galley, folder)


def written(tally, command, galley, folder):
    status, out, remarks = command.text('show', str(galley))
    page = folder / 'chapter.html'
    tally.same('show writes beside the galley', (status, out, remarks), (0, '', f'barleychime: {page} is written\n'))
    tally.same('the page is as it was built, but for what it is handed', len(page.read_bytes()) > PAGE.stat().st_size, True)
    _, printed, _ = command.run('show', str(galley), '--out', '-')
    tally.same('--out - prints it', printed, page.read_bytes())
    _, piped, _ = command.run('show', '-', '--out', '-', given=galley.read_bytes())
    tally.same('a galley from standard input, to standard output', piped, printed.replace(b'"name":"chapter"', b'"name":"galley"'))
    opener = folder / 'bin'
    opener.mkdir()
    (opener / 'xdg-open').write_text(f'#!/bin/sh\necho "$1" > {folder}/opened\n')
    (opener / 'xdg-open').chmod(0o755)
    subprocess.run([command.program, 'show', galley, '--open'], env={**os.environ, 'PATH': f'{opener}:{os.environ["PATH"]}'}, check=True, stderr=subprocess.DEVNULL)
    tally.same('--open opens it', (folder / 'opened').read_text(), f'{page}\n')


def refused(tally, command, galley, folder):
    """What cannot be written is said, and nothing that was there is lost."""
    cases = [(('show', str(galley), '--out', str(galley)), 2, 'take its place'), (('show', '-'), 2, '--out is wanted'),
             (('show', str(galley), '--out', '-', '--open'), 2, '--open opens a file'), (('show', str(galley), '--out', str(folder / 'no/such/page.html')), 2, 'No such file'),
             (('show', str(folder / 'none.galley')), 2, 'No such file'), (('show', str(ROOT / 'samples/case-a.txt'), '--out', str(folder / 'x.html')), 1, 'pack'),
             (('show', str(galley), str(folder / 'none.list'), '--out', str(folder / 'x.html')), 2, 'none.list'), (('show',), 2, 'GALLEY')]
    for call, status, word in cases:
        got, _, remarks = command.text(*call)
        tally.same(f'{" ".join(call[1:])}: status and words', (got, word in remarks), (status, True))
    tally.same('the galley is as it was', galley.read_bytes(), GALLEY.read_bytes())


def largest_galley(command, folder):
    """A galley of 4,000 lines, 200 figures and 50 tables."""
    rows = ['GS 40000 60000 600 1200 2 1 1', *['TL 1000 200 300 1'] * 4000]
    rows += [f'FG {5000 + 97 * k % 9000} 300 900 {1 + 20 * k}' for k in range(200)] + [f'TB {4000 + 89 * k % 7000} 300 900 {1 + 80 * k}' for k in range(50)]
    (folder / 'largest.txt').write_text('\n'.join([*rows, 'ED', '']))
    galley = folder / 'largest.galley'
    galley.write_bytes(command.run('pack', str(folder / 'largest.txt'))[1])
    return galley


def largest(tally, command, folder):
    """With two lists its page is under 1 MB."""
    galley = largest_galley(command, folder)
    lists = []
    for number in range(2):
        lists.append(folder / f'largest-{number}.list')
        lists[-1].write_text(''.join(f'{q} {24 * q} {q} {q // 4}\n' for q in range(1, 168)))
    tally.same('the largest galley is one', command.text('forecast', str(galley))[0], 0)
    command.run('show', str(galley), *map(str, lists))
    size = (folder / 'largest.html').stat().st_size
    tally.same(f'the page of the largest galley with two lists has {size} bytes', size < MOST, True)


def one(tally, browser, command, galley, folder):
    """With one list it opens on the pages, with the engine's own list beside it."""
    command.run('show', str(galley), str(GALLEY.with_suffix('.latex')), '--out', str(folder / 'one.html'))
    browser.open(folder / 'one.html')
    browser.until('app.best', 'the galley is made')
    tally.same('one list: galley, list and view', browser.value('[app.name, app.lists.map((l) => l.name).join(), app.tab]'), ['chapter', 'gretl-p441.latex', 'show'])
    tally.same('one list: the best', native.best(browser), native.made(command, galley))
    said = native.marked(command, galley, GALLEY.with_suffix('.latex').read_text(), folder).split()
    tally.same('one list: its mark', browser.value('(({mark: m}) => m.ok ? [m.p, m.x, m.y, m.t, m.w].join(" ") : `R ${m.number} ${m.place}`)(app.lists[0])'), ' '.join(said))
    for size in ((1440, 900), shown.PHONE):
        browser.sized(*size)
        tally.same(f'one list at {size[0]} px: nothing sideways', browser.sideways(), 0)
    browser.sized(1440, 900)


def many(tally, browser, command, folder):
    """With many it is the report on a class; files of the same name in several folders are told apart."""
    galley, lists = shown.class_of(browser)
    paths = []
    for number, (name, data) in enumerate(lists):
        file = folder / f'hand-{number % 2}' / (name if number > 1 else 'same.list')
        file.parent.mkdir(exist_ok=True)
        file.write_bytes(data)
        paths.append(file)
    status, _, remarks = command.text('show', str(galley), *map(str, paths), '--out', str(folder / 'many.html'))
    tally.same('many lists are written', (status, 'is written' in remarks), (0, True))
    browser.open(folder / 'many.html')
    browser.until('app.best && document.querySelectorAll("#view-class [data-show]").length >= 20', 'the class report')
    tally.same('many lists: the report, all of them, by names of their own', browser.value('[app.tab, app.lists.length, new Set(app.lists.map((l) => l.name)).size]'), ['class', 20, 20])


def wild(tally, browser, command, galley, folder):
    """Names and texts that look like markup are data."""
    file = folder / '<img src=x onerror=document.title=1>.list'
    file.write_text(WILD)
    command.run('show', str(galley), str(file), str(GALLEY.with_suffix('.latex')), '--out', str(folder / 'wild.html'))
    browser.open(folder / 'wild.html')
    browser.until('app.best', 'the galley is made')
    tally.same('wild: the name as it is', browser.value('app.lists[0].name'), file.stem)
    for tab in shown.TABS:
        browser.js('app.go(arguments[0])', tab)
        tally.same(f'wild, {tab}: no element of it', browser.value('[document.querySelectorAll("img, main script").length, document.title === "1"]'), [0, False])
