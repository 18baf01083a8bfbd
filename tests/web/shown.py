"""Samples, a class and paper."""
import csv
import pathlib
import subprocess

import native

ROOT = pathlib.Path(__file__).resolve().parents[2]
TABS = ('open', 'show', 'class', 'desk')
PHONE = (390, 844)


def samples(tally, browser, command, folder):
    """Every sample: its best list and all marks are the command's, and no view of it is wider than a desktop's or a phone's window."""
    count = browser.value('app.inside.length')
    tally.same('samples inside', count >= 10, True)
    for number in range(count):
        name = browser.value('app.inside[arguments[0]].name', number)
        browser.js('app.go("open")')
        browser.click(f'[data-sample="{number}"]')
        if browser.value('!!app.inside[arguments[0]].galleys', number):
            continue                                           # a book: wider.py has it
        browser.until('app.best', f'{name} is made')
        galley = native.galley_of(browser, folder)
        tally.same(f'{name}: the best list', native.best(browser), native.made(command, galley))
        for listed, text, number_, place, turns in browser.value(
                'app.lists.map((l) => [l.name, app.inside[arguments[0]].lists.find((x) => x.name === l.name).text, l.mark.number, l.mark.place, l.mark.t])', number):
            said = native.marked(command, galley, text, folder).split()
            tally.same(f'{name}: {listed}', ['R', str(number_), str(place)] if number_ else str(turns), said[:3] if said[0] == 'R' else said[3])
        fits(tally, browser, name)


def fits(tally, browser, name):
    for size in ((1440, 900), PHONE):
        browser.sized(*size)
        for tab in TABS:
            browser.js('app.go(arguments[0])', tab)
            tally.same(f'{name}, {tab} at {size[0]} px: nothing sideways', browser.sideways(), 0)
            tally.same(f'{name}, {tab} at {size[0]} px: something is shown', browser.value(f'document.getElementById("view-{tab}").innerText.trim().length > 20'), True)
    browser.sized(1440, 900)


def class_of(browser):
    """A galley and twenty lists for it, as a class hands them in: those of a sample inside, and seven that are no lists or are cut short."""
    galley = ROOT / 'samples/real/gretl-p046.galley'
    texts = browser.value('app.inside.find((s) => s.name === "gretl-p046").lists.slice(0, 13).map((l) => l.text)')
    texts += ['', 'R 11 0\n', '3 x\n', '1 0\n', '\n'.join(texts[0].splitlines()[:-1]) + '\n', texts[0].replace(' ', ' 9', 1), '\x00\x01\x02']
    return galley, [(f'hand-{number + 1:02}.list', text.encode()) for number, text in enumerate(texts)]


def school(tally, browser, command, folder):
    """Twenty lists at once: the report's rows and sums are the command's, a row leads to its spreads, rows are written as CSV."""
    galley, lists = class_of(browser)
    browser.give(galley, *lists)
    browser.until('app.best && app.lists.length === 20', 'twenty lists are read')
    browser.js('app.go("class")')
    browser.until('document.querySelectorAll("#view-class [data-show]").length >= 20', 'a row a list')
    text = browser.text('#view-class')
    accepted, turned = [], []
    for name, data in lists:
        said = native.marked(command, galley, data.decode(), folder)
        page = browser.value('(({mark: m}) => m.ok ? [m.p, m.x, m.y, m.t, m.w].join(" ") : m.unread ? "?" : "R")(app.lists.find((l) => l.name === arguments[0] || l.name + ".list" === arguments[0]))', name)
        right = said if said and said[0] not in 'R?' else said[:1]
        tally.same(f'class: {name}', page, right)
        accepted += [said] if right not in ('R', '?') else []
        turned += [right] if right in ('R', '?') else []
    counts = f'{len(accepted)} accepted', f'{turned.count("R")} refused', f'{turned.count("?")} unreadable'
    tally.same('class: accepted, refused and unreadable ones are told', [each in ' '.join(text.split()) for each in counts], [True] * 3)
    engine = int(native.made(command, galley).split()[3])
    excess = sum(int(said.split()[3]) - engine for said in accepted)
    tally.same('class: the mean excess', f'{excess}/{len(accepted)}' in text.replace(' ', ''), True)
    for size in ((1440, 900), PHONE):
        browser.sized(*size)
        tally.same(f'class at {size[0]} px: nothing sideways', browser.sideways(), 0)
    browser.sized(1440, 900)
    rows(tally, browser, lists)
    browser.click('#view-class [data-show]')
    browser.until('app.tab === "show" && document.querySelector("#view-show svg")', 'a row opens its spreads')
    tally.same('class: the row that was opened is shown', browser.value('app.chosen.size'), 1)


def rows(tally, browser, lists):
    """The report's rows as CSV."""
    browser.js('[...document.querySelectorAll("#view-class button")].find((b) => b.innerText.includes("CSV")).click()')
    file = browser.written("gretl-p046-class.csv")
    with open(file, newline='', encoding='utf-8') as text:
        read = list(csv.DictReader(text))
    tally.same('class as CSV: a row a list', sorted(row['list'] for row in read), sorted(name for name, _ in lists))
    tally.same('class as CSV: turns', {row['list']: row['T'] for row in read}, browser.js('return Object.fromEntries(app.lists.map((l) => [l.name, l.mark.ok ? String(l.mark.t) : ""]))'))


def paper(tally, browser, command, folder):
    """Pages and report on paper: whole, in words that can be found, and light."""
    galley, lists = class_of(browser)
    browser.give(galley, *lists[:8])
    browser.until('app.best && app.lists.length === 8', 'the lists are read')
    for tab, word in (('class', 'hand-01'), ('show', 'gretl-p046')):
        browser.js('app.go(arguments[0])', tab)
        file = folder / f'{tab}.pdf'
        file.write_bytes(browser.printed())
        told = subprocess.run(['pdfinfo', file], capture_output=True, text=True).stdout
        pages = int(told.split('Pages:')[1].split()[0])
        tally.same(f'{tab} on paper: pages', 1 <= pages <= 30, True)
        tally.same(f'{tab} on paper: {word}', word in subprocess.run(['pdftotext', file, '-'], capture_output=True, text=True).stdout, True)
