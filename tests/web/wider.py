"""Printed pages, two ends at once, and a book."""
import pathlib

import at_desk
import native
from driver import Keys

ROOT = pathlib.Path(__file__).resolve().parents[2]
REAL = ROOT / 'samples/real'


def printed(tally, browser, command, folder):
    """Pages up to a chosen one stay, and the rest is made again after them, as the command makes it."""
    at_desk.sample(browser, 'memman-p211-tables')
    galley = REAL / 'memman-p211-tables.galley'
    browser.js('app.hand.select(4)')
    browser.keys('p')
    browser.until('app.bench.printed === 4 && app.after', 'the rest is made')
    opening = folder / 'printed.list'
    opening.write_text(browser.value('app.bench.ends.slice(0, 4).map((e) => e.slice(0, app.g.width).join(" ") + "\\n").join("")'))
    made = command.text('make', '--after', str(opening), str(galley))[1]
    tally.same('the best after four printed pages', browser.value('[app.after.p, app.after.x, app.after.y, app.after.t, app.after.w].join(" ")'), made.splitlines()[0])
    before = browser.value('Array.from(app.bench.words).join()')
    browser.js('app.hand.select(2)')
    browser.keys(Keys.ARROW_DOWN, Keys.ENTER)
    tally.same('an end of a printed page does not move', browser.value('app.bench.words.slice(0, 12).join()'), ','.join(before.split(',')[:12]))
    browser.keys(Keys.ESCAPE)
    browser.click('#makebest')
    browser.until('app.bench.trial && app.bench.trial.whole', 'the rest made best is a trial')
    browser.js('app.hand.view.film.focus()')
    browser.keys(Keys.ENTER)
    text, numbers = native.in_force(browser)
    tally.same('the rest is made after them', numbers, made.splitlines()[0])
    tally.same('and begins with them', text.startswith(opening.read_text()), True)
    native.same_in_force(tally, browser, command, galley, folder, 'after printed pages')
    browser.keys('p')
    tally.same('no page is printed any more', browser.value('app.bench.printed'), 0)


def together(tally, browser, command, folder):
    """Two neighbouring ends move together, by the keyboard alone."""
    at_desk.sample(browser, 'gretl-p046')
    galley, moved = REAL / 'gretl-p046.galley', 0
    for page in range(1, browser.value('app.bench.p') - 2):
        browser.js('app.hand.select(arguments[0])', page)
        if not browser.value('app.hand.s.pair'):
            browser.keys('2')
        if not browser.value('app.bench.pairs(app.hand.s.q).accepted.length > 0'):
            continue
        browser.held(Keys.SHIFT, Keys.ARROW_UP)
        if not browser.value('!!(app.bench.trial && app.bench.trial.second && app.bench.trial.answer.ok)'):
            browser.held(Keys.SHIFT, Keys.ARROW_DOWN)
        if browser.value('!!(app.bench.trial && app.bench.trial.second && app.bench.trial.answer.ok)'):
            before = browser.value('app.bench.ends.slice(arguments[0] - 1, arguments[0] + 1).join()', page)
            browser.keys(Keys.ENTER)
            after = browser.value('app.bench.ends.slice(arguments[0] - 1, arguments[0] + 1).join()', page)
            tally.same(f'the ends of pages {page} and {page + 1} are others', before != after, True)
            native.same_in_force(tally, browser, command, galley, folder, f'pages {page} and {page + 1}')
            moved += 1
    tally.same('two ends were moved together', moved > 0, True)


def book(tally, browser, command, folder):
    """Several galleys are a book, as the command binds it; a chapter opens with its list; a refused book is told."""
    names = ['mpman-p003', 'mpman-p081']
    said = command.text('book', *(str(REAL / f'{name}.galley') for name in names))[1].splitlines()
    browser.js('app.sample(app.inside.find((s) => s.galleys))')
    browser.until('app.tab === "book" && app.book.made', 'the book is made')
    numbers = 'const m = app.book.made; return [m.p, m.x, m.y, m.t, m.w].map(Number).join(" ")'
    tally.same('the sample’s book', browser.js(numbers), said[0])
    pages = [line.split() for line in said[1:] if line[-1].isdigit()]
    listed = browser.js('return app.book.made.lists.flatMap((l, k) => { const w = app.engine.width(app.book.chapters[k].bytes); return Array.from({length: l.length / w}, (_, q) => Array.from(l.slice(q * w, q * w + w)).join(" ")); })')
    tally.same('every page of every chapter', listed, [' '.join(line[1:]) for line in pages])
    for size in ((1440, 900), (390, 844)):
        browser.sized(*size)
        tally.same(f'the book at {size[0]} px: nothing sideways', browser.sideways(), 0)
    browser.sized(1440, 900)
    browser.give(*(REAL / f'{name}.galley' for name in ('gretl-p046', 'gretl-p441')))
    browser.until('app.tab === "book" && app.book.made && app.book.chapters[0].name.startsWith("gretl")', 'files are a book')
    said = command.text('book', *(str(REAL / f'{name}.galley') for name in ('gretl-p046', 'gretl-p441')))[1].splitlines()
    tally.same('files as a book', browser.js(numbers), said[0])
    browser.click('#view-book table th a, #view-book table th button')
    browser.until('app.tab === "show" && app.best', 'a chapter opens')
    tally.same('a chapter has its list of the book, and it is accepted', browser.value('app.lists.map((l) => l.mark.ok).join()'), 'true')
    browser.give(REAL / 'gretl-p046.galley', REAL / 'mpman-p003.galley')
    browser.until('app.tab === "book" && app.book.made && !app.book.made.ok', 'a refused book')
    tally.same('a book of unlike chapters is told', ['29' in browser.text('#view-book'), browser.value('app.book.made.number')], [True, 29])


def large(tally, browser, command, folder):
    """A column opens large with every line numbered, and closes by Escape; the class's rows are written as CSV."""
    at_desk.sample(browser, 'gretl-p046')
    browser.js('app.go("show")')
    browser.until('document.querySelector("#view-show .col, #view-show [data-large]")', 'columns')
    browser.js('(document.querySelector("#view-show [data-large]") || document.querySelector("#view-show .col")).click()')
    browser.until('document.querySelector("dialog[open]")', 'the large view')
    tally.same('lines have numbers', browser.value('document.querySelectorAll("dialog[open] svg text.ln").length > 20'), True)
    tally.same('nothing sideways', browser.sideways(), 0)
    browser.keys(Keys.ESCAPE)
    tally.same('closed', browser.value('document.querySelector("dialog[open]")'), None)
