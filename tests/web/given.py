"""What is handed to the page: refused galleys, galleys without a pagination, pasted text, garbage in every field; and names that look like markup."""
import base64
import pathlib
import random
import struct

import at_desk
import native
from driver import Keys

ROOT = pathlib.Path(__file__).resolve().parents[2]
CASE_C = 'GS 10 20 0 0 2 1 1\nTL 10 0 0 1\nTL 10 0 0 1\nTL 20 0 0 1\nTL 20 0 0 1\nFG 20 0 0 4\nED\n'
ONE = 'GS 0 30 0 0 2 1 1\nTL 10 0 0 1\nED\n'
NAMES = ['<img src=x onerror="document.title=1">', '"><script>document.title=1</script>', '&lt;b&gt;', "' onclick='document.title=1", '<svg onload=document.title=1>', 'a‮b c', '${1}`']
GARBAGE = ['', ' ', '\x00', '<b>', 'GS', 'GS 1 2 3', 'ED', 'TL 1 1 1 1', '1 2 3 4 5 6 7', '-1 0', '9' * 4000, 'R 11 0', '{"name":1}', '‮‭', 'GS 10 20 0 0 2 1 1\nED\n', CASE_C.replace('ED', 'ED\nED')]


def run(tally, browser, command, folder):
    browser.give(('short.galley', b'GS\0'))
    browser.until('app.refused', 'a refused galley')
    tally.same('a refused galley is told with number and place', 'R 1 0' in browser.text('main'), True)
    paste(tally, browser, CASE_C)
    browser.until('app.best && app.best.ok', 'pasted text is made')
    tally.same('case C, pasted', browser.value('[app.best.p, app.best.t]'), [5, 2])
    browser.give(('short.galley', b'GS\0'))
    browser.until('!document.getElementById("notice").hidden', 'a sentence')
    tally.same('a refused galley leaves what is open', [browser.value('app.best.p'), 'short.galley' in browser.text('#notice')], [5, True])
    browser.give(ROOT / 'samples/real/mpman-p081.galley')
    browser.until('app.best && !app.best.ok', 'a galley without a pagination')
    for tab in ('show', 'desk'):
        browser.js('app.go(arguments[0])', tab)
        tally.same(f'no pagination, {tab}', 'R 11 0' in browser.text('main'), True)
    paste(tally, browser, ONE)
    browser.until('app.best && app.best.ok && app.best.p === 1', 'a list of one page')
    for tab in ('show', 'class', 'desk'):
        browser.js('app.go(arguments[0])', tab)
    tally.same('a list of one page has no desk', 'one page' in browser.text('#view-desk'), True)
    garbage(tally, browser)


def stopped(tally, browser, command, folder):
    """A making that takes long tells what is known of it and can be stopped; it can be begun again, and another galley is made after it. Without
    weights no cost leaves a place out, so that these blocks take far longer than a person clicks."""
    spec, block = b'GS' + struct.pack('>7I', 0, 60_000, 0, 0, 2, 0, 0), struct.pack('>4I', 600, 0, 0, 1)
    browser.give(('slow.galley', spec + (b'TL' + block) * 1_000 + (b'FG' + block) * 100 + (b'TB' + block) * 20 + b'ED'))
    browser.js('app.go("show")')
    for button in ('#stop', '#makeagain', '#stop'):
        browser.until(f'document.querySelector("{button}")', button)
        if button == '#stop':
            tally.same('a making tells its memory', 'work area of' in browser.text('#view-show'), True)
        browser.click(button)
    browser.until('app.stopped', 'a making that is stopped')
    tally.same('a making that is stopped has no list', [browser.value('!!(app.best && app.best.ok)'), 'stopped' in browser.text('#view-show')], [False, True])
    galley = ROOT / 'samples/real/gretl-p441.galley'
    browser.give(galley)
    browser.until('app.best && app.best.ok', 'another galley is made')
    tally.same('another galley is made after a stop', browser.value('app.best.t'), int(native.made(command, galley).split()[3]))


def paste(tally, browser, text):
    browser.js('app.go("open")')
    browser.js('document.getElementById("paste").value = arguments[0]', text)
    browser.click('#readpaste')


def state(browser):
    """What may not be lost: galley, list in force, layouts, undo."""
    if browser.value('!app.bench'):
        return 'no desk'
    return browser.value('[Array.from(app.bytes).join(), Array.from(app.bench.words).join(), app.bench.layouts().map((l) => l.name).join(), app.bench.canUndo]')


def garbage(tally, browser):
    """Garbage in every field gives a sentence, and the desk is as it was."""
    at_desk.sample(browser, 'gretl-p441')
    browser.keys(Keys.ARROW_DOWN)
    browser.keys(Keys.ESCAPE)
    browser.js('app.bench.save("mine")')
    before, rng = state(browser), random.Random(9)
    junk = [(f'junk-{number}', bytes(rng.randrange(256) for _ in range(rng.choice((1, 30, 900))))) for number in range(6)]
    junk += [('half.galley', (ROOT / 'samples/real/gretl-p441.galley').read_bytes()[:-1][3:]), ('empty', b''), ('zeros', bytes(5000))]
    for name, data in junk:
        browser.give((name, data))
        browser.until('["toast", "notice"].some((id) => !document.getElementById(id).hidden) || app.lists.some((l) => l.name === arguments[0])'.replace('arguments[0]', repr(name)), f'{name} is told')
    tally.same('garbage as files leaves the desk as it was', state(browser), before)
    for text in GARBAGE:
        paste(tally, browser, text)
        tally.same(f'garbage pasted ({text[:20]!r}): a sentence, and the desk as it was', [said(browser), state(browser)], [True, before])
    names(tally, browser)


def said(browser):
    """Whether something is told: for a moment, until it is closed, or of a list."""
    return browser.value('["toast", "notice"].some((id) => !document.getElementById(id).hidden && document.getElementById(id).innerText.length > 3) || app.lists.some((l) => !l.mark.ok)')


def names(tally, browser):
    """A layout's name that the desk cannot take is told, and no layout is lost."""
    browser.js('app.go("desk")')
    for name in ('x' * 17, 'ü' * 9, '<b>bold</b>'):
        browser.js('app.hand.view.film.focus()')
        browser.keys('s')
        field = browser.driver.switch_to.active_element
        field.clear()
        field.send_keys(name, Keys.ENTER)
        browser.keys(Keys.ESCAPE)
        tally.same(f'a layout called {name}: mine is still there', 'mine' in browser.value('app.bench.layouts().map((l) => l.name)'), True)
        tally.same(f'a layout called {name}: shown as text', browser.value('document.querySelectorAll("#desk b b, #desk .layouts b").length'), 0)


def markup(tally, browser, command, folder):
    """Whatever a file is called and whatever is in it is shown as text."""
    elements = 'document.querySelectorAll("img, iframe, object, embed, [onclick], [onload], [onerror], main script, a[href^=javascript]").length'
    galley = (ROOT / 'samples/real/gretl-p441.galley').read_bytes()
    best = command.text('make', str(ROOT / 'samples/real/gretl-p441.galley'))[1].encode()
    for name in NAMES:
        browser.js('''const bytes = (s) => Uint8Array.from(atob(s), (c) => c.charCodeAt(0));
            app.take([{name: arguments[0], bytes: bytes(arguments[1])}, {name: arguments[0] + '1', bytes: bytes(arguments[2])}, {name: arguments[0] + '2', bytes: bytes(arguments[3])}])''',
                   name, coded(galley), coded(best), coded(f'{name} {name}\n'.encode()))
        browser.until('app.best', 'the galley is made')
        tally.same(f'{name}: the title is text', browser.text('#title').strip()[:12], name.strip()[:12])
        for tab in ('open', 'show', 'class', 'desk'):
            browser.js('app.chosen = new Set(app.lists.map((l) => l.name)); app.go(arguments[0])', tab)
            tally.same(f'{name}, {tab}: no element of it, and the window’s title', [browser.value(elements), browser.value('document.title === "1"')], [0, False])
        browser.js('app.go("class")')
        tally.same(f'{name}: its list is there by name', name.strip()[:8] in browser.text('#view-class'), True)


def coded(data):
    return base64.b64encode(data).decode()


def sealed(tally, browser, command, folder):
    """Nothing leaves the page, and nothing runs in it but its own script."""
    policy = browser.value('document.querySelector("meta[http-equiv=Content-Security-Policy]").content')
    tally.same('the policy allows nothing that it does not name', [policy.startswith("default-src 'none';"), 'http' in policy, 'unsafe-inline' in policy], [True, False, False])
    fetched = browser.driver.execute_async_script('const done = arguments[arguments.length - 1]; fetch("http://127.0.0.1:9/").then(() => done("fetched"), (error) => done(error.name))')
    tally.same('nothing is fetched', fetched, 'TypeError')
    browser.js('const s = document.createElement("script"); s.textContent = "document.title = 1"; document.body.append(s); document.body.insertAdjacentHTML("beforeend", "<img src=x onerror=\\"document.title = 1\\">")')
    tally.same('no other script runs', browser.value('document.title === "1"'), False)
    forbidden = browser.errors()
    tally.same('and the policy is what forbade them', len([line for line in forbidden if 'Content Security Policy' in line]) >= 3, True)
    loaded = browser.value('performance.getEntriesByType("resource").filter((one) => !one.name.startsWith("blob:") && !one.name.includes("127.0.0.1:9")).map((one) => one.name)')
    tally.same('the page loads no other file', [name for name in loaded if not name.endswith('/x')], [])
