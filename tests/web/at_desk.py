"""The desk, by keys, by pointer and by touch; layouts, undo, reload, the list as a file. Every list in force is marked natively."""
import pathlib
import time

import native
from driver import ActionChains, Keys

ROOT = pathlib.Path(__file__).resolve().parents[2]
REAL = ROOT / 'samples/real'


def sample(browser, name):
    """A sample's first accepted list at the desk."""
    browser.js('app.sample(app.inside.find((s) => s.name === arguments[0]))', name)
    browser.until('app.best && app.bench && app.bench.open', f'{name} is made')
    browser.js('if (app.tab !== "desk") app.toDesk(app.lists.find((l) => l.mark.ok).name)')
    browser.until('app.tab === "desk" && app.hand.s.scanned', f'{name} is at the desk')


def gain(browser):
    """A page of which another end alone has fewer turns, and the end: page, lines, figures, tables, change."""
    return browser.js('''for (let q = 1; q < app.bench.p; q++) for (const row of app.bench.scan(q).rows.values()) for (const e of row.accepted)
        if (e.change < 0) return [q, e.i, row.j, row.d, e.change]; return null;''')


def trial(browser):
    return browser.js('const t = app.bench.trial; return t && [t.q, ...t.end.slice(0, app.g.width)]')


def turns(browser):
    return browser.value('app.bench.mark.t')


def by_keys(tally, browser, command, folder):
    sample(browser, 'memdesign-p049')
    galley = REAL / 'memdesign-p049.galley'
    page, *_, change = gain(browser)
    before = turns(browser)
    browser.js('app.hand.select(arguments[0])', page)
    browser.keys(Keys.ARROW_DOWN)
    tally.same('an arrow is a trial', trial(browser) is not None, True)
    tally.same('a trial changes nothing in force', turns(browser), before)
    browser.keys(Keys.ESCAPE)
    tally.same('Escape takes it back', trial(browser), None)
    browser.keys('b')
    tally.same('B is the best end of the page', browser.value('[app.bench.trial.answer.ok, app.bench.trial.change]'), [True, change])
    tally.same('the change is told in words', 'turn' in browser.text('#say'), True)
    browser.keys(Keys.ENTER)
    tally.same('Enter commits', turns(browser), before + change)
    line = native.same_in_force(tally, browser, command, galley, folder, 'committed')
    refused(tally, browser)
    browser.keys('s')
    browser.driver.switch_to.active_element.send_keys('list-07', Keys.ENTER)
    tally.same('a layout is saved at the engine’s own desk', browser.value('app.bench.sheet.desk.layouts().map((l) => l.name)'), ['list-07'])
    browser.held(Keys.CONTROL, 'z')
    tally.same('undone', turns(browser), before)
    browser.held((Keys.CONTROL, Keys.SHIFT), 'z')
    tally.same('done again', turns(browser), before + change)
    browser.held(Keys.CONTROL, 'z')
    reload(tally, browser, before, page)
    browser.click('[data-back]')
    tally.same('back to the layout', native.same_in_force(tally, browser, command, galley, folder, 'come back'), line)
    browser.click('[data-drop]')
    tally.same('dropped', browser.value('app.bench.layouts().length'), 0)
    written(tally, browser, command, galley)


def refused(tally, browser):
    """An end that is refused is told by rule and page, and is not committed."""
    found = browser.js('''for (let q = 1; q < app.bench.p; q++) for (let k = 1; k < 9; k++) {
        const [i, j, d] = app.bench.ends[q - 1];
        app.hand.select(q);
        const t = app.bench.try(q, [i - k, j, d]);
        if (t && !t.answer.ok) { app.hand.paint(); return [t.answer.number, t.answer.place]; }
        app.bench.cancel(); } return null;''')
    before = turns(browser)
    said = browser.text('#say')
    tally.same('a refused end is told by its rule', f'{found[0]}' in said and f'page {found[1]}' in said, True)
    browser.js('app.hand.view.film.focus()')
    browser.keys(Keys.ENTER)
    tally.same('and is not committed', turns(browser), before)
    browser.keys(Keys.ESCAPE)


def reload(tally, browser, before, page):
    time.sleep(0.6)
    browser.again()
    browser.until('app.bench && app.bench.open', 'the desk is there again')
    kept = browser.value('[app.tab, app.bench.mark.t, app.bench.layouts().map((l) => l.name), app.bench.canRedo]')
    tally.same('a reload loses nothing', kept, ['desk', before, ['list-07'], True])


def written(tally, browser, command, galley):
    """The list in force as a file that the command takes."""
    browser.js('app.hand.view.film.focus()')
    browser.keys('w')
    file = browser.written(f'{galley.stem}.list')
    tally.same('a list is written', file.exists(), True)
    _, numbers = native.in_force(browser)
    tally.same('`barleychime mark` takes it', command.text('mark', str(galley), str(file))[:2], (0, numbers + '\n'))
    file.unlink()


def by_pointer(tally, browser, command, folder):
    sample(browser, 'memdesign-p049')
    galley = REAL / 'memdesign-p049.galley'
    page, *end, change = gain(browser)
    before = turns(browser)
    browser.js('app.hand.select(arguments[0])', page)
    time.sleep(0.5)
    start = browser.value('app.hand.now()[0]')
    actions = ActionChains(browser.driver).move_to_element(browser.one('.bar:not(.second) .hold')).click_and_hold()
    for _ in range(12):
        actions.move_by_offset(0, -3)
    actions.perform()
    tally.same('the bar follows the pointer', browser.value('app.hand.now()[0]') < start, True)
    tally.same('what moved is tinted, and accepted ends have ticks', browser.value('[!!document.querySelector(".tm"), document.querySelectorAll(".tick").length > 0]'), [True, True])
    during = browser.value('app.hand.now()[0]')
    ActionChains(browser.driver).release().perform()
    time.sleep(0.2)
    tally.same('the trial stays when the bar is let go', browser.value('app.hand.now()[0]'), during)
    browser.js('app.hand.view.film.focus()')
    browser.keys(Keys.ESCAPE)
    browser.js('app.bench.try(arguments[0], arguments[1]); app.hand.paint()', page, (end + [0])[:3])
    tally.same('a trial that gains', browser.value('app.bench.trial.change'), change)
    browser.click('#commit')
    tally.same('committed by a click', turns(browser), before + change)
    native.same_in_force(tally, browser, command, galley, folder, 'by pointer')
    touched(tally, browser)


def touched(tally, browser):
    """By touch the bar moves, and the page under it does not."""
    browser.js('window.scrollTo(0, 0); app.hand.select(5)')
    time.sleep(0.5)                                            # the strip comes to rest
    x, y = browser.js('''const b = document.querySelector('.bar:not(.second) .knob').getBoundingClientRect();
        return [b.x + b.width / 2, b.y + b.height / 2]''')
    touch = lambda kind, points: browser.driver.execute_cdp_cmd('Input.dispatchTouchEvent', {'type': kind, 'touchPoints': points})  # noqa: E731
    browser.driver.execute_cdp_cmd('Emulation.setTouchEmulationEnabled', {'enabled': True})
    touch('touchStart', [{'x': x, 'y': y}])
    for step in range(1, 16):
        touch('touchMove', [{'x': x, 'y': y - 4 * step}])
        time.sleep(0.02)
    touch('touchEnd', [])
    time.sleep(0.2)
    tally.same('dragged by touch, and not scrolled', browser.value('[app.hand.now()[0] < app.bench.ends[app.hand.s.q - 1][0] - 3, window.scrollY]'), [True, 0])
    browser.driver.execute_cdp_cmd('Emulation.setTouchEmulationEnabled', {'enabled': False})
    browser.js('app.hand.cancel()')


def long(tally, browser, command, folder):
    """A list of more pages than the engine's desk takes goes by markings, and the page says so."""
    sample(browser, 'mpman-p003')
    tally.same('marking is said', [browser.value('app.bench.marking'), '64' in browser.text('#lmode')], [True, True])
    found = gain(browser)
    tally.same('some end gains', found is not None, True)
    browser.js('app.hand.select(arguments[0])', found[0])
    before = turns(browser)
    browser.keys('b', Keys.ENTER)
    tally.same('committed above 64 pages', turns(browser) < before, True)
    native.same_in_force(tally, browser, command, REAL / 'mpman-p003.galley', folder, 'above 64 pages')
    browser.keys('s')
    browser.driver.switch_to.active_element.send_keys(Keys.ENTER)
    tally.same('a layout is kept by the page', browser.value('app.bench.layouts().length'), 1)
