"""How long the page takes, for docs/PERFORMANCE.md; no test. /usr/bin/python3 tests/web/times.py prints a row a galley: the pages that
`barleychime show` writes with two lists, opened; and page ends moved at the desk."""
import pathlib
import sys
import tempfile

ROOT = pathlib.Path(__file__).resolve().parents[2]
sys.path[:0] = [str(ROOT / 'tests'), str(ROOT / 'tests/host'), str(ROOT / 'tests/web')]
import driver  # noqa: E402
import handed  # noqa: E402
from command import Command  # noqa: E402

OPENINGS, STEPS = 5, 40
REAL = ['gretl-p046', 'memdesign-p049', 'memman-p211-tables', 'mpman-p003']


def opened(browser, page):
    """Milliseconds from the start of the navigation to the second frame after the spreads are there: the least of some."""
    times = []
    for _ in range(OPENINGS):
        browser.driver.get('about:blank')
        browser.driver.get(page.as_uri())
        browser.until('window.app && app.times.drawn && document.querySelector("#view-show svg, #view-class svg")', 'spreads')
        times.append(browser.value('app.times.drawn'))
    return min(times)


def moved(browser):
    """Milliseconds of a step of an end: marking, drawing and layout; the median and the worst."""
    browser.js('app.toDesk(app.lists.find((l) => l.mark.ok).name)')
    browser.until('app.tab === "desk" && app.hand.s.scanned', 'the desk has looked at all ends')
    return browser.js('''const times = [];
        for (let k = 0; k < arguments[0]; k++) { const t = performance.now(); app.hand.lines(k % 8 < 4 ? -1 : 1, true); document.body.offsetHeight; times.push(performance.now() - t); }
        app.hand.cancel(); times.sort((a, b) => a - b); return [times[times.length >> 1], times[times.length - 1]];''', STEPS)


def best(browser):
    """Milliseconds of the best list in a worker, which is made anew."""
    return browser.driver.execute_async_script('''const done = arguments[arguments.length - 1]; app.maker.reset(app.bytes);
        const t = performance.now(); app.maker.make([]).then(() => done(performance.now() - t));''')


def row(browser, command, folder, name, galley):
    made = folder / f'{name}.list'
    made.write_text(command.text('make', str(galley))[1])
    page = folder / f'{name}.html'
    command.run('show', str(galley), str(made), '--out', str(page))
    seen = opened(browser, page)
    step, worst = moved(browser)
    print(f'| {name} | {made.read_text().split()[0]} | {page.stat().st_size / 1000:.0f} KB | {seen:.0f} ms | {step:.1f} ms ({worst:.1f}) | {best(browser):.0f} ms |', flush=True)


def main():
    command, browser = Command(ROOT / 'host/command/target/release/barleychime'), driver.Browser()
    try:
        with tempfile.TemporaryDirectory() as name:
            folder = pathlib.Path(name)
            print('| galley | pages | file | spreads on the screen | a step of an end (worst) | best list in the worker |\n|---|---|---|---|---|---|')
            for chapter in REAL:
                row(browser, command, folder, chapter, ROOT / f'samples/real/{chapter}.galley')
            row(browser, command, folder, 'handbook', handed.largest_galley(command, folder))
    finally:
        browser.close()


if __name__ == '__main__':
    main()
