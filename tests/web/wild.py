"""Any galley and any keys: no error, and the list in force is always accepted and never better than the best."""
import random

from driver import ActionChains, Keys

ROUNDS, PRESSES = 24, 30
PRESS = [Keys.ARROW_UP, Keys.ARROW_DOWN, Keys.ARROW_LEFT, Keys.ARROW_RIGHT, 'b', 'n', 'r', '[', ']', Keys.ENTER, Keys.ENTER, Keys.ESCAPE, Keys.HOME, Keys.END, Keys.PAGE_UP, ' ']


def galley(rng):
    lines, figures, tables, top = rng.randint(1, 60), rng.randint(0, 8), rng.choice([0, 0, 3]), rng.randint(30, 70)
    low = int(top * rng.uniform(0.2, 0.9))
    rows = [f'GS {low} {top} 1 3 {rng.choice([1, 2])} {rng.choice([0, 1, 2])} 1' if rng.random() < 0.6
            else f'G2 {low} {top} 1 3 {rng.choice([1, 2])} 1 1 {rng.randint(0, top)}']
    if rng.random() < 0.3:
        rows.append(f'FO {rng.randint(1, 60)}')
    rows += [f'TL {rng.randint(3, 10)} 1 {rng.randint(1, 4)} {int(rng.random() < 0.85)}' for _ in range(lines)]
    cites = sorted(rng.randint(1, lines) for _ in range(figures))
    rows += [f'{"FK" if k < figures - 1 and rng.random() < 0.2 else "FG"} {rng.randint(4, top)} 1 3 {cite}' for k, cite in enumerate(cites)]
    rows += [f'TB {rng.randint(4, top)} 1 3 {cite}' for cite in sorted(rng.randint(1, lines) for _ in range(tables))]
    return '\n'.join(rows) + '\nED\n'


def run(tally, browser, command, folder):
    rng, desks = random.Random(3), 0
    for number in range(ROUNDS):
        browser.js('app.take([{name: "any", bytes: new TextEncoder().encode(arguments[0])}])', galley(rng))
        browser.until('!app.making', 'the galley is made')
        if browser.value('!!(app.bench && app.bench.open && app.bench.p > 1)'):
            desks += 1
            browser.js('app.go("desk")')
            press(browser, rng)
            right = browser.value('app.engine.mark(app.bytes, app.bench.words).ok && app.bench.mark.t >= app.best.t')
            tally.same(f'galley {number}: the list in force is accepted, and none beats the best', right, True)
        for tab in ('show', 'class', 'open', 'desk'):
            browser.js('app.go(arguments[0])', tab)
        tally.same(f'galley {number}: nothing sideways', browser.sideways(), 0)
    tally.same('desks', desks >= ROUNDS // 3, True)


def press(browser, rng):
    actions = ActionChains(browser.driver)
    for _ in range(PRESSES):
        hold, key = rng.choice([None, None, None, Keys.SHIFT, Keys.ALT]), rng.choice(PRESS)
        if hold and key in PRESS[:4]:
            actions.key_down(hold).send_keys(key).key_up(hold)
        else:
            actions.send_keys(key)
    actions.key_down(Keys.CONTROL).send_keys('z').key_up(Keys.CONTROL).perform()
