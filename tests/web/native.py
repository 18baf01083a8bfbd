"""What the native command says of a galley and of lists, and what the page says."""
import base64


def galley_of(browser, folder, name='page.galley'):
    """The galley that the page has open, as a file."""
    file = folder / name
    file.write_bytes(base64.b64decode(browser.value('btoa(Array.from(app.bytes, (b) => String.fromCharCode(b)).join(""))')))
    return file


def made(command, galley):
    """What `make` prints."""
    return command.text('make', str(galley))[1]


def marked(command, galley, text, folder):
    """What `mark` prints of a list: its numbers, or R with number and place."""
    file = folder / 'marked.list'
    file.write_text(text)
    return command.text('mark', str(galley), str(file))[1].strip()


def best(browser):
    """The page's best list, as `make` prints one."""
    return browser.js('''const b = app.best; if (!b.ok) return `R ${b.number} ${b.place}\\n`;
        return `${b.p} ${b.x} ${b.y} ${b.t} ${b.w}\\n` + b.ends.map((e, q) => [q + 1, ...e.slice(0, app.g.width)].join(' ') + '\\n').join('');''')


def in_force(browser):
    """The list in force at the desk as plain lines, and its numbers as the page has them."""
    text = browser.value('app.bench.ends.map((e) => e.slice(0, app.g.width).join(" ") + "\\n").join("")')
    return text, browser.value('[app.bench.mark.p, app.bench.mark.x, app.bench.mark.y, app.bench.mark.t, app.bench.mark.w].join(" ")')


def same_in_force(tally, browser, command, galley, folder, what):
    """The list in force is accepted natively, with the page's numbers."""
    text, numbers = in_force(browser)
    tally.same(f'{what}: the list in force, marked natively', marked(command, galley, text, folder), numbers)
    return numbers
