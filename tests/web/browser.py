"""The page in a real browser, as people use it: samples, lists, a class, the desk by pointer, touch and keys, paper, a phone. What it says is
compared with the native command. It runs under the system's own Python, which has python3-selenium. The last line is 'N passed, M failed'."""
import os
import pathlib
import sys
import tempfile

ROOT = pathlib.Path(__file__).resolve().parents[2]
sys.path[:0] = [str(ROOT / 'tests'), str(ROOT / 'tests/host'), str(ROOT / 'tests/web')]
import at_desk  # noqa: E402
import wider  # noqa: E402
import driver  # noqa: E402
import given  # noqa: E402
import handed  # noqa: E402
import shown  # noqa: E402
import wild  # noqa: E402
from command import Command  # noqa: E402
from choice import chosen  # noqa: E402
from tally import Tally  # noqa: E402

GROUPS = [('samples and lists against the command', shown.samples), ('a class', shown.school), ('on paper', shown.paper), ('the desk by keys', at_desk.by_keys),
          ('the desk by pointer and touch', at_desk.by_pointer), ('above 64 pages', at_desk.long), ('printed pages', wider.printed),
          ('two ends together', wider.together), ('a book', wider.book), ('the large view', wider.large), ('what is given', given.run), ('a making that is stopped', given.stopped), ('names that look like markup', given.markup), ('nothing leaves the page', given.sealed),
          ('the page that `show` writes', handed.run), ('any galley and any keys', wild.run)]


def main():
    groups, tally = chosen(dict(GROUPS)), Tally()
    command = Command.built(ROOT, pathlib.Path(os.environ.get('BARLEYCHIME_LIB') or ROOT / 'target/staticlib/libbarleychime.a').resolve())
    browser = driver.Browser()
    try:
        with tempfile.TemporaryDirectory() as folder:
            for title, group in groups.items():
                attempt(tally, title, group, browser, command, pathlib.Path(folder))
    finally:
        browser.close()
    return tally.end()


def attempt(tally, title, group, browser, command, folder):
    """A group of checks on a page that is opened anew; what it cannot go on after is one failure."""
    browser.sized(1440, 900)
    browser.open()
    try:
        group(tally, browser, command, folder)
    except Exception as error:  # whatever ends a group, the others run
        tally.same(f'{title}, to its end', f'{type(error).__name__}: {error}', None)
    tally.same(f'{title}: the console has no error', browser.errors(), [])
    tally.group(title)


if __name__ == '__main__':
    sys.exit(main())
