"""The LaTeX package: documents are set without it, with it, and by lists, and the PDFs are looked into. Where TeX cannot be had the part
does not run, which with CI=true is a failure."""
import concurrent.futures
import functools
import os
import pathlib
import re
import shutil
import subprocess
import sys
import tempfile

ROOT = pathlib.Path(__file__).resolve().parents[2]
sys.path[:0] = [str(ROOT / part) for part in ('tests/latex', 'tests', 'tests/host', 'samples/real')]

import books  # noqa: E402
import called  # noqa: E402
import documents  # noqa: E402
import followed  # noqa: E402
import galleys  # noqa: E402
import pages  # noqa: E402
import sources as real_documents  # noqa: E402
import tally  # noqa: E402
import whole  # noqa: E402
from choice import chosen  # noqa: E402
from command import Command  # noqa: E402

NEEDED = ('lualatex', 'kpsewhich', 'latexmk', 'mpost', 'pdftotext', 'pdftoppm')
PAGE = pathlib.Path(os.environ.get('BARLEYCHIME_PAGE') or ROOT / 'target/web/barleychime.html')
ENVIRONMENT = {**os.environ, 'TEXINPUTS': f'.:{ROOT / "latex"}:'}


def at_hand():
    if not all(map(shutil.which, NEEDED)):
        subprocess.run([ROOT / 'packages/install', 'latex'], check=False)
    return all(map(shutil.which, NEEDED))


class Job:
    """A document in a folder of its own."""
    program = None  # the command

    def __init__(self, folder, name, source):
        self.folder = folder / name
        self.folder.mkdir(parents=True)
        self.path = self.folder / f'{name}.tex'
        self.path.write_text(source)

    def file(self, ending):
        return self.path.with_suffix(ending)

    def tex(self, times=1, **more):
        for _ in range(times):
            done = subprocess.run(['lualatex', '-interaction=nonstopmode', self.path.name], cwd=self.folder, env=ENVIRONMENT,
                                  stdin=subprocess.DEVNULL, stdout=subprocess.PIPE, timeout=120, **more)
        return done

    def barleychime(self, *arguments, environment=ENVIRONMENT):
        return subprocess.run([self.program, 'tex', *arguments, self.path.name], cwd=self.folder, env=environment,
                              stdin=subprocess.DEVNULL, capture_output=True, text=True, timeout=300)

    def log(self):
        """TeX breaks its lines at 79 letters."""
        log = self.file('.log').read_text(errors='replace')
        return re.sub(r'\n\(barleychime\)\s*', ' ', log).replace('\n', '')

    def warnings(self):
        return re.findall(r'Module barleychime Warning: (.*?) on input line', self.log())


def without_package(source):
    return re.sub(r'\\usepackage\[[^]]*\]{barleychime}', r'\\let\\KeepWithNextFloat\\relax ', source)


def pictures(pdf):
    with tempfile.TemporaryDirectory() as folder:
        subprocess.run(['pdftoppm', '-r', '40', pdf, f'{folder}/page'], check=True)
        return [page.read_bytes() for page in sorted(pathlib.Path(folder).iterdir())]


def set_both_ways(folder, name, source):
    """The same document by plain LaTeX, by the package without a list, and by lists: what is to be the same, pair by pair."""
    plain, own, made = (Job(folder / way, name, source) for way in ('plain', 'own', 'made'))
    plain.path.write_text(without_package(source))
    ends = [job.tex(2).returncode for job in (plain, own)]
    yield f'{name}: LuaLaTeX ends well', ends, [0, 0]
    yield f'{name}: text without a list', pages.texts(own.file('.pdf')), pages.texts(plain.file('.pdf'))
    if name == 'article':
        yield f'{name}: pictures without a list', pictures(own.file('.pdf')) == pictures(plain.file('.pdf')), True
    told = made.barleychime()
    yield f'{name}: the command ends well', (told.returncode, told.stderr), (0, '')
    if told.returncode:
        return
    right, wrong = pages.misplaced(made.path)
    yield f'{name}: blocks not on the page of the list', wrong, 0
    yield f'{name}: some pages are by a list', right > 40, name not in ('wrapfig', 'afterpage')
    found, missing = pages.unlike(made.path)
    yield f'{name}: not on its page of the PDF', missing, []
    yield f'{name}: texts found in the PDF', found > 40, right > 40
    wanted = [documents.WARNED[name]] if name in documents.WARNED else []
    got = [warning for warning in made.warnings() if not any(warning.startswith(due) for due in wanted)]
    yield f'{name}: warnings', (got, bool(made.warnings())), ([], bool(wanted))
    yield f'{name}: turns', turns(told.stdout), 'no more than LaTeX has'
    yield from galleys.check(name, made)


def turns(stdout):
    now, own = map(int, re.search(r'(\d+) turns; LaTeX.s own pages have (\d+)', stdout).groups())
    return 'no more than LaTeX has' if now <= own else f'{now}, LaTeX has {own}'


def lists_tried(folder):
    """Lists of one document: others than the best, spoilt ones, and one of other text."""
    source = documents.ALL['article']
    job, plain = Job(folder / 'tried', 'article', source), Job(folder / 'tried-plain', 'article', without_package(source))
    plain.tex(2)
    yield from ((f'tex: {what}', got, due) for what, got, due in [('ends well', job.barleychime().returncode, 0)])
    yield from followed.heights(job, notes=1)
    yield from followed.other_lists(job, least=12)
    yield from followed.spoilt_lists(job, pages.texts(plain.file('.pdf')))
    yield from followed.changed_document(job, plain)


def more_lists_tried(folder):
    """Lists of a document of several galleys, and faults that are planted."""
    job = Job(folder / 'tried', 'report', documents.ALL['report'])
    yield 'report: tex ends well', job.barleychime().returncode, 0
    yield from followed.other_lists(job, least=30)
    yield from followed.faults(Job(folder / 'faults', 'article', documents.ALL['article']))


def several_galleys(folder):
    yield from books.beats_one_by_one(Job(folder / 'sides', 'report', documents.appendix_on_one_side()))
    yield from books.ended_at_barrier(Job(folder / 'barrier', 'article', documents.passed_barrier()))
    yield from books.kept_as_printed(Job(folder / 'printed', 'report', documents.ALL['report'].replace(r'\tableofcontents', '')))


def calls(folder):
    source = documents.ALL['article']
    job = Job(folder / 'called', 'article', source)
    yield from called.said(job)
    yield from called.shown(job, PAGE.exists())
    yield from called.printed(job)
    yield from called.wrong(Job(folder / 'wrong', 'article', source))
    yield from called.weights(Job(folder / 'weights', 'article', source))
    yield from called.beyond(Job(folder / 'beyond', 'article', source))


def bad_calls(folder):
    source = documents.ALL['article']
    yield from called.bad_options(Job(folder / 'options', 'article', source), (ROOT / 'latex/barleychime-options.lua').read_text())
    yield from called.unsettled(Job(folder / 'unsettled', 'article', source))
    yield from called.short_functions(ROOT / 'latex')


def other_ways(folder):
    source = documents.ALL['article']
    yield from called.elsewhere(Job(folder / 'elsewhere', 'article', source), ENVIRONMENT)
    latex = ROOT / 'latex'
    yield from called.tutorial(Job(folder / 'tutorial', 'small', (latex / 'examples/small.tex').read_text()), (ROOT / 'docs/LATEX.md').read_text())
    yield from called.manual(Job(folder / 'manual', 'manual', (latex / 'manual.tex').read_text()), latex)
    rules = {name: (ROOT / 'latex/examples' / name).read_text() for name in ('Makefile', 'latexmkrc')}
    yield from called.by_make(Job(folder / 'make', 'article', source), ENVIRONMENT, rules['Makefile'])
    yield from called.by_latexmk(Job(folder / 'latexmk', 'article', source), ENVIRONMENT, rules['latexmkrc'])


def real(folder, name):
    """A document whose source Debian ships."""
    plain = prepare_real(folder / 'real-plain', name, package='')
    made = prepare_real(folder / 'real', name)
    plain.tex()
    made.tex()
    yield f'{name}: text without a list', pages.texts(made.file('.pdf')) == pages.texts(plain.file('.pdf')), True
    told = made.barleychime()
    yield f'{name}: the command ends well', told.returncode, 0
    print(told.stdout, end='')
    right, wrong = pages.misplaced(made.path)
    yield f'{name}: blocks on the page of the list, and not', (right > 300, wrong), (True, 0)
    found, missing = pages.unlike(made.path)
    yield f'{name}: texts on their page of the PDF, and not', (found > 300, missing), (True, [])
    yield f'{name}: turns', turns(told.stdout), 'no more than LaTeX has'
    yield f'{name}: pages higher than the model says', [page for page in pages.heights(made.path) if page[0] > page[2] + 0.2], []
    yield from same_chapters(made)


def whole_table(folder):
    """The programme as a person calls it, for its shortest document: its rows of WHOLE.md and TABLE.md, and its chapters."""
    chapters, real_folder = folder / 'chapters', ROOT / 'samples/real'
    chapters.mkdir()
    done = subprocess.run([sys.executable, real_folder / 'whole.py', Job.program, '--chapters', chapters, 'mpboxes'], capture_output=True, text=True)
    text = [row for name in ('WHOLE.md', 'TABLE.md') for row in (real_folder / name).read_text().splitlines()]
    yield 'whole.py: the rows of mpboxes', (done.returncode, done.stdout.splitlines()), (0, [row for row in text if row.startswith('| mpboxes')])
    files = {path.name: path.read_bytes() for path in chapters.iterdir()}
    yield 'whole.py: the chapters of mpboxes', files == {path.name: path.read_bytes() for path in real_folder.glob('mpboxes-*')}, True


def same_chapters(job):
    """The chapters of samples/real, older recordings apart, are those that the document has, with LaTeX's own pages."""
    numbered = (ROOT / 'samples/real').glob(f'{job.path.stem}-[0-9]*.galley')
    there = {path.stem: (path.read_bytes(), path.with_suffix('.latex').read_text()) for path in numbered}
    made = {name: (galley, latex) for name, galley, latex in whole.chapters(Job.program, job.path)}
    yield f'{job.path.stem}: its chapters', sorted(made), sorted(there)
    yield f'{job.path.stem}: chapters that are others than in samples/real', [name for name in made if made[name] != there.get(name)], []


def prepare_real(folder, name, **more):
    job = Job(folder, name, '')
    real_documents.prepare(name, job.folder, **more)
    return job


def checks(task):
    """What a task found; an exception is a failure of the task, not of all."""
    try:
        return list(task())
    except Exception as error:  # noqa: BLE001
        return [(f'{task}'[:100], f'{type(error).__name__}: {error}', 'no exception')]


def tasks(folder):
    """By name, the longest first."""
    every = {f'real {name}': functools.partial(real, folder, name) for name in ('mpman', 'mpgraph')}
    groups = {'lists': lists_tried, 'more': more_lists_tried, 'books': several_galleys, 'calls': calls, 'bad': bad_calls, 'table': whole_table, 'ways': other_ways}
    every.update({name: functools.partial(group, folder) for name, group in groups.items()})
    every.update({name: functools.partial(set_both_ways, folder, name, source) for name, source in documents.ALL.items()})
    return every


def main():
    asked, told = chosen(tasks(pathlib.Path())), tally.Tally()
    if not at_hand():
        print('TeX and what reads a PDF are not here and cannot be installed: the LaTeX package was not tested')
        missing = os.environ.get('CI') == 'true'
        print(f'0 passed, {int(missing)} failed')
        return int(missing)
    library = pathlib.Path(os.environ.get('BARLEYCHIME_LIB') or ROOT / 'target/staticlib/libbarleychime.a').resolve()
    Job.program = Command.built(ROOT, library).program
    with tempfile.TemporaryDirectory() as folder, concurrent.futures.ThreadPoolExecutor(os.cpu_count()) as pool:
        for found in pool.map(checks, chosen(tasks(pathlib.Path(folder)), list(asked)).values()):
            for what, got, due in found:
                told.same(what, got, due)
    told.group('documents set without the package, with it and by lists')
    return told.end()


if __name__ == '__main__':
    sys.exit(main())
