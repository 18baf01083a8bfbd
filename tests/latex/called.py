"""`barleychime tex` as a person calls it: what it says, what it leaves, and what it says of what is wrong."""
import re
import subprocess

import pages

def said(job):
    """The summary, galley by galley, and the PDF's name."""
    told = job.barleychime()
    yield 'tex: exit status and remarks', (told.returncode, told.stderr), (0, '')
    rows = told.stdout.splitlines()
    yield 'tex: its first row', rows[0].split(), ['galley', 'lines', 'figures', 'tables', 'LaTeX', 'list', 'opens', 'with']
    yield 'tex: its last row', bool(re.fullmatch(rf'{job.path.stem}.pdf: \d+ pages, \d+ turns; LaTeX.s own pages have \d+', rows[-1])), True
    before = job.file('.list').read_text()
    told = job.barleychime('--lists-only')
    yield 'lists-only after that: nothing changes', (told.returncode, job.file('.list').read_text()), (0, before)


def shown(job, page_is_built):
    """The page of spreads, where the command was built with it; else it says that it was not."""
    told = job.barleychime('--show')
    page = job.folder / f'{job.path.stem}-1.html'
    due = (0, True) if page_is_built else (2, False)
    yield 'show: exit status, and whether the page is there', (told.returncode, page.exists()), due
    yield 'show: what is said', ('is written' if page_is_built else 'without the page') in told.stderr, True


def printed(job):
    """Pages that are printed stay, and the rest is made."""
    before = {number: ends for number, ends in pages.lists(job.path).items()}
    told = job.barleychime('--after', '3')
    yield 'after 3: exit status and remarks', (told.returncode, told.stderr), (0, '')
    yield 'after 3: the pages up to 3', pages.lists(job.path)[1][:3], before[1][:3]
    yield 'after 3: blocks not on the page of the list', pages.misplaced(job.path)[1], 0
    text = job.path.read_text()
    at = text.rindex('\n\n')
    job.path.write_text(text[:at] + '\n\nA paragraph that came after the first sheet was printed.' + text[at:])
    told = job.barleychime('--after', '3')
    yield 'after 3, with a new paragraph: the pages up to 3', (told.returncode, pages.lists(job.path)[1][:3]), (0, before[1][:3])
    told = job.barleychime('--after', '999')
    yield 'after 999', (told.returncode, 'the PDF had' in told.stderr), (2, True)


def wrong(job):
    source = job.path.read_text()
    job.path.write_text(source.replace(r'\begin{document}', '\\begin{document}\n\\notacommand'))
    told = job.barleychime()
    yield 'an error of TeX', (told.returncode, '! Undefined control sequence.' in told.stderr, r'\notacommand' in told.stderr), (2, True, True)
    job.path.write_text(re.sub(r'\\usepackage\[[^]]*\]{barleychime}', '', source))
    told = job.barleychime()
    yield 'a document without the package', (told.returncode, r'\usepackage{barleychime}' in told.stderr), (2, True)
    unfit = source.replace('fill=80', 'fill=100').replace(r'\begin{document}', r'\setlength\parskip{0pt}\addtolength\textheight{5pt}\begin{document}')
    job.path.write_text(unfit)  # no page of lines alone is full
    told = job.barleychime()
    yield 'no pagination: exit status', told.returncode, 0
    yield 'no pagination: the galley by its first line, and advice', bool(re.search(r'galley 1, "1 ?Part 1 of the work": .*htMin', told.stderr.replace('\n', ' '))), True
    yield 'no pagination: LaTeX makes the pages', pages.shipped(job.path)[1][0].by, 'latex'


def beyond(job):
    """A galley that the engine takes for none, here by its folio: that is said with its first line, and LaTeX makes the pages."""
    job.path.write_text(job.path.read_text().replace(r'\begin{document}', r'\begin{document}\setcounter{page}{10000}'))
    told = job.barleychime()
    said_ = r'galley 1, "1 ?Part 1 of the work": R 3 \d+: .*the value of a field is not allowed.*; LaTeX makes its pages'
    yield 'a refused galley: exit status, and what is said', (told.returncode, bool(re.search(said_, told.stderr.replace('\n', ' ')))), (0, True)
    yield 'a refused galley: LaTeX makes the pages', pages.shipped(job.path)[1][0].by, 'latex'


# every option with a value that is none, and what is due
BAD = {'fill': ('much', 'a number from 0 to 100'), 'lastmin': ('-2', 'a number from -1 to 100'), 'alpha': ('1.5', 'a whole number from 0 to 1000'),
       'beta': ('-1', 'a whole number from 0 to 1000'), 'sides': ('3', 'a whole number from 0 to 2'), 'streams': ('0', 'a whole number from 1 to 2'),
       'forbid': ('10001', 'a whole number from -9999 to 10000'), 'bottom': ('high', 'loose or class'), 'trace': ('maybe', 'true or false')}


def bad_options(job, options):
    """Each has an error of TeX's that says what is due; an option that is none has LaTeX's own."""
    yield 'options with a bad value', set(BAD), set(re.findall(r'option\("(\w+)"', options))
    source = job.path.read_text()
    for name, (value, words) in BAD.items():
        job.path.write_text(source.replace('fill=80,trace=true', f'{name}={value}'))
        told = job.barleychime()
        due = f'option {name}={value}: {words} is due'.replace(' ', '')  # TeX breaks its lines at 79 letters
        yield f'option {name}={value}', (told.returncode, due in ''.join(told.stderr.split())), (2, True)
    job.path.write_text(source.replace('fill=80', 'fil=80'))
    told = job.barleychime()
    yield 'an option that is none', (told.returncode, "Unknown option 'fil" in told.stderr), (2, True)


def weights(job):
    """The turns that are told are alpha X + beta Y."""
    job.path.write_text(job.path.read_text().replace('trace=true', 'alpha=2,beta=3'))
    told = job.barleychime()
    found = [tuple(map(int, numbers)) for numbers in re.findall(r'2\*(\d+) \+ 3\*(\d+) = (\d+)', told.stdout)]
    yield 'weights: both ways told', (told.returncode, len(found)), (0, 2)
    yield 'weights: alpha X + beta Y', [2 * x + 3 * y for x, y, _ in found], [total for _, _, total in found]
    last = re.search(r'(\d+) turns; LaTeX.s own pages have (\d+)', told.stdout)
    yield 'weights: the whole', [int(last[2]), int(last[1])], [total for _, _, total in found]


# Every other run has more words.
CHANGING = (r'\directlua{local f = io.open("turn") local n = f and tonumber(f:read("a")) or 0 if f then f:close() end f = io.open("turn", "w") '
            r'f:write(n + 1) f:close() tex.sprint(string.rep("More words here. ", n - 2 * math.floor(n / 2) == 0 and 60 or 5))}')


def unsettled(job):
    """A document that never settles ends after ten runs, and that is said."""
    job.path.write_text(job.path.read_text().replace(r'\end{document}', CHANGING + '\n\\end{document}'))
    told = job.barleychime()
    yield 'never settled: exit status', told.returncode, 1
    yield 'never settled: said', 'after 10 runs the galleys still change' in told.stderr, True
    yield 'never settled: runs', int((job.folder / 'turn').read_text()), 10


def elsewhere(job, environment):
    """Another folder, and the package that is inside the command, since TeX is not told of another."""
    (job.folder / 'out').mkdir()
    told = job.barleychime('--output-directory', 'out', environment={name: value for name, value in environment.items() if name != 'TEXINPUTS'})
    yield 'another folder: exit status and remarks', (told.returncode, told.stderr), (0, '')
    out = job.folder / 'out' / job.path.name
    yield 'another folder: its files', [out.with_suffix(end).exists() for end in ('.pdf', '.list', '.galley.txt')], [True] * 3
    yield 'another folder: nothing here', [job.file(end).exists() for end in ('.pdf', '.list', '.galley.txt')], [False] * 3
    yield 'another folder: blocks not on the page of the list', pages.misplaced(out)[1], 0


def tutorial(job, text):
    """docs/LATEX.md shows what the command prints for the example."""
    told = job.barleychime()
    shown = re.search(r'^ +galley +lines.*?own pages have \d+$', text, re.M | re.S)[0].splitlines()
    indent = min(len(row) - len(row.lstrip()) for row in shown)
    yield 'docs/LATEX.md: what tex prints', (told.returncode, told.stdout.rstrip().splitlines()), (0, [row[indent:] for row in shown])


def functions(folder):
    """The functions of the package, and how many lines each has."""
    for path in sorted(folder.glob('*.lua')):
        rows = path.read_text().splitlines()
        for at, row in enumerate(rows):
            if (found := re.match(r'( *)(local )?(\w+ = )?function\b', row)) and not row.rstrip().endswith(' end'):
                length = next(k for k, later in enumerate(rows[at:], 1) if re.match(rf'{found[1]}end\b', later))
                yield path.name, row.strip(), length


def short_functions(folder):
    every = list(functions(folder))
    yield 'functions of the package', len(every) > 50, True
    yield 'functions of more than 40 lines', [one for one in every if one[2] > 40], []


def manual(job, folder):
    """The manual is paged by itself."""
    (job.folder / 'examples').mkdir()
    for name in ('latexmkrc', 'Makefile'):
        (job.folder / 'examples' / name).write_text((folder / 'examples' / name).read_text())
    told = job.barleychime()
    yield 'the manual: exit status and remarks', (told.returncode, told.stderr), (0, '')
    right, wrong_ = pages.misplaced(job.path)
    yield 'the manual: blocks on the page of the list, and not', (right > 60, wrong_), (True, 0)
    yield 'the manual: overfull boxes', re.findall(r'Overfull .hbox \([0-9.]+pt', job.log()), []


def with_command(job, environment):
    return {**environment, 'PATH': f'{job.program.parent}:{environment["PATH"]}'}


def by_make(job, environment, rules):
    (job.folder / 'Makefile').write_text(rules.replace('small', job.path.stem))
    done = subprocess.run(['make', '-s'], cwd=job.folder, env=with_command(job, environment), capture_output=True, timeout=180)
    yield 'make: exit status', done.returncode, 0
    right, wrong_ = pages.misplaced(job.path)
    yield 'make: blocks on the page of the list, and not', (right > 100, wrong_), (True, 0)
    before = [job.file(ending).read_text() for ending in ('.aux', '.galley.txt', '.list')]
    job.barleychime('--lists-only')
    job.tex()
    yield 'make: nothing changes any more', [job.file(ending).read_text() for ending in ('.aux', '.galley.txt', '.list')], before


def by_latexmk(job, environment, rules):
    """With the rule that the manual shows."""
    (job.folder / '.latexmkrc').write_text(rules)
    done = subprocess.run(['latexmk', '-silent', job.path.name], cwd=job.folder, capture_output=True, timeout=180,
                          env=with_command(job, environment))
    yield 'latexmk: exit status', (done.returncode, done.returncode and done.stderr[-300:]), (0, 0)
    right, wrong_ = pages.misplaced(job.path)
    yield 'latexmk: blocks on the page of the list, and not', (right > 100, wrong_), (True, 0)
