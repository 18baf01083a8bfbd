"""Every command that README.md and docs show is run as it stands there, and what it prints is compared with what is stated.

A command line is run here beside the samples; the block that follows it is its output. What another part runs is in ELSEWHERE, and
what no test can run in NEVER, with the reason. A line that is none of these fails, and so does an entry that no document has any more.
The programs in C, Rust, Python, JavaScript and sh are run by examples.py, the JSON by for_programs.py, docs/COURSE.md by course.py. A
fault of each kind is planted first, so that the test is known to find it.
"""

import os
import re
import subprocess
import textwrap
from typing import NamedTuple

from course import Place, can_run, none, shown
from options import names_of

PROGRAMS = {'c', 'rust', 'python', 'js', 'sh'}  # of examples.py
COURSE = 'docs/COURSE.md'
IN_SERIES = ('case-a', 'case-c', 'kept', 'left-hand', 'tables')  # samples that make the real chapters the manual's series

ELSEWHERE = {  # the first line of what another part runs, and the part
    'make && host/command/target/release/barleychime make samples/real/gretl-p441.galley': 'tests/run',
    'make test': 'tests/run',
    'cd latex/examples && barleychime tex small': 'tests/latex/called.py',
    'barleychime tex DOCUMENT': 'tests/latex/called.py',
    r'\usepackage[fill=90]{barleychime}': 'tests/latex/run.py',
    'barleychime tex small': 'tests/latex/called.py',
    'galley  lines figures tables  LaTeX         list          opens with': 'tests/latex/called.py',
    "small.pdf: 13 pages, 7 turns; LaTeX's own pages have 12": 'tests/latex/called.py',
    "barleychime forecast --lines series/*.galley | grep -v '^R' | sort -k3,3nr": 'tests/host/forecast.py',
    'barleychime desk close.galley samples/lists/close-turn-too-long.list': 'tests/host/desk.py',
    'barleychime desk close.galley samples/lists/close-turn-too-long.list < samples/close.calls': 'tests/host/desk.py',
    'for galley in term/*.galley; do': 'tests/host/report.py',
    'cc pages.c $(pkg-config --cflags --libs barleychime) -o pages': 'tests/package/tarball.py',
    'cc -I include pages.c target/staticlib/libbarleychime.a -o pages': 'tests/host/examples.py',
    'sha256sum --quiet -c SHA256SUMS': 'tests/package/tarball.py',
    'bin/barleychime make share/barleychime/samples/real/gretl-p441.galley': 'tests/package/tarball.py',
    'PKG_CONFIG_PATH=$PWD/lib/pkgconfig pkg-config --cflags --libs barleychime': 'tests/package/tarball.py',
    'pip install share/barleychime/barleychime-*.whl': 'tests/package/tarball.py',
    'rt fmt                         the layout that the gate asks for': 'tests/layout',
}
NEVER = {  # the first line of what is not run, and why
    'parallel --sshlogin 4/one,4/two --transferfile {} --return {.}.list --cleanup --joblog series.log \\': 'two machines and ssh',
    '#!/bin/sh': 'Slurm',
    'rt check                       the crate, over what earlier checks kept in out/': 'a crate that somebody works on',
    'rt check --allow-holes         the same past open goals, printing each': 'a crate that somebody works on',
    'rt check --only PATH           one function, and the laws that its proof cites': 'a crate that somebody works on',
    'rt ci NAME                     the verdict for the crate, its edits and what it stands on, from nothing; it is kept for the gate': 'a crate that somebody works on',
    'tsc --noEmit --allowJs --checkJs --target es2022 --module es2022 --moduleResolution node --lib es2022,dom,dom.iterable web/main.js':
        "Debian's node-typescript, which nothing else needs",
    'tools/archive barleychime && bench/run': 'a measurement, on an idle machine',
    'bench/run 5 chapters': 'a measurement, on an idle machine',
    'python3 bench/solver/solve.py --seconds 1500 samples/real/gretl-p046.galley': "a solver of Debian's, which nothing else needs",
    'web/build && make && /usr/bin/python3 tests/web/times.py': 'a measurement, on an idle machine',
}
QUOTED = {  # the first line of what is quoted and no command, and the file that has it
    'pub loop-k-init : goal.loop-k-init': 'crates/course/proofs/make_chapters/Answers.antt',
}
DRAWN = re.compile(r'^.* ──► ', re.M)  # a drawing and no command
PACKED = re.compile(r'^ *(\d+)  ((?:[0-9a-f]{2} ?)+) +(\w+)(?:,.*| (\d+))$')  # offset, bytes, mark or field, number
STATUS = {  # what a command ends with, if not with 0
    'barleychime make --out series samples/real/*.galley': 1,
    'barleychime report --why samples/course/chapter.galley samples/course/lists/chapter-*.list': 2,
    'barleychime explain samples/course/chapter.galley samples/course/lists/chapter-too-low.list': 1,
    'barleychime mark a.galley samples/lists/a-*.list': 1,
    'barleychime make --out lists series/*.galley': 1,
}


class Block(NamedTuple):
    language: str | None  # None if it is indented
    text: str


class Call(NamedTuple):
    line: str
    due: str | None  # None if no output is stated
    errors: int = subprocess.DEVNULL  # an indented block has the answers alone, a console all that a terminal shows


def blocks(document):
    """The fenced and the indented blocks in their order, without the indent."""
    parts = re.split(r'^```(\w*)\n(.*?)^```$', document, flags=re.M | re.S)
    for plain, language, fenced in zip(parts[::3], [*parts[1::3], ''], [*parts[2::3], '']):
        for indented in re.findall(r'(?<=\n\n)(?: {4,}\S.*\n)+', plain):
            yield Block(None, textwrap.dedent(indented))
        if fenced:
            yield Block(language, fenced)


def statements(text):
    """The lines of a block, each with those that belong to it: the deeper ones and `done`. A script is one, and so is what is quoted."""
    return [text] if text.startswith('#!') or text.splitlines()[0] in QUOTED else with_deeper(text)


def with_deeper(text):
    return re.findall(r'^\S.*\n(?:(?: .*|done.*)\n)*', text, re.M)


class Document:
    """What a document shows: the calls that are run here, the entries that it meets, and its faults."""

    def __init__(self, name, text):
        self.name, self.calls, self.met, self.faults = name, [], set(), []
        self.open = False  # whether the last call may still get its output
        for block in blocks(text):
            self.take(block)

    def take(self, block):
        language, text = block
        if language in PROGRAMS or DRAWN.search(text) or PACKED.match(text.splitlines()[0]):
            self.open = False
        elif language == 'console':
            self.calls += [Call(*call, subprocess.STDOUT) for call in shown(f'```console\n{text}```\n')] if self.name != COURSE else []
            self.open = False
        elif language == 'json':
            if self.open and '--json' in self.calls[-1].line:
                self.calls.pop()
                self.open = False
            else:
                self.fault(text, 'JSON without a call that prints it')
        elif any(self.known(statement) for statement in statements(text)):
            for statement in statements(text):
                self.command(statement)
        elif self.open:
            self.calls[-1] = self.calls[-1]._replace(due=text)
            self.open = False
        else:
            self.fault(text, 'neither a command nor the output of the one before it')

    def known(self, statement):
        first = statement.splitlines()[0]
        return first.startswith('barleychime ') or any(first in entries for entries in (ELSEWHERE, NEVER, QUOTED))

    def command(self, statement):
        first, runs = statement.splitlines()[0], statement.startswith('barleychime ')
        listed = any(first in entries for entries in (ELSEWHERE, NEVER, QUOTED))
        if listed:
            self.met.add(first)
        elif runs:
            self.calls.append(Call(statement.rstrip('\n'), None))
        else:
            self.fault(statement, 'nothing runs it')
        self.open = runs and not listed

    def fault(self, text, what):
        self.faults.append((f'{self.name}: {text.splitlines()[0]}', what, 'run in tests/host/documents.py, or in one of its lists'))


def unlike(calls, place):
    """Commands that print something else than is stated, or end otherwise."""
    for line, due, errors in calls:
        status, printed = place.ran(line, errors)
        if status != STATUS.get(line, 0):
            yield f'{line}: status', status, STATUS.get(line, 0)
        if due is not None and printed != due:
            yield line, printed, due


def untold(command, manual):
    """Commands that the manual gives no example of, and options that it does not name."""
    examples = ''.join(block.text for block in blocks(manual) if block.language is None)
    for name in names_of(command):
        if name not in ('completions', 'man') and f'barleychime {name} ' not in examples:
            yield f'docs/COMMAND.md: {name}', 'no example', 'an example'
        for option in re.findall(r'^ +(?:-\w, )?(--[a-z-]+)', command.text(name, '--help')[1], re.M):
            if option != '--help' and not re.search(rf'{option}(?![\w-])', manual):
                yield f'docs/COMMAND.md: {name} {option}', 'not named', 'named'


def unlike_packed(document, data):
    """Rows of the worked bytes that are not what `pack` writes, or not in the order of the table of records."""
    [listing] = [block.text for block in blocks(document) if PACKED.match(block.text.splitlines()[0])]
    fields = {mark: names.split() for mark, names in re.findall(r'^\| `([A-Z][A-Z\d])((?: \w+)*)` \|', document, re.M)}
    at, due = 0, []
    for row in listing.splitlines():
        offset, said, name, number = PACKED.fullmatch(row).groups()
        given = bytes.fromhex(said)
        if number is None:
            right = not due and given.decode() == name
            due = list(fields[name])
        else:
            right = due[:1] == [name] and int.from_bytes(given, 'big') == int(number)
            due = due[1:]
        if not right or (int(offset), given) != (at, data[at:at + len(given)]):
            yield f'docs/FORMAT.md: {row}', 'stated', f'{data[at:at + len(given)].hex(" ")} at {at}'
        at += len(given)
    if at != len(data):
        yield 'docs/FORMAT.md: bytes of case A', at, len(data)


def unlike_quoted(pages, root):
    """What is quoted and does not stand in the file that is named for it, apart from the ends of lines."""
    for text in pages.values():
        for block in blocks(text):
            file = QUOTED.get(block.text.splitlines()[0])
            there = ' '.join((root / file).read_text().split()) if file else ''
            for line in with_deeper(block.text) if file else []:
                if ' '.join(line.split()) not in there:
                    yield line, 'quoted', f'as {file} has it'


def sizes(tally, command, root, document):
    """What docs/EMBEDDING.md says of the library and the module, in tens of kilobytes, and of the real chapters' work area."""
    for what, file in ((r'some (\d+) KB for x86-64 Linux', 'target/staticlib/libbarleychime.a'),
                       (r'engine\.wasm`, some (\d+) KB', 'target/web/engine.wasm')):
        [said] = re.findall(what, document)
        if (root / file).is_file():
            tally.same(f'docs/EMBEDDING.md: the size of {file}', int(said), round((root / file).stat().st_size / 1000, -1))
        else:
            print(f'docs/EMBEDDING.md: the size of {file}: did not run, since it is not built')
            tally.same(f'{file} is built, as the gate asks', os.environ.get('CI') != 'true', True)
    [said] = re.findall(r'real chapters among the samples take up to (\d+) MB', document)
    told = command.text('forecast', '--lines', *(root / 'samples/real').glob('*.galley'))[1]
    tally.same("docs/EMBEDDING.md: the real chapters' memory", int(said), round(max(int(line.split()[0]) for line in told.splitlines()) * 4 / 1e6))


def beside(command, root, folder):
    """A folder with what the documents take for granted: the samples, a series, the second chapter's list, and what opens a browser."""
    place = Place(command, folder, root / 'samples')
    place.environment['PATH'] = f'{folder}{os.pathsep}{place.environment["PATH"]}'
    (folder / 'xdg-open').write_text('#!/bin/sh\ntest -s "$1"\n')
    (folder / 'xdg-open').chmod(0o755)
    (folder / 'series').mkdir()
    for galley in (root / 'samples/real').glob('*.galley'):
        (folder / 'series' / galley.name).write_bytes(galley.read_bytes())
    for name in IN_SERIES:
        (folder / f'series/{name}.galley').write_bytes(command.run('pack', root / f'samples/{name}.txt')[1])
    (folder / 'two.list').write_text('1 0\n2 0\n2 1\n')  # as the manual shows it in its book
    return place


def planted(tally, command, place, pages, data, root):
    """A fault of each kind is found."""
    manual, quoting = pages['docs/FORMAT.md'], pages['docs/CONTRIBUTING.md']
    faults = {
        'a command that nothing runs': Document('X.md', 'Say\n\n    cc new.c -o new\n').faults,
        'a command among others that nothing runs': Document('X.md', 'Say\n\n    barleychime fold 8\n    cc new.c\n').faults,
        'an output without its command': Document('X.md', 'Say\n\n    barleychime fold 8\n\nsays\n\n    8 1 2 7\n\nand\n\n    6 3 4 5\n').faults,
        'JSON without its call': Document('X.md', '    barleychime fold 8\n\n```json\n{}\n```\n').faults,
        'an output that is another': unlike(Document('X.md', 'Say\n\n    barleychime fold 4\n\nsays\n\n    4 1 3 2\n').calls, place),
        'a fenced output that is another': unlike(Document('X.md', '```text\nbarleychime fold 4\n```\n\n```text\n4 1 3 2\n```\n').calls, place),
        'a status that is another': unlike([Call('barleychime fold 5 2> /dev/null', None)], place),
        'a command without an example': untold(command, pages['docs/COMMAND.md'].replace('barleychime unpack ', 'unpack ')),
        'an option that is not named': untold(command, pages['docs/COMMAND.md'].replace('--verbose', '')),
        'a byte that is another': unlike_packed(manual.replace('00 00 00 14  height 20', '00 00 00 15  height 21'), data),
        'a number that is not its bytes': unlike_packed(manual.replace('height 20', 'height 21'), data),
        'a field that is another': unlike_packed(manual.replace('14  height', '14  least'), data),
        'a quotation that is another': unlike_quoted({'X.md': quoting.replace('(course_first c.', '(course_first d.')}, root),
        'a byte less': unlike_packed(manual.replace(' 102  45 44        ED, the end\n', ''), data),
    }
    for what, found in faults.items():
        tally.same(f'planted: {what} is found', len(list(found)), 1)


def run(tally, command, root, folder):
    here = folder / 'documents'
    here.mkdir()
    # PORT.md and DESIGN-PASS.md have statements, and no commands of the project.
    documents = [root / 'README.md', *sorted(path for path in (root / 'docs').glob('*.md') if path.name not in ('DESIGN-PASS.md', 'PORT.md'))]
    pages = {str(path.relative_to(root)): path.read_text() for path in documents}
    packed = command.run('pack', root / 'samples/case-a.txt')[1]
    planted(tally, command, beside(command, root, here / 'planted'), pages, packed, root)
    met = set()
    for name, text in pages.items():
        document = Document(name, text)
        none(tally, document.faults, len(document.met))
        place = beside(command, root, here / name.replace('/', '-'))
        calls = [call for call in document.calls if can_run(call.line, place)]
        none(tally, unlike(calls, place), len(calls))
        met |= document.met
    tally.same('entries that no document has', sorted({*ELSEWHERE, *NEVER, *QUOTED} - met), [])
    tally.same('parts that run the others', [part for part in ELSEWHERE.values() if not (root / part).exists()], [])
    none(tally, unlike_packed(pages['docs/FORMAT.md'], packed), packed.count(b'\0'))
    none(tally, unlike_quoted(pages, root), len(QUOTED))
    none(tally, untold(command, pages['docs/COMMAND.md']), len(names_of(command)))
    sizes(tally, command, root, pages['docs/EMBEDDING.md'])
    late = bytearray(packed)
    late[101] = 4
    told = command.text('make', '-', given=bytes(late))[1]
    tally.same('the refusal of docs/FORMAT.md', (told, f'`{told.strip()}`' in pages['docs/FORMAT.md']), ('R 6 84\n', True))
    tally.group('documents')
