"""What the documents have people copy: the programs in C, Rust, Python and JavaScript, the series on all cores; and what they leave.
documents.py runs their commands."""

import os
import re
import shutil
import subprocess
import sys

import engine
from c_interface import SANITIZED, WAYS, built
from reference import cases
from reference.galley import write


def blocks(document, language):
    return re.findall(rf'^```{language}\n(.*?)^```$', document, re.M | re.S)


def run(tally, command, root, library, folder):
    galley = folder / 'example.galley'
    galley.write_bytes(write(cases.A))
    found = {'c': 0, 'rust': 0, 'python': 0, 'js': 0, 'sh': 0}
    for path in [root / 'README.md', *sorted((root / 'docs').glob('*.md'))]:
        document = path.read_text()
        for language, example in (('c', in_c), ('rust', in_rust), ('python', in_python), ('js', in_javascript), ('sh', series)):
            for source in blocks(document, language):
                found[language] += 1
                example(tally, f'{path.name}, {language}', source, command, root, library, folder, galley)
    ignored(tally, root)
    tally.same('examples found', {language: count > 0 for language, count in found.items()}, dict.fromkeys(found, True))
    tally.group('examples')


def in_c(tally, what, source, _command, root, library, folder, galley):
    """Without a warning as C and as C++, with the right answers, and under the sanitizers without a leak."""
    file, program = folder / 'example.c', folder / 'example'
    file.write_text(source)
    for name, way, options in [*((way, way, ()) for way in WAYS), ('sanitized', 'C11', SANITIZED)]:
        tally.same(f'{what}, {name}: built', built(way, root, file, library, program, options), [(0, '')] * 2)
        for given, data, due in (('case A', galley.read_bytes(), (0, '1 1\n3 1\n', '')),
                                 ('a table', write(cases.K), (0, '2 1 0\n3 1 1\n', '')), ('no bytes', b'', (1, 'R 1 0\n', '')),
                                 ('no pagination', write(cases.A_TALL), (1, 'R 11 0\n', 'no pagination meets the page specification\n'))):
            ran = subprocess.run([program], input=data, capture_output=True)
            tally.same(f'{what}, {name}: {given}', (ran.returncode, ran.stdout.decode(), ran.stderr.decode()), due)


def in_python(tally, what, source, _command, root, library, folder, galley):
    file, shared = folder / 'example.py', engine.shared(library, folder / 'libbarleychime.so')
    file.write_text(source)
    stops = "R 1 0: the galley stops short, inside a record or without its `ED`; the galley's writer can mend it\n"
    for given, data, due in ((galley, write(cases.A), '1 turns, ((1, 1), (3, 1)), True\n'), (folder / 'none.galley', b'', stops)):
        given.write_bytes(data)
        ran = subprocess.run([sys.executable, file, given], capture_output=True, text=True,
                             env={**os.environ, 'PYTHONPATH': str(root / 'python'), 'BARLEYCHIME_SHARED': str(shared)})
        tally.same(f'{what}: {given.name}', (ran.returncode, ran.stdout, ran.stderr), (0, due, ''))


def in_javascript(tally, what, source, _command, root, _library, _folder, galley):
    """As a module in the project's folder, where web/build has been."""
    if not (shutil.which('node') and (root / 'target/web/engine.wasm').is_file()):
        print(f'{what}: did not run, since there is no node or web/build was not run')
        tally.same(f'{what}: node is here, as the gate asks', os.environ.get('CI') != 'true', True)
        return
    for given, due in ((galley.read_bytes(), '1 turns, [1,1,3,1], true\n'), (b'', 'R 1 0: StopsShort\n')):
        ran = subprocess.run(['node', '--input-type=module', '--eval', source], cwd=root, input=given, capture_output=True)
        tally.same(f'{what}: {len(given)} bytes', (ran.returncode, ran.stdout.decode(), ran.stderr.decode()), (0, due, ''))


def in_rust(tally, what, source, _command, root, library, folder, galley):
    file, program, release = folder / 'example.rs', folder / 'example', root / 'host/library/target/release'
    file.write_text(source)
    subprocess.run(['cargo', 'build', '--release', '--offline', '--quiet'], cwd=root / 'host/library', check=True,
                   env={**os.environ, 'BARLEYCHIME_LIB': str(library)})
    built = subprocess.run(['rustc', '--edition', '2021', '-D', 'warnings', '--extern',
                            f'barleychime={release / "libbarleychime.rlib"}', file, '-o', program],
                           capture_output=True, text=True)
    tally.same(f'{what}: built', (built.returncode, built.stderr), (0, ''))
    ran = subprocess.run([program, galley], capture_output=True, text=True)
    tally.same(f'{what}: case A', (ran.returncode, ran.stdout), (0, '1 turns, [1, 1, 3, 1], true\n'))


def series(tally, what, source, command, root, _library, folder, _galley):
    """The command line on a copy of the real chapters, with a name that a careless one would split."""
    shutil.rmtree(folder / 'series', ignore_errors=True)
    shutil.copytree(root / 'samples/real', folder / 'series')
    (folder / 'series/gretl-p046.galley').rename(folder / 'series/two words.galley')
    path = f'{command.program.parent}{os.pathsep}{os.environ["PATH"]}'
    ran = subprocess.run(source, shell=True, cwd=folder, capture_output=True, env={**os.environ, 'PATH': path})
    tally.same(f'{what}: status', ran.returncode, 123)
    for galley in sorted((folder / 'series').glob('*.galley')):
        made = galley.with_suffix('.list')
        tally.same(f'{what}: {made.name}', made.is_file() and made.read_text(), command.text('make', galley)[1])


def ignored(tally, root):
    """What the commands of README.md, docs/COMMAND.md and docs/EMBEDDING.md write is not offered to git."""
    documents = ''.join((root / name).read_text() for name in ('README.md', 'docs/COMMAND.md', 'docs/EMBEDDING.md'))
    plain = re.sub(r'^```.*?^```$', '', documents, flags=re.M | re.S)
    commands = re.findall(r'^ {4}(.*)$', plain, re.M)
    written = {name for line in commands for name in re.findall(r'(?:> |-o )(\S+)', line)}
    tally.same('files that are written', written, {'a.galley', 'close.galley', 'one.galley', 'pages', 'two.galley'})
    for name in sorted(written | {'pages.c', 'series/chapter.list', 'lists/chapter.list', 'samples/real/gretl-p441.html', 'target/log', 'host/library/target/release', 'host/command/target/release'}):
        asked = subprocess.run(['git', 'check-ignore', '--quiet', name], cwd=root, capture_output=True)
        if asked.returncode != 128:  # a copy without git has nothing to ignore
            tally.same(f'{name} is ignored by git', asked.returncode, 0)
