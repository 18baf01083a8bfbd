"""How the package is installed, without a network; that its types hold; and what it says where its library is not there."""
import os
import shutil
import subprocess
import sys

from engine import ROOT

PROGRAM = 'import barleychime; print(barleychime.__version__, barleychime.fold(4))'


def python(folder, path, program, **variables):
    """What a program printed, and the last line that it complained with, run where the project's own tree is not looked at."""
    environment = {name: value for name, value in os.environ.items() if name != 'BARLEYCHIME_SHARED'}
    ran = subprocess.run([sys.executable, '-c', program], cwd=folder, env={**environment, 'PYTHONPATH': str(path), **variables},
                         capture_output=True, text=True)
    return ran.stdout, ran.stderr.splitlines()[-1:]


def pip(tally, folder):
    """`pip install ./python` with no registry at hand, from a copy of the project with the library that `make` builds."""
    project, shared = folder / 'project', folder / 'project/target/shared'
    shutil.copytree(ROOT / 'python', project / 'python', ignore=shutil.ignore_patterns('__pycache__'))
    for what in ('without the library', 'with the library'):
        target = folder / what.split()[0]
        ran = subprocess.run([sys.executable, '-m', 'pip', 'install', '--quiet', '--no-index', '--target', target, './python'], cwd=project,
                             capture_output=True, text=True)
        tally.same(f'pip install ./python {what}', (ran.returncode, 'ERROR' in ran.stderr), (0, False))
        shared.mkdir(parents=True, exist_ok=True)
        shutil.copy(os.environ['BARLEYCHIME_SHARED'], shared / 'libbarleychime.so')
    due = ('0.2.0 ((4, 1, 2, 3),)\n', [])
    tally.same('installed with the library', python(folder, folder / 'with', PROGRAM), due)
    named = {'BARLEYCHIME_SHARED': str(shared / 'libbarleychime.so')}
    tally.same('installed without, and one is named', python(folder, folder / 'without', PROGRAM, **named), due)
    tally.same('in its own tree', python(folder, project / 'python', PROGRAM), due)
    tally.same('types are told', (folder / 'with/barleychime/py.typed').is_file(), True)


def missing(tally, folder):
    """The library that is named and no other is loaded, and a library that is none or is older is not called."""
    alone, unfit = folder / 'without', 'which BARLEYCHIME_SHARED names, cannot be loaded'
    for what, variables, words in (
            ('a file that is not there', {'BARLEYCHIME_SHARED': str(folder / 'none.so')}, unfit),
            ('a file that is no library', {'BARLEYCHIME_SHARED': str(ROOT / 'README.md')}, unfit),
            ('another library', {'BARLEYCHIME_SHARED': 'libm.so.6'}, 'libm.so.6 is older than version 0.2.0'),
            ('none', {'PKG_CONFIG_LIBDIR': str(folder)}, 'libbarleychime.so is not found: `make` in the project builds it')):
        printed, said = python(folder, alone, PROGRAM, **variables)
        tally.same(f'{what}: no answer', printed, '')
        raised = [words in line and line.startswith('barleychime.library.LibraryMissing') for line in said]
        tally.same(f'{what}: the reason', raised, [True])


def short_of_memory(tally, folder):
    """The longest galley asks for 1.6 GB; where that cannot be had, the error says so, and the process goes on."""
    program = ('import resource, barleychime\n'
               'block = lambda mark, *fields: mark + b"".join(field.to_bytes(4, "big") for field in fields)\n'
               'galley = (block(b"GS", 0, 3000, 0, 0, 1, 1, 1) + 4000 * block(b"TL", 10, 0, 0, 1)'
               ' + 200 * block(b"FG", 9, 0, 0, 1) + 50 * block(b"TB", 9, 0, 0, 1) + b"ED")\n'
               'resource.setrlimit(resource.RLIMIT_AS, (10**9, 10**9))\n'
               'try:\n    barleychime.make(galley)\nexcept MemoryError as error:\n    print(error, barleychime.fold(4))\n')
    tally.same('short of memory', python(folder, folder / 'with', program),
               ('1,640,570,040 bytes cannot be had, which the engine asks for ((4, 1, 2, 3),)\n', []))


def typed(tally):
    if not shutil.which('mypy'):
        print('mypy is not here: packages/install python installs it')
        tally.same('mypy is here, as the gate asks', os.environ.get('CI') != 'true', True)
        return
    ran = subprocess.run(['mypy', '--strict', '--no-incremental', '--cache-dir', os.devnull, ROOT / 'python/barleychime'],
                         capture_output=True, text=True)
    tally.same('mypy --strict', (ran.returncode, ran.stdout.startswith('Success')), (0, True))


def run(tally, folder):
    pip(tally, folder)
    missing(tally, folder)
    short_of_memory(tally, folder)
    typed(tally)
    tally.group('installed in Python')
