"""The Rust crates: laid out by rustfmt, no warning of clippy, unit tests and doc tests. The last line is 'N passed, M failed'.

BARLEYCHIME_LIB names the archive that they are linked with; without it target/staticlib/libbarleychime.a is taken."""

import os
import re
import subprocess
import sys
from pathlib import Path

ROOT = Path(__file__).resolve().parents[2]
sys.path.insert(0, str(ROOT / 'tests'))

from choice import chosen  # noqa: E402
from tally import Tally  # noqa: E402

LINTED = ['host/library', 'host/command', 'bench', 'bench/native', 'tests/host/standin']
# The crates that have tests, and how many at least: doc tests of the library among them.
TESTED = {'host/library': 12, 'host/command': 8}


def cargo(folder, *arguments):
    """Runs cargo in a folder, where it finds the folder's settings; exit status and everything it printed."""
    library = os.environ.get('BARLEYCHIME_LIB') or ROOT / 'target/staticlib/libbarleychime.a'
    env = {**os.environ, 'BARLEYCHIME_LIB': str(Path(library).resolve()), 'CARGO_TERM_COLOR': 'never'}
    done = subprocess.run(['cargo', *arguments], cwd=ROOT / folder, env=env, text=True, stdout=subprocess.PIPE, stderr=subprocess.STDOUT)
    return done.returncode, done.stdout


def main():
    folders, tally = chosen(dict.fromkeys(LINTED)), Tally()
    for folder in folders:
        status, printed = cargo(folder, 'fmt', '--check')
        tally.same(f'{folder}: layout', (status, printed), (0, ''))
        status, printed = cargo(folder, 'clippy', '--release', '--offline', '--quiet', '--all-targets', '--', '-D', 'warnings')
        tally.same(f'{folder}: clippy', (status, printed), (0, ''))
        manifest = (ROOT / folder / 'Cargo.toml').read_text()
        if folder.startswith('host/'):
            tally.same(f'{folder}: the version of Rust that it needs', bool(re.search(r'^rust-version = "1\.\d+"$', manifest, re.M)), True)
    tally.group('layout and lints')
    for folder, least in ((folder, least) for folder, least in TESTED.items() if folder in folders):
        status, printed = cargo(folder, 'test', '--release', '--offline', '--quiet')
        passed = sum(map(int, re.findall(r'^test result: ok\. (\d+) passed', printed, re.M)))
        tally.same(f'{folder}: tests', (status, passed >= least, printed if status else ''), (0, True, ''))
        print(f'{folder}: {passed} tests')
    if 'host/library' in folders:
        status, printed = cargo('host/library', 'tree', '--offline', '--prefix', 'none', '--edges', 'normal,build')
        tally.same('the library has no dependency', (status, len(printed.splitlines())), (0, 1))
    tally.group('tests')
    return tally.end()


if __name__ == '__main__':
    sys.exit(main())
