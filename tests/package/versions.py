"""The version stands in host/library/Cargo.toml; every other place that states it states the same."""
import pathlib
import re

ROOT = pathlib.Path(__file__).resolve().parents[2]
CRATES = ('host/command', 'bench', 'bench/native', 'tests/host/standin')


def stated(path, pattern):
    found = re.search(pattern, (ROOT / path).read_text(), re.M)
    return found and found[1]


def check(tally):
    version = stated('host/library/Cargo.toml', r'^version = "(.+)"$')
    major, minor, patch = map(int, version.split('.'))
    number = str(10_000 * major + 100 * minor + patch)
    for crate in CRATES:
        tally.same(f'version of {crate}', stated(f'{crate}/Cargo.toml', r'^version = "(.+)"$'), version)
    header = 'include/barleychime.h'
    tally.same('version of the header', stated(header, r'^#define BARLEYCHIME_VERSION (\d+)$'), number)
    tally.same('version of the header, in figures', stated(header, r'^#define BARLEYCHIME_VERSION_STRING "(.+)"$'), version)
    tally.same('version of the engine', stated('crates/barleychime/src/lib.rt', r'barleychime_version\(\) -> u32\n.*≡ (\d+) '), number)
    tally.same('version of the Python package', stated('python/barleychime/__init__.py', r"^__version__ = '(.+)'$"), version)
    tally.same('version of the LaTeX package', stated('latex/barleychime.sty', r'^.ProvidesPackage.* v([\d.]+) '), version)
    tally.same('the newest version in CHANGELOG.md', stated('CHANGELOG.md', r'^## ([\d.]+)'), version)
    tally.group('versions')
