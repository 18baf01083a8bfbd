"""The crates of crates.txt, and what the toolchain said of each when it was last proved: target/proved/NAME.json.

A note holds as long as its key, the sum of all that the verdict on the crate rests on, is that of the files as they stand.
"""
import functools
import hashlib
import json
import pathlib
import re
import subprocess

ROOT = pathlib.Path(__file__).resolve().parents[1]
ROW = re.compile(r'(\w+)( +staticlib)?(?: +\w+=\S+)* *:([\w ]*)')
NOTES = ROOT / 'target/proved'


def listed():
    """Each crate in the order of crates.txt: whether it is a static library, and the libraries that its line names."""
    rows = [ROW.match(line.split('#')[0]) for line in (ROOT / 'crates.txt').read_text().split('\n')]
    return {row[1]: (bool(row[2]), row[3].split()) for row in rows if row}


def below(name):
    """The repository's crates below a crate, each after those that it uses."""
    found, crates = [], listed()
    for dep in crates[name][1]:
        if dep in crates:
            found += [each for each in (*below(dep), dep) if each not in found]
    return found


@functools.lru_cache(maxsize=None)
def kit():
    """The folder of the Rattle toolchain."""
    try:
        told = subprocess.run(['rt', 'doc'], capture_output=True, text=True, check=True).stdout
    except FileNotFoundError:
        raise SystemExit('the Rattle toolchain (rt), which proves the engine, is not on PATH. Without it, use the tarball of a release.') from None
    return pathlib.Path(told.strip()).parent


def files(folder):
    return sorted(path for path in folder.rglob('*') if path.is_file()) if folder.is_dir() else []


def keys():
    """The key of each crate: of the toolchain, its line of crates.txt, its sources, definitions and proofs, and the keys of those below it."""
    crates, found = listed(), {}

    def key(name):
        if name not in found:
            total = hashlib.sha256((kit() / 'KIT-ID').read_bytes() + repr((name, *crates[name])).encode())
            folder = ROOT / 'crates' / name
            for path in [each for part in ('src', 'specs', 'proofs') for each in files(folder / part)]:
                total.update(f'{path.relative_to(folder)}\0'.encode() + path.read_bytes())
            for dep in crates[name][1]:
                total.update(key(dep).encode() if dep in crates else dep.encode())
            found[name] = total.hexdigest()
        return found[name]

    return {name: key(name) for name in crates}


def library(name):
    """The sum of a crate's library as it stands in its folder out/, or nothing."""
    file = ROOT / 'crates' / name / f'out/rlib/{name}.rlib/format'
    return hashlib.sha256(file.read_bytes()).hexdigest() if file.is_file() else None


def note(name):
    file = NOTES / f'{name}.json'
    try:
        return json.loads(file.read_text())
    except (OSError, ValueError):
        return {'key': None, 'said': None, 'library': None}


def take_note(name, key, said, built):
    """Notes that a crate was proved as its key says; `built`: whether its library was made by that proof. What an earlier proof of the same said
    stays where this one only says that the toolchain kept it."""
    earlier = note(name)
    if earlier['key'] == key:
        said = earlier['said'] if said.startswith('rt: ') else said
        built = built or earlier['library'] == library(name)
    NOTES.mkdir(parents=True, exist_ok=True)
    (NOTES / f'{name}.json').write_text(json.dumps({'key': key, 'said': said, 'library': library(name) if built else None}))


def unproved():
    """The crates whose files no noted proof read."""
    return [name for name, key in keys().items() if note(name)['key'] != key]


def stand(name):
    """Whether the libraries below a crate are those that its noted proofs made of the files as they are."""
    found = keys()
    return all(note(dep)['key'] == found[dep] and library(dep) and note(dep)['library'] == library(dep) for dep in below(name))
