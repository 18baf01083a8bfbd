"""Nothing stands in the sources for nobody, and what the documents list of the tree is what it has.

A name that a `use` brings in and its file does not use fails, and so does a definition or law that nothing reaches. Reached is what
a function, a proof of one, a promise, the table of cases, docs/PROMISES.md or the list of laws that stand by themselves (standing.txt)
cites, and whatever that cites in turn. That list names no law that is not there or that is cited anyway. So does a list of
the model's files or of the tests' parts that is not whole, and so do floors of crates that are not as crates.txt says (floors.py). Every
kind of fault is planted, so that the test is known to find it.
"""
import pathlib
import re
import sys

sys.path.insert(0, str(pathlib.Path(__file__).resolve().parents[1]))
import floors  # noqa: E402
import names  # noqa: E402
from choice import chosen  # noqa: E402

ROOT = pathlib.Path(__file__).resolve().parents[2]
CRATES = ROOT / 'crates'
STANDING = ROOT / 'tests/sources/standing.txt'
FINAL = {'promises', 'cases', 'byhand'}  # of byhand nothing is cited: it has the laws of walks in the toolchain's logic for whoever proves by hand


def unused(sources):
    """The names that a `use` brings in for nothing."""
    for source in sources:
        for use in source.uses:
            idle = [name for name, known in use.names if not any(source.cites(known, line) for line in source.lines)]
            if not use.names and use.alias and not re.search(rf'(?<![\w·]){re.escape(use.alias)}[.\s)]', source.body):
                idle.append(use.alias)
            if idle:
                yield f'{source.path.relative_to(ROOT)}:{use.line}: {use.path} brings in {", ".join(idle)}, which the file does not use'


def seen_from(source, modules):
    """What each name means in a file: the declaration that it cites, with its file."""
    seen = {}
    for use in source.uses:
        match = names.CRATE_PATH.match(use.path)
        there = modules.get(match.groups()) if match else None
        if there:
            known = {inner: d for d in there.declarations for inner in (d.name, *d.inner)}
            if use.names:
                seen.update({alias: (there, known[name]) for name, alias in use.names if name in known})
            else:
                seen.update({f'{use.alias or use.path.split(".")[-1]}.{name}': (there, d) for name, d in known.items()})
    seen.update({inner: (source, d) for d in source.declarations for inner in (d.name, *d.inner)})
    return seen


def citations(sources):
    """For each declaration, and for what needs nobody to cite it (None), the declarations that it cites."""
    modules = {(source.crate, source.module): source for source in sources if not source.is_code}
    cited = {None: set()}
    for source in sources:
        seen = seen_from(source, modules)
        operators = [name for name in seen if names.is_operator(name)]
        final = source.is_code or source.is_proof or source.crate in FINAL
        for at, line in enumerate(source.lines):
            found = {name for name in (*words_of(source, line), *(o for o in operators if source.cites(o, line))) if name in seen}
            owner = source.owner(at)
            here = None if final or owner is None else owner
            cited.setdefault(here, set()).update(d for _, d in map(seen.get, found) if d is not owner)
    return cited


def words_of(source, line):
    for match in names.WORD.finditer(line):
        yield match.group(0)
    yield from source.words(line)


def told_to_stand(text):
    """The laws of a list of those that stand by themselves: a file and the name of each."""
    for line in text.splitlines():
        if line and not line.startswith('#'):
            path, _, told = line.partition(': ')
            yield from ((path, name) for name in told.split(', '))


def reached_from(todo, cited):
    """What these declarations cite, and whatever that cites in turn."""
    reached, todo = set(), list(todo)
    while todo:
        declaration = todo.pop()
        if declaration not in reached:
            reached.add(declaration)
            todo += cited.get(declaration, ())
    return reached


def uncited(sources, standing):
    """The declarations that nothing reaches, and laws that are told to stand by themselves and are not there, or are cited."""
    promised = set(re.findall(r'`([^`\s]+)`', (ROOT / 'docs/PROMISES.md').read_text()))
    cited = citations(sources)
    reached = reached_from([*cited[None], *(d for s in sources for d in s.declarations if d.name in promised)], cited)
    there = {(str(s.path.relative_to(ROOT)), d.name): d for s in sources for d in s.declarations}
    alone = []
    for path, name in told_to_stand(standing):
        law = there.get((path, name))
        if law is None:
            yield f'tests/sources/standing.txt: {path} has no {name}'
        elif law in reached:
            yield f'tests/sources/standing.txt: {name} of {path} is cited, and need not be listed'
        else:
            alone.append(law)
    reached |= reached_from(alone, cited)
    for source in sources:
        if not (source.is_proof or source.crate in FINAL):
            for declaration in source.declarations:
                if declaration not in reached:
                    yield f'{source.path.relative_to(ROOT)}:{declaration.first + 1}: nothing cites {declaration.name}'


def untold(architecture):
    """What a document lists and the tree has not, or the other way round."""
    contributing = (ROOT / 'docs/CONTRIBUTING.md').read_text()
    files = re.findall(r'^pub mod (\w+)$', (CRATES / 'model/specs/Lib.antt').read_text(), re.M)
    folders = [path.name for path in (ROOT / 'tests').iterdir() if path.is_dir() or not path.suffix]
    parts = re.findall(r'^(\w+)\|', (ROOT / 'tests/run').read_text(), re.M)
    for document, told, there in (
            ('docs/ARCHITECTURE.md, Reading the model', re.findall(r'`([A-Z]\w+)`', architecture.split('## Reading the model')[1]), set(files) - {'laws'}),
            ('docs/CONTRIBUTING.md, The gate', re.findall(r'`tests/(\w+)`(?=.*\|$)', contributing, re.M), set(folders) - {'run', '__pycache__'}),
            ('docs/CONTRIBUTING.md, The gate', re.findall(r'`(\w+)`', ' '.join(re.findall(r'^\| (`.*?`) \|', contributing, re.M))), parts)):
        for name in sorted(set(told) ^ set(there)):
            yield f'{document}: {name} is {"not there" if name in told else "not listed"}'


FAULTS = {'unused': lambda sources, *_: unused(sources), 'uncited': lambda sources, *_: uncited(sources, STANDING.read_text()),
          'untold': lambda _, architecture, __: untold(architecture),
          'floors': lambda sources, architecture, crates: floors.faults(crates, sources, architecture)}


def planted(sources, architecture, crates):
    """The kinds of fault that stay hidden when they are planted."""
    path = CRATES / 'model/specs/Leaf.antt'
    text = path.read_text()
    law = text + '\n-- A law of nothing.\npub planted_law : ℕ → ℕ\nplanted_law q = leaf single q\n'
    name = text.replace('Prelude.{', 'Prelude.{planted_name, ')
    for told, found in (
            ('nothing cites planted_law', uncited(names.read(CRATES, {path: law}), STANDING.read_text())),
            ('Leaf.antt has no planted_law', uncited(sources, STANDING.read_text() + 'crates/model/specs/Leaf.antt: planted_law\n')),
            ('leaf of crates/model/specs/Leaf.antt is cited', uncited(sources, STANDING.read_text() + 'crates/model/specs/Leaf.antt: leaf\n')),
            ('brings in planted_name', unused(names.read(CRATES, {path: name}))),
            ('Planted is not there', untold(architecture + '`Planted`')),
            ('Statement has planted cases', floors.faults(crates, sources, architecture.replace('| `crates/model` |', '| `crates/planted` |'))),
            ('desk lists theorems, which none of its files names', floors.faults(crates.replace('\ndesk:', '\ndesk: theorems'), sources, architecture)),
            ('desk names layouts and does not list it', floors.faults(crates.replace(' marking layouts\n', ' marking\n'), sources, architecture)),
            ('marking, on the floor Marking, reaches up to making', floors.faults(crates.replace('\nmarking:', '\nmarking: making'), sources, architecture)),
            ('judging stands before counting', floors.faults(crates.replace('\njudging:', '\njudging: counting'), sources, architecture)),
            ('the floor Bytes stands over Rules', floors.faults(crates.replace('# Bytes over', '# Bytes over Rules,'), sources, architecture))):
        if not any(told in fault for fault in found):
            yield told


def main():
    asked = chosen({**FAULTS, 'planted': planted})
    architecture, crates = ((ROOT / path).read_text() for path in ('docs/ARCHITECTURE.md', 'crates.txt'))
    sources = names.read(CRATES)
    passed = failed = 0
    for name in asked:
        found = list(asked[name](sources, architecture, crates))
        for fault in found:
            print(fault if name != 'planted' else f'planted and not found: {fault}')
        passed, failed = passed + (not found), failed + len(found)
    print(f'{passed} passed, {failed} failed')
    return 1 if failed else 0


if __name__ == '__main__':
    sys.exit(main())
