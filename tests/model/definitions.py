"""A copy of the page model's definitions and of the table of cases, to be checked after a change to either."""
import functools
import pathlib
import re
import shutil
import subprocess

ROOT = pathlib.Path(__file__).resolve().parents[2]


def copy_to(folder):
    """The definitions and the cases as a repository of their own, without what would refuse a wrong definition before the cases
    do: the laws and what they speak of, and the model's functions, which stand after its types."""
    for crate in ('model', 'cases'):
        copied(crate, folder)
    model = folder / 'crates/model'
    shutil.rmtree(model / 'proofs')
    shutil.rmtree(model / 'specs/laws')
    (model / 'specs/laws.antt').unlink()
    library = model / 'specs/Lib.antt'
    library.write_text(library.read_text().replace('pub mod laws\n', ''))
    for source in (model / 'src').glob('*.rt'):
        source.write_text(re.sub(r'^(#\[tactic[^\n]*\n)?pub fn .*', '', source.read_text(), flags=re.DOTALL | re.MULTILINE))


def with_theorems(folder):
    """The model with its laws, and the theorems over it, as a repository of their own."""
    for crate in ('model', 'theorems'):
        copied(crate, folder)


def copied(crate, folder):
    """What a check reads of a crate, and not what rt keeps beside it, which other checks may be writing."""
    for part in ('src', 'specs', 'proofs'):
        if (ROOT / 'crates' / crate / part).is_dir():
            shutil.copytree(ROOT / 'crates' / crate / part, folder / 'crates' / crate / part)


def by_rows(folder, only=None):
    """The proof that the model answers as the table says, row by row, of all lists or of one, so that the check names each row that
    disagrees."""
    cases = folder / 'crates/cases/specs'
    agrees = (cases / 'Agrees.antt').read_text()
    head, proof = agrees.split('pub table_agrees', 1)
    unfolding = re.search('^unfolding .*$', proof, re.M).group(0)
    proofs = [head.replace('Prelude.{', 'Prelude.{take, drop, ', 1)]
    for name, rows in lists(cases):
        for row in range(rows if only in (None, name) else 0):
            only = f'(take 1 (drop {row} {name}))'
            proofs.append(f'pub {name}-{row + 1} : map (λ c. answered c.galley c.question) {only} ≡ map (λ c. c.reply) {only}\n'
                          f'{unfolding}\n{name}-{row + 1} = refl\n')
    (cases / 'Agrees.antt').write_text('\n'.join(proofs))


def lists(cases):
    """The lists that the table is made of, each with the number of its rows."""
    table = (cases / 'Table.antt').read_text().split('table =')[1]
    text = '\n'.join(path.read_text() for path in cases.glob('*.antt'))
    for name in re.findall(r'\w+', table):
        rows = re.search(rf'^{name} =\n(.*?)^    ∷ \[\]$', text, re.M | re.S).group(1)
        yield name, len(re.findall(r'^    (?:∷ )?asks ', rows, re.M))


@functools.lru_cache(maxsize=None)
def toolchain():
    """The folder of the Rattle toolchain."""
    return pathlib.Path(subprocess.run(['rt', 'doc'], capture_output=True, text=True, check=True).stdout.strip()).parent


def check(folder, crate='cases'):
    """Whether the model reads well, whether it and the crate over it are proved, and the errors of that crate, each with its file. One check
    reads both: rt would prove the model first, and keep what it made of each copy for others."""
    kit = toolchain()
    library = ['--lib', 'model:core,std=../model/src/lib.rt']
    for name in ('core', 'std'):
        library += ['--extern', f'{name}={kit}/rlibs/{name}.rlib']
    logic = ['--antt-project', f'{kit}/rattle/logic/antt-project.json', '--logic-built', f'{kit}/logic_built', '--jobs', '1']
    run = subprocess.run([f'{kit}/bin/rattle', 'check', '--crate-name', crate, 'src/lib.rt', *library, '-L', f'dependency={kit}/rlibs', *logic],
                         cwd=folder / 'crates' / crate, capture_output=True, text=True)
    said = run.stdout + run.stderr
    wrong = re.findall(r'^(\./|\.\./model/)?(\S+: error.*)', said, re.M)
    model = [error for place, error in wrong if place != './']
    return run.returncode in (0, 1) and not model, run.returncode == 0, [error for place, error in wrong if place == './']
