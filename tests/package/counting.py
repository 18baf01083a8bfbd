"""tools/proofs over a stand-in for the toolchain: what it says while crates are proved, and of one that is not."""
import pathlib
import shutil
import subprocess
import tempfile

ROOT = pathlib.Path(__file__).resolve().parents[2]
COMMANDS = ('bash', 'python3', 'cat')
CRATES = '# floors\nmodel:\ncases: model\ngalley staticlib: model\n'
HEAD = 'proofs of 3 crates; what has not changed since it was proved is not proved again\n'
PROVED = 'only=0 proved=0\n== model\nfn model::leaf: proved\nlogic=proved functions=4\n== cases\n'


class Tree:
    """A tree with three crates, and a toolchain that prints this of them and ends so."""

    def __init__(self, folder, toolchain=True):
        self.folder = folder
        (folder / 'tools').mkdir()
        (folder / 'bin').mkdir()
        for name in ('proofs', 'proved', 'crates.py'):
            shutil.copy(ROOT / 'tools' / name, folder / 'tools')
        (folder / 'crates.txt').write_text(CRATES)
        (folder / 'KIT-ID').write_text('a stand-in\n')
        for command in COMMANDS:
            (folder / 'bin' / command).symlink_to(shutil.which(command))
        if toolchain:
            (folder / 'bin/rt').write_text(f'#!{shutil.which("bash")}\ncase "$*" in\n'
                                           f'doc) echo {folder}/START-HERE.md ;;\nversion) cat {folder}/KIT-ID ;;\n'
                                           f'"all check") cat {folder}/printed; exit "$(cat {folder}/status)" ;;\n*) exit 9 ;;\nesac\n')
            (folder / 'bin/rt').chmod(0o755)

    def tool(self, *command):
        ran = subprocess.run([self.folder / 'tools' / command[0], *command[1:]], env={'PATH': str(self.folder / 'bin'), 'PYTHONDONTWRITEBYTECODE': '1'},
                             capture_output=True, text=True)
        return ran.returncode, ran.stdout + ran.stderr

    def proofs(self, printed, status=0):
        (self.folder / 'printed').write_text(printed)
        (self.folder / 'status').write_text(str(status))
        return self.tool('proofs')


def tried(call, toolchain=True):
    with tempfile.TemporaryDirectory() as name:
        return call(Tree(pathlib.Path(name), toolchain))


def check(tally):
    whole = f'{PROVED}== galley\nlogic=proved functions=9\n== summary\nmodel: ok\ncases: ok\ngalley: ok\n3 of 3 crates ok\n'
    said = f'{HEAD}1 of 3: model proved\n2 of 3: galley proved\n3 of 3 crates proved\n'
    tally.same('every crate is proved', tried(lambda tree: tree.proofs(whole)), (0, said))
    tally.same('nothing is proved again', tried(lambda tree: (tree.proofs(whole), tree.proofs('', 9))[1]), (0, f'{HEAD}3 of 3 crates proved\n'))
    kept = 'a stand-in\nmodel: logic=proved functions=4\ncases: ok, as rt all check says\ngalley: logic=proved functions=9\n'
    tally.same('what was said is kept', tried(lambda tree: (tree.proofs(whole), tree.tool('proved'))[1]), (0, kept))
    section = '== galley\nfn galley::read: the goal does not follow\nlogic=not-proved\n'
    refused = f'{PROVED}{section}== summary\nmodel: ok\ncases: ok\ngalley: failed (1)\n2 of 3 crates ok\n'
    said = f'{HEAD}1 of 3: model proved\n{section}galley: failed (1)\n2 of 3 crates proved\n'
    tally.same('a crate is not proved', tried(lambda tree: tree.proofs(refused, 1)), (1, said))
    stopped = 'rt: mend these first: no library was built, and no proof was checked\n'
    tally.same('nothing is checked', tried(lambda tree: tree.proofs(stopped, 1)), (1, f'{HEAD}{stopped}0 of 3 crates proved\n'))
    tally.same('what is not proved has no line', tried(lambda tree: (tree.proofs(refused, 1), tree.tool('proved'))[1][0]), 1)
    status, said = tried(lambda tree: tree.proofs(''), False)
    tally.same('there is no toolchain', (status, 'the Rattle toolchain (rt)' in said), (2, True))
    tally.group('proofs counted')
