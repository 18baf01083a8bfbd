"""packages/install on machines that are made up: each has a folder of commands, of which apt-get, dpkg-query, id and sudo are stand-ins."""
import pathlib
import shutil
import subprocess
import tempfile

ROOT = pathlib.Path(__file__).resolve().parents[2]
COMMANDS = ('bash', 'env', 'sed', 'tr', 'sort', 'comm', 'dirname', 'cat')
LISTS = {'trade': '# what the trade needs\nforme\n\ncase  # of types\n', 'press': 'ink\nforme'}


class Machine:
    """A folder with packages/install and its lists, and the commands that this machine has."""

    def __init__(self, folder, user=0, apt=True, sudo=False, installed=('gcc',), installs=True):
        self.folder, self.calls, self.state = folder, folder / 'calls', folder / 'installed'
        (folder / 'packages').mkdir()
        (folder / 'bin').mkdir()
        shutil.copy(ROOT / 'packages' / 'install', folder / 'packages')
        for name, text in LISTS.items():
            (folder / 'packages' / name).write_text(text)
        for name in COMMANDS:
            (folder / 'bin' / name).symlink_to(shutil.which(name))
        self.state.write_text(''.join(f'installed\t{line}\n' for line in installed))
        self.calls.write_text('')
        self.command('dpkg-query', f'cat {self.state}')
        self.command('id', f'echo {user}')
        if apt:
            adds = f'for name; do case $name in -*) ;; *) printf "installed\\t%s, \\n" "$name" >> {self.state};; esac; done'
            self.command('apt-get', f'echo apt-get "$@" >> {self.calls}; case " $* " in *" install "*) '
                                    + (f'{adds};; esac' if installs else 'exit 100;; esac'))
        if sudo:
            self.command('sudo', f'echo sudo >> {self.calls}; "$@"')

    def command(self, name, text):
        path = self.folder / 'bin' / name
        path.write_text(f'#!{shutil.which("bash")}\n{text}\n')
        path.chmod(0o755)

    def install(self, *groups):
        """The exit status, what was said, and the calls of apt-get and sudo."""
        ran = subprocess.run([self.folder / 'packages' / 'install', *groups], env={'PATH': str(self.folder / 'bin')},
                             capture_output=True, text=True, timeout=60)
        return ran.returncode, ran.stdout + ran.stderr, self.calls.read_text().splitlines()


def tried(*groups, **machine):
    with tempfile.TemporaryDirectory() as folder:
        return Machine(pathlib.Path(folder), **machine).install(*groups)


def check(tally):
    here = ('forme, ', 'case, ', 'ink, ')
    tally.same('what is here is not installed again', tried('trade', 'press', installed=here), (0, '', []))
    tally.same('a package that stands in for another', tried('press', installed=('forme, ', 'ink-black, colour, ink (= 1:2)')),
               (0, '', []))

    status, said, calls = tried('trade', 'press', installed=('case, ',))
    asked = [call for call in calls if ' install ' in call]
    tally.same('what is missing is installed: status', status, 0)
    tally.same('what is missing is said', 'installs forme ink\n' in said, True)
    tally.same('what is missing is asked for once', [call.split()[-2:] for call in asked], [['forme', 'ink']])

    status, said, calls = tried('press', user=1000, sudo=True)
    tally.same('not root: through sudo', (status, calls[0]), (0, 'sudo'))
    status, said, calls = tried('press', user=1000)
    tally.same('neither root nor sudo: status and calls', (status, calls), (1, []))
    tally.same('neither root nor sudo: what to run', 'run as root: apt-get install --no-install-recommends forme ink' in said, True)

    status, said, calls = tried('press', apt=False)
    tally.same('no apt-get: status', status, 1)
    tally.same('no apt-get: what to install', 'no apt-get; install what these packages of Debian have: forme ink' in said, True)

    status, said, calls = tried('press', installs=False)
    tally.same('apt-get fails: status', status, 1)
    tally.same('apt-get fails: three tries', sum(' install ' in call for call in calls), 3)
    tally.same('apt-get fails: what is still missing', said.endswith('not installed: forme ink\n'), True)

    for wrong in ((), ('bindery',), ('trade', 'bindery'), ('install',), ('../packages/trade',)):
        status, said, calls = tried(*wrong)
        tally.same(f'a wrong call {wrong}: status and calls', (status, calls), (2, []))
        tally.same(f'a wrong call {wrong}: the reason', 'group' in said, True)

    for path in sorted((ROOT / 'packages').iterdir()):
        if path.name != 'install':
            lines = [line.split('#')[0].split() for line in path.read_text().splitlines()]
            tally.same(f'{path.name}: one package a line', [line for line in lines if len(line) > 1], [])
    tally.group('packages that are installed')
