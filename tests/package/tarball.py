"""The tarball of `make dist`, unpacked in an empty folder and used there without the toolchain, and `make install` and `make uninstall`."""
import os
import pathlib
import re
import subprocess
import sys
import tempfile

ROOT = pathlib.Path(__file__).resolve().parents[2]
BARE = {'PATH': '/usr/bin:/bin', 'LC_ALL': 'C.UTF-8'}  # no rt and no cargo
CASE_A = '1 1\n3 1\n'
SAMPLE = 'share/barleychime/samples/real/gretl-p441.galley'
TOLD = ('share/man/man1/barleychime.1', 'share/bash-completion/completions/barleychime', 'share/zsh/site-functions/_barleychime',
        'share/fish/vendor_completions.d/barleychime.fish')


def ran(*command, cwd, given=None, **variables):
    done = subprocess.run(command, cwd=cwd, input=given, capture_output=True, env={**BARE, **variables}, timeout=300)
    return done.returncode, done.stdout, done.stderr.decode()


def make(*arguments):
    done = subprocess.run(['make', '--no-print-directory', *arguments], cwd=ROOT, capture_output=True, text=True)
    return done.returncode, done.stdout, done.stderr


def files(folder):
    return sorted(str(path.relative_to(folder)) for path in folder.rglob('*') if path.is_symlink() or path.is_file())


def unpacked(tally, folder):
    """The folder of the tarball; its sums hold, and it says of every crate that it is proved."""
    tarballs = list((ROOT / 'target/dist').glob('*.tar.gz'))
    tally.same('one tarball', len(tarballs), 1)
    subprocess.run(['tar', '-xzf', tarballs[0], '-C', folder], check=True)
    here = folder / tarballs[0].name.removesuffix('.tar.gz')
    tally.same('one folder in it', [path.name for path in folder.iterdir()], [here.name])
    tally.same('sums', ran('sha256sum', '--quiet', '-c', 'SHA256SUMS', cwd=here), (0, b'', ''))
    summed = {line.split(None, 1)[1] for line in (here / 'SHA256SUMS').read_text().splitlines()}
    tally.same('a sum for each file', summed, {name for name in files(here) if not (here / name).is_symlink()} - {'SHA256SUMS'})
    beside = f'{tarballs[0].name}.sha256'
    tally.same('the sum of the tarball', ran('sha256sum', '--quiet', '-c', beside, cwd=tarballs[0].parent), (0, b'', ''))
    proved = (here / 'PROVED').read_text()
    for crate in re.findall(r'^(\w+)[\w= ]*:', (ROOT / 'crates.txt').read_text(), re.M):
        said = re.findall(rf'^{crate}: (?:logic=proved functions=|is kept: an earlier run on this machine proved the same files|ok, as rt all check says)', proved, re.M)
        tally.same(f'{crate} is said to be proved', len(said), 1)
    return here


def newest(symbols):
    """The newest version of the C library that these symbols are of."""
    return max(tuple(map(int, version.split(b'.'))) for version in re.findall(rb'GLIBC_([\d.]+)', symbols))


def used(tally, here):
    """The command makes a sample; the C example is compiled through pkg-config, over the shared library and over the archive."""
    due = ran(ROOT / 'host/command/target/release/barleychime', 'make', ROOT / 'samples/real/gretl-p441.galley', cwd=ROOT)
    tally.same('a sample is made', ran('bin/barleychime', 'make', SAMPLE, cwd=here), due)
    tally.same('and has pages', due[0] == 0 and due[1].count(b'\n') > 2, True)
    case_a = ran('bin/barleychime', 'pack', 'share/barleychime/samples/case-a.txt', cwd=here)[1]
    told = {'PKG_CONFIG_PATH': str(here / 'lib/pkgconfig')}
    flags, libdir = (ran('pkg-config', *asked, 'barleychime', cwd=here, **told)[1].decode().split()
                     for asked in (['--cflags', '--libs'], ['--variable=libdir']))
    led = [pathlib.Path(flag[2:]).resolve().relative_to(here) for flag in flags if flag[:2] in ('-I', '-L')]
    tally.same('pkg-config leads into the folder', list(map(str, led)), ['include', 'lib'])
    strict = ['-std=c11', '-Wall', '-Wextra', '-pedantic', '-Werror', 'share/doc/barleychime/pages.c', '-o', 'pages']
    for way, linked in (('the shared library', [*flags, f'-Wl,-rpath,{libdir[0]}']),
                        ('the archive', [*flags[:1], f'{libdir[0]}/libbarleychime.a'])):
        tally.same(f'the C example over {way}: compiled', ran('cc', *strict, *linked, cwd=here), (0, b'', ''))
        tally.same(f'the C example over {way}: case A', ran('./pages', cwd=here, given=case_a), (0, CASE_A.encode(), ''))
    needed = ran('readelf', '-d', 'lib/libbarleychime.so', cwd=here)[1].decode()
    tally.same('the name of the shared library', re.findall(r'soname: \[(.+)\]', needed), ['libbarleychime.so.0'])
    stated = re.search(r'glibc (\d+)\.(\d+) .* needs (\d+)\.(\d+)', (here / 'README.md').read_text())
    for name, least in zip(('bin/barleychime', 'lib/libbarleychime.so'), (stated.groups()[:2], stated.groups()[2:])):
        asked = newest(ran('objdump', '-T', name, cwd=here)[1])
        tally.same(f'{name} asks for glibc {asked}, as is stated or an older one', asked <= tuple(map(int, least)), True)
    for name in TOLD:
        tally.same(f'{name} is there', (here / name).is_file() and (here / name).stat().st_size > 200, True)
    documents = here / 'share/doc/barleychime'
    for document in [documents / 'README.md', *sorted((documents / 'docs').glob('*.md'))]:
        links = re.findall(r'\]\(([^)#:]+)[)#]', document.read_text())
        tally.same(f'what {document.name} leads to', [link for link in links if not (document.parent / link).exists()], [])
    wheels = [name for name in files(here) if name.endswith('.whl')]
    pip = (sys.executable, '-m', 'pip', 'install', '-q', '--no-index', '--target', 'site')
    tally.same('the wheel is installed', ran(*pip, *wheels, cwd=here, HOME=str(here))[0], 0)
    program = 'import barleychime; print(barleychime.fold(4))'
    tally.same('and called', ran(sys.executable, '-c', program, cwd=here, PYTHONPATH=str(here / 'site')), (0, b'((4, 1, 2, 3),)\n', ''))


def installed(tally, folder):
    """What is installed is what was staged; it is removed again, and nothing else is. Nothing is built on the way."""
    into = folder / 'a root' / 'opt/bar'
    given = (f'DESTDIR={folder}/a root', 'PREFIX=/opt/bar')
    tally.same('make install', make('install', *given), (0, f'installed below {into}\n', ''))
    listed = (into / 'share/barleychime/FILES').read_text().splitlines()
    tally.same('what is installed', files(into), sorted(listed))
    staged = ran('tar', '-tf', ROOT / 'target/stage.tar', cwd=folder)[1].decode()
    tally.same('as it was staged', files(into), sorted(staged.splitlines()))
    tally.same('the command is installed', ran(into / 'bin/barleychime', '--version', cwd=folder)[:1], (0,))
    modes = [(into / name).stat().st_mode & 0o777 for name in ('bin/barleychime', 'include/barleychime.h')]
    tally.same('nobody else may write it', modes, [0o755, 0o644])
    (into / 'share/barleychime/mine').write_text('')
    tally.same('make uninstall', make('uninstall', *given), (0, f'removed from {into}\n', ''))
    tally.same('what is left', files(into), ['share/barleychime/mine'])
    tally.same('the documents have no folder left', (into / 'share/doc/barleychime').exists(), False)
    status, _, said = make('uninstall', *given)
    tally.same('nothing to remove', (status, f'nothing is installed below {into}' in said), (2, True))
    status, _, said = make('install', f'STAGED={folder}/none', *given)
    tally.same('nothing to install', (status, 'run make first' in said), (2, True))
    steps = make('--dry-run', 'install')[1]
    tally.same('installing builds nothing', [word for word in ('cargo', 'rt ', 'cc ', 'web/build') if word in steps], [])


def check(tally):
    if not list((ROOT / 'target/dist').glob('*.tar.gz')):
        print('there is no tarball: make dist')
        tally.same('the tarball is there, as the gate asks', os.environ.get('CI') != 'true', True)
        return
    with tempfile.TemporaryDirectory() as name:
        (folder := pathlib.Path(name).resolve() / 'empty').mkdir()
        used(tally, unpacked(tally, folder))
        installed(tally, folder)
    tally.group('the tarball')
