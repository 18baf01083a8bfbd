"""Options anywhere, file names of any bytes, wrong calls, help, completions, the manual page, colour, closed outputs."""

import os
import pty
import re
import subprocess

from command_line import file
from reference import cases
from reference.galley import write

# A wrong call, and what is said to be wrong.
WRONG = [
    ((), 'a command is wanted'), (('mrk',), 'mrk: no such command, perhaps mark is meant'), (('--mend',), '--mend: no such option'),
    (('make',), 'make: GALLEY... is wanted'), (('make', 'a', 'b'), 'make: several galleys want a folder for their lists, --out DIR'),
    (('make', '--verbos', 'a'), 'make: --verbos: no such option, perhaps --verbose is meant'),
    (('make', '--after'), 'make: --after LIST: its value is missing'), (('make', '--advise=3', 'a'), 'make: --advise takes no value, and 3 is one'),
    (('make', '--after=a', '--after=b', 'c'), 'make: --after LIST can stand only once'),
    (('make', '--json', '--tsv', 'a'), 'make: --json cannot stand beside --tsv'), (('mark', 'a'), 'mark: LIST... is wanted'),
    (('report', '--marks', 'a', 'b'), 'report: '), (('fold', '4', '8'), 'fold: 8: one argument too many'), (('fold', '-4'), 'fold: -4: no such option'),
    (('fold', 'x'), 'fold: SIZE: `x` is no whole number of 32 bits'), (('fold', '4294967296'), 'the greatest is 4294967295'),
    (('completions',), 'completions: SHELL is wanted'), (('completions', 'bsh'), 'bsh is none of bash, zsh, fish, perhaps bash is meant'),
    (('mark', '-', '-'), 'standard input can be read only once'), (('make', '\x1b[2J', 'b'), 'make: several galleys'), (('\x1b[2J',), 'no such command'),
]


def wrong(tally, command):
    for arguments, told in WRONG:
        status, output, remarks = command.text(*arguments)
        plain = all(character.isprintable() or character == '\n' for character in remarks)
        tally.same(f'{arguments}', (status, output, remarks.count('\n'), told in remarks, plain), (2, '', 1, True, True))
        tally.same(f'{arguments}: where to read on', '`barleychime ' in remarks or 'twice' in remarks, True)
    tally.group('command: wrong calls')


def anywhere(tally, command, root, folder):
    galley, after = file(folder, 'a.galley', write(cases.A)), root / 'samples/openings/a-lines-first.list'
    due = command.text('make', '--after', after, '--verbose', galley)
    for arguments in [('make', galley, '--after', after, '--verbose'), ('make', '--verbose', galley, f'--after={after}'),
                      ('make', f'--after={after}', '--verbose', '--', galley)]:
        tally.same(f'{arguments}', command.text(*arguments), due)
    tally.same('the best after it', due[0], 0)
    made = command.text('make', galley)[1]
    for name in ['--json', '-', '-x', 'two words', 'tab\there', 'line\nend', b'\xff\xfe.galley', 'ä.galley', '\x1b[31m']:
        odd = os.fsencode(folder) + b'/' + os.fsencode(name)
        with open(odd, 'wb') as out:
            out.write(write(cases.A))
        tally.same(f'{name!r} as a name', command.text('make', odd)[:2], (0, made))
        done = subprocess.run([command.program, 'make', '--', os.fsencode(name)], cwd=folder, input=write(cases.A), capture_output=True)
        tally.same(f'{name!r} after --', (done.returncode, done.stdout.decode()), (0, made))
        status, output, _ = command.run('mark', galley, odd, odd)
        tally.same(f'{name!r} in a row', (status, output), (2, (b'? ' + odd + b'\n') * 2))
        os.remove(odd)
        status, output, remarks = command.run('make', odd)
        plain = all(character.isprintable() or character == '\n' for character in remarks)
        tally.same(f'{name!r} that is not there', (status, output, remarks.count('\n'), plain), (2, b'', 1, True))
    tally.group('command: options and names')


def names_of(command):
    """The commands that --help and the manual page name."""
    listed = re.findall(r'^  ([a-z]+) ', command.text('--help')[1], re.M)
    return [name for name in listed if name != 'help'] + ['completions', 'man']


def pages(tally, command, folder):
    """Help, each a screen of 80 columns; the same from `help`; the manual page and completions have every option."""
    manual, options = command.text('man')[1], set()
    for name in names_of(command):
        status, output, remarks = command.text(name, '--help')
        tally.same(f'{name} --help', (status, output.split()[:2], remarks), (0, ['barleychime', name], ''))
        tally.same(f'help {name}', command.text('help', name), (0, output, ''))
        tally.same(f'{name} -h', command.text(name, '-h'), (0, output, ''))
        tally.same(f'{name}: a screen', (max(map(len, output.splitlines())) <= 80, output.count('\n') <= 24), (True, True))
        found = set(re.findall(r'^ +(?:-\w, )?(--[a-z-]+)', output, re.M)) - {'--help', '--version'}
        options |= found
        section = manual.split(f'.SS barleychime {name}')[1].split('.SS')[0].replace('\\-', '-')
        tally.same(f'{name} in the manual page', [option for option in found if f'.B {option}' not in section], [])
    whole = command.text('--help')
    tally.same('--help', (whole[0], max(map(len, whole[1].splitlines())) <= 80, whole[1].count('\n') <= 24, whole[2]), (0, True, True, ''))
    tally.same('help', command.text('help'), whole)
    tally.same('some options', len(options) > 8, True)
    for shell in ('bash', 'zsh', 'fish'):
        status, script, remarks = command.text('completions', shell)
        known = {option for option in options if (option in script or f'-l {option[2:]}' in script)}
        tally.same(f'completions for {shell}', (status, remarks, options - known), (0, '', set()))
    completed(tally, command, folder)
    checked = subprocess.run(['groff', '-man', '-Tascii', '-P-cbou', '-ww'], input=manual.encode(), capture_output=True)
    tally.same('the manual page is set without a warning', (checked.returncode, checked.stderr), (0, b''))
    for part in (b'NAME', b'SYNOPSIS', b'COMMANDS', b'EXIT STATUS'):
        tally.same(f'{part} in the manual page', part in checked.stdout, True)
    tally.group('command: help, completions, the manual page')


def completed(tally, command, folder):
    """Bash completes a command and an option, and leaves files to its own completion."""
    script = file(folder, 'completions', command.run('completions', 'bash')[1])
    tally.same('files in bash', b' -o default barleychime\n' in script.read_bytes(), True)
    for words, due in [(['barleychime', 'unp'], ['unpack']), (['barleychime', 'make', '--adv'], ['--advise']), (['barleychime', 'make', 'a'], [])]:
        line = ' '.join(words)
        asked = (f'source {script}; COMP_WORDS=({line}); COMP_CWORD={len(words) - 1}; _barleychime barleychime "{words[-1]}" "{words[-2]}"; '
                 'printf "%s\\n" "${COMPREPLY[@]}"')
        done = subprocess.run(['bash', '-c', asked], capture_output=True, text=True)
        tally.same(f'{line} completed', (done.stdout.split(), done.stderr), (due, ''))


def on_terminal(command, *arguments, **environment):
    """What the command writes to a terminal, both streams together."""
    mine, yours = pty.openpty()
    env = {key: value for key, value in os.environ.items() if key != 'NO_COLOR'}
    process = subprocess.Popen([command.program, *arguments], stdin=yours, stdout=yours, stderr=yours, env={**env, 'TERM': 'xterm', **environment})
    os.close(yours)
    text = b''
    try:
        while part := os.read(mine, 65_536):
            text += part
    except OSError:  # the other side is closed
        pass
    os.close(mine)
    process.wait(60)
    return text


def colour(tally, command, folder):
    for arguments in [('--help',), ('make', folder / 'nowhere'), ('help', 'make')]:
        tally.same(f'{arguments} on a terminal', b'\x1b[' in on_terminal(command, *arguments), True)
        for environment in ({'NO_COLOR': '1'}, {'TERM': 'dumb'}):
            tally.same(f'{arguments} with {environment}', b'\x1b' in on_terminal(command, *arguments, **environment), False)
        tally.same(f'{arguments} elsewhere', '\x1b' in ''.join(command.text(*arguments)[1:]), False)
    tally.group('command: colour')


def ends(tally, command, folder):
    """Outputs that are closed or full."""
    long = file(folder, 'long.galley', write(cases.LONGEST))
    shell = f'"{command.program}" forecast --lines "{long}"{" /dev/null" * 5_000} | head -n 1; echo "${{PIPESTATUS[0]}}"'
    done = subprocess.run(['bash', '-c', shell], capture_output=True)
    first, status = done.stdout.decode().splitlines()
    tally.same('a closed pipe', (first.endswith(str(long)), status), (True, '141'))
    for redirected in ('>&-', '> /dev/full'):
        for arguments in ('fold', '--help', 'refusals --json', f'make "{long}"'):
            done = subprocess.run(['bash', '-c', f'"{command.program}" {arguments} {redirected}'], capture_output=True, text=True)
            told = done.stderr.startswith('barleychime: standard output: ') and done.stderr.count('\n') == 1
            tally.same(f'{arguments} {redirected}', (done.returncode, told), (2, True))
    done = subprocess.run(['bash', '-c', f'"{command.program}" fold 8 > /dev/null'], capture_output=True)
    tally.same('thrown away', (done.returncode, done.stderr), (0, b''))
    done = subprocess.run([command.program, 'fold'], stdout=subprocess.DEVNULL)
    tally.same('thrown away by another program', done.returncode, 0)
    done = subprocess.run(['bash', '-c', f'"{command.program}" make nowhere 2>&-'], capture_output=True)
    tally.same('nowhere to complain', done.returncode, 2)
    tally.group('command: closed and full outputs')


def run(tally, command, root, folder):
    wrong(tally, command)
    anywhere(tally, command, root, folder)
    pages(tally, command, folder)
    colour(tally, command, folder)
    ends(tally, command, folder)
