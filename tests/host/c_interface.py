"""A C program against the header and the archive, without a warning, as C and as C++; then under the sanitizers, without a leak."""

import subprocess

DUE = ('0.2.0, 200, 200\n'  # versions
       '2 0 1 1 0\n1 1 1\n2 3 1\n'  # made
       '0 0: 80 8 64, 19 weighed\n'  # told beforehand, and weighed
       '2 1 1 2 0\nR 15 1\n'  # marked
       'R 9 80\nR 10 8\n'  # too little memory lent
       # after openings
       '2 1 1 2 0\n1 3 0\n2 3 1\n0 0: 80 8 64, 1 weighed\n2 0 1 1 0\n1 1 1\n2 3 1\n0 0: 80 8 64, 19 weighed\n'
       'R 20 0\n0 0: 80 8 64, 0 weighed\nR 20 1\n0 0: 80 8 64, 0 weighed\nR 21 2\n0 0: 80 8 64, 0 weighed\n'
       '3 1 2 3 30\n'  # white space
       '8 1 2 7 6 3 4 5\nR 33 6\n'  # sections
       '0: 0 0 2 4 1 2 4294967296 1 4294967295 4294967294 2\n32: 32 2 0 0 0 0 0 0 0 0 0\n'  # reported
       # every record, with lastMin as high as the last page is, higher, and out of range
       '2 0 0 0 0\n0 0: 80 8 64, 19 weighed\nR 11 0\n0 0: 80 8 64, 19 weighed\nR 3 0\n3 0: 0 0 0, 0 weighed\n'
       # a table: words a page, made, told and weighed, marked, too little memory
       '2 3\n2 1 1 2 0\n1 2 1 0\n2 3 1 1\n0 0: 160 15 256, 64 weighed\nR 12 0\nR 9 160\nR 10 15\n'
       # desks, with the table and on case A: refused, opened and asked, saved, committed; too long a name, one that is not held, back,
       # dropped and dropped again; nothing pending, the last page
       'R 22 0\n0:\n2 1 1 2 0\n2 1 1 2 0\n2: 2 1 0 3 1 1\n0 0\n2: 2 0 1 3 1 1\n25 0\n26 0\n2: 2 1 0 3 1 1\n0 0\n26 0\nR 24 0\nR 23 2\n'
       'R 22 0\n0:\n2 1 1 2 0\n2 0 1 1 0\n2: 3 0 3 1\n0 0\n2: 1 1 3 1\n25 0\n26 0\n2: 3 0 3 1\n0 0\n26 0\nR 24 0\nR 23 2\n'
       # a book: made, in too little memory, with a chapter cut short, with one of another specification
       '0 0 4 1 3 4 0 85\n2 1 3 1 2 1 0 3 1 1\n9 320 0 0 0 0 0 0\n1 2 0 0 0 0 0 0\n29 2 0 0 0 0 0 0\n')
STRICT = ['-Wall', '-Wextra', '-Werror', '-pedantic']


SANITIZED = ['-g', '-fsanitize=address,undefined', '-fno-sanitize-recover=all']
WAYS = {'C99': ['cc', '-std=c99'], 'C11': ['cc', '-std=c11'], 'C17': ['cc', '-std=c17'],
        'C++11': ['c++', '-x', 'c++', '-std=c++11'], 'C++17': ['c++', '-x', 'c++', '-std=c++17']}


def built(way, root, source, library, program, options=()):
    """What the compiler and the linker had to say, which is nothing. The compiler is told the language, so the archive goes to the
    linker in a second step."""
    compiler, compiled = WAYS[way], program.with_suffix('.o')
    steps = [[*compiler, *STRICT, *options, '-I', root / 'include', '-c', source, '-o', compiled],
             [compiler[0], *options, compiled, library, '-o', program]]
    ran = [subprocess.run(step, capture_output=True, text=True) for step in steps]
    return [(step.returncode, step.stderr) for step in ran]


def run(tally, root, library, folder):
    caller, program = root / 'tests/host/c_caller.c', folder / 'c_caller'
    for name, way, options in [*((way, way, ()) for way in WAYS), ('C11, sanitized', 'C11', SANITIZED)]:
        tally.same(f'{name}: built without a warning', built(way, root, caller, library, program, options), [(0, '')] * 2)
        ran = subprocess.run([program], capture_output=True, text=True)
        tally.same(f'{name}: case A', (ran.returncode, ran.stdout, ran.stderr), (0, DUE, ''))
    tally.group('C interface')
