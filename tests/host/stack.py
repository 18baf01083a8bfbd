"""What the header says of the archive: the stack that a call takes, the functions that it calls, and that nothing is kept.

The figures are compared with the archive's machine code, and then tried: on threads that have just so many bytes left.
"""

import re
import signal
import subprocess

from c_interface import STRICT
from engine import nine
from frames import Unknown, needed, symbols
from reference import beforehand, cases, marking, openings
from reference.galley import read, write

SPARE = 4096  # bytes that the header may have more than the machine code takes, and that more than is seen
BINDING = 4096  # bytes for the dynamic linker where it binds memcpy or memset at its first call, as the header has it
STEP = 32  # bytes to which the stack that is left can be set


def built(root, library, folder, binding):
    """The C program, its calls of other libraries bound before it starts (now) or at their first call (lazy)."""
    program = folder / f'c_stack_{binding}'
    subprocess.run(['cc', '-std=c99', *STRICT, '-I', root / 'include', root / 'tests/host/c_stack.c', library, '-pthread',
                    f'-Wl,-z,{binding}', '-o', program], check=True)
    return program


def called(program, stack, files):
    """Exit status, bytes left at the call, bytes taken, and the words of the answer."""
    ran = subprocess.run([program, str(stack), *files], capture_output=True, text=True)
    left, taken, *answer = map(int, ran.stdout.split()) if ran.returncode == 0 else (0, 0)
    return ran.returncode, left, taken, tuple(answer)


def calls(command, root, folder):
    """What is called, with the answer that is due: (whether it marks, name, files, nine words)."""
    made, none = root / 'samples/real/mpman-p003.galley', root / 'samples/real/mpman-p081.galley'
    tabled, cut = root / 'samples/real/memman-p211-tables.galley', folder / 'cut.galley'
    cut.write_bytes(made.read_bytes()[:-1])
    refused, in_vain = nine(('refused', 1, made.stat().st_size - 2)), nine(('refused', 11, 0), weighed(none))
    (lists, best), (tabled_lists, tabled_best) = (best_list(command, path, folder) for path in (made, tabled))
    opening = folder / 'printed.list'
    opening.write_text(''.join(lists.read_text().splitlines(keepends=True)[:40]))
    printed = nine(best, weighed(made, tuple(map(int, opening.read_text().split()))))
    latex = made.with_suffix('.latex')
    loose = nine(marking.mark(read(made.read_bytes())[1], tuple(map(int, latex.read_text().split()))))
    return [(False, 'a chapter made', [made], nine(best, weighed(made))), (False, 'no pagination', [none], in_vain),
            (False, 'a chapter with tables made', [tabled], nine(tabled_best, weighed(tabled))),
            (False, 'a chapter made after an opening', [made, opening, 'after'], printed),
            (False, 'a whole list as an opening', [tabled, tabled_lists, 'after'], nine(due_of_opening(tabled, tabled_lists))),
            (True, 'its list', [tabled, tabled_lists], nine(tabled_best)),
            (False, 'a galley cut short', [cut], refused), (True, 'the best list', [made, lists], nine(best)),
            (True, "LaTeX's list", [made, latex], loose), (True, 'a list for a galley cut short', [cut, lists], refused)]


def books(folder):
    """The same of books: the eight words of an answer are of 64 bits each."""
    for number, (name, chapters, choice, measure) in enumerate(cases.BOUND):
        files = [folder / f'bound-{number}-{chapter}' for chapter in range(len(chapters))]
        for file, galley in zip(files, chapters):
            file.write_bytes(write(galley))
        counted = sum(map(beforehand.weighed_by_runs, chapters))
        yield False, f'a book, {name}', ['book', *files], (0, 0, *measure, counted) if choice else (11, *(0,) * 6, counted)


def best_list(command, path, folder):
    """A file with the list that is made of a galley, and its mark."""
    pages = [line.split()[1:] for line in command.text('make', path)[1].splitlines()[1:]]
    lists = folder / f'{path.stem}.list'
    lists.write_text(''.join(' '.join(page) + '\n' for page in pages))
    words = tuple(int(number) for page in pages for number in page)
    return lists, marking.mark(read(path.read_bytes())[1], words)


def weighed(path, opening=()):
    """The pages that making weighs of a galley."""
    return beforehand.weighed_by_runs(read(path.read_bytes())[1], opening)


def due_of_opening(path, lists):
    """The refusal of a whole list as an opening: 21, or 20 where its last page is low."""
    return ('refused', *openings.fault(read(path.read_bytes())[1], tuple(map(int, lists.read_text().split()))))


def figures(tally, stated, takes, seen):
    """The header's figures, what the machine code takes, and what calls were seen to take, for making, marking and a book."""
    for work, header, code, calls_took in zip(('making', 'marking', 'a book'), stated, takes, seen):
        tally.same(f'stack of {work}: the header has {header} bytes, the archive takes {code}', code <= header <= code + SPARE,
                   True)
        tally.same(f'stack of {work}: {calls_took} bytes were seen, the archive takes {code}',
                   calls_took <= code <= calls_took + SPARE, True)


def threads(tally, lazy, now, what, stated, takes):
    """A call has the bytes that are stated and no more; with less than it takes, it runs into forbidden memory."""
    marks, name, files, due = what
    status, left, taken, answer = called(now, stated, files)
    tally.same(f'{name}: on a stack of {stated} bytes', (status, answer), (0, due))
    tally.same(f'{name}: {left} bytes were left', stated <= left < stated + STEP, True)
    tally.same(f'{name}: took {taken} bytes of {takes}', 0 < taken <= takes, True)
    tally.same(f'{name}: with too little', called(now, taken - STEP, files)[0], -signal.SIGSEGV)
    more = 0 if marks else BINDING
    status, _, _, answer = called(lazy, stated + more, files)
    tally.same(f'{name}: on a stack of {stated} and {more} bytes, bound at the first call', (status, answer), (0, due))
    return taken


def linked(tally, root, library):
    """The archive asks for the functions that the header names, and has no memory of its own that it could write."""
    header = (root / 'include/barleychime.h').read_text().replace('\n * ', ' ')
    named = re.search(r'call nothing but (.+?) of the C library', header)
    kinds = symbols(library)
    tally.same('functions of the C library', kinds.pop('U', []), re.split(', | and ', named[1]) if named else None)
    tally.same('nothing but code and constants', [kind for kind in kinds if kind not in 'TtRr'], [])


# What the header says of the other calls in words: the bytes of stack that each takes at most.
IN_WORDS = {'version': 8, **dict.fromkeys(('report', 'forecast', 'section'), 999),
            **{f'desk_{name}': 24_575 for name in ('open', 'ask', 'commit', 'save', 'back', 'drop', 'list')}}


def in_rust(tally, root, of_making, of_book):
    """The Rust interface states the header's figures."""
    constants = dict(re.findall(r'pub const (\w*STACK_BYTES): usize = ([\d_]+);', (root / 'host/library/src/engine.rs').read_text()))
    tally.same('the figures in Rust', constants, {'STACK_BYTES': f'{of_making:_}', 'BOOK_STACK_BYTES': f'{of_book:_}'})


def run(tally, command, root, library, folder):
    linked(tally, root, library)
    try:
        takes = [max(needed(library, f'barleychime_{name}') for name in names)
                 for names in (('make', 'make_after'), ('mark',), ('book',))]
    except Unknown as error:
        tally.same('the machine code can be followed', str(error), '')
        return
    lazy, now = (built(root, library, folder, binding) for binding in ('lazy', 'now'))
    stated = [*map(int, subprocess.run([now], check=True, capture_output=True, text=True).stdout.split())]
    in_rust(tally, root, stated[0], stated[2])
    seen = [0, 0, 0]
    for what in calls(command, root, folder):
        marks = what[0]
        seen[marks] = max(seen[marks], threads(tally, lazy, now, what, stated[marks], takes[marks]))
    for what in books(folder):
        seen[2] = max(seen[2], threads(tally, lazy, now, what, stated[2], takes[2]))
    figures(tally, stated, takes, seen)
    for name, most in IN_WORDS.items():
        takes_there = needed(library, f'barleychime_{name}')
        tally.same(f'stack of barleychime_{name}: {takes_there} bytes, at most {most}', takes_there <= most, True)
    tally.same('calls whose stack is measured', sorted({*IN_WORDS, 'make', 'make_after', 'mark', 'book'}), sorted(exported(library)))
    tally.group('stack', f'; making takes {takes[0]:,} bytes, marking {takes[1]:,}, a book {takes[2]:,}')


def exported(library):
    """The calls of the archive, without the name of the library before each."""
    return [name.removeprefix('barleychime_') for name in symbols(library)['T'] if name.startswith('barleychime_')]
