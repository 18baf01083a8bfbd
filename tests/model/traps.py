"""Wrong readings of the page model, each of which must be caught.

A reading of the definitions that are computed (traps/NAME.edit) must be caught by the table of crates/cases: the edit is applied to a copy of
the definitions, without their laws, whose proofs would refuse it first, and `row: LIST` names the list of the table that must then have
a row which disagrees. The rows that do are printed by their number in the list. A reading of the published model, which is stated and not
computed (published/NAME.edit, of Pagination.antt), must be refused by crates/theorems, whose proofs tie it to the definitions. With
nothing edited the table agrees and the theorems are proved.

An edit has the form of a must-fail edit of crates/model; `use:` has an import that its new text wants. The toolchain's own must-fail
edits check the edited crate alone, and neither the table nor the theorems stand in it.
"""
import concurrent.futures
import os
import pathlib
import re
import sys
import tempfile

import definitions

HERE = pathlib.Path(__file__).resolve().parent
sys.path.insert(0, str(HERE.parent))
from choice import chosen  # noqa: E402


def edits(text):
    """The replacements of an edit file: (file, old text, new text). An import goes before the first one that the file has."""
    file = old = None
    for line in text.splitlines():
        key, _, value = line.partition(': ')
        if key == 'file':
            file = value
        elif key == 'use':
            first = re.search('^use .*$', (definitions.ROOT / 'crates/model' / file).read_text(), re.M).group(0)
            yield file, first, f'use {value}\n{first}'
        elif key == 'old':
            old = value
        elif key == 'new':
            yield file, old, value


def applied(text, folder):
    """Applies an edit to the copy of the model in a folder."""
    for file, old, new in edits(text):
        path = folder / 'crates/model' / file
        held = path.read_text()
        if held.count(old) != 1:
            raise ValueError(f'the text to replace stands {held.count(old)} times in {file}')
        path.write_text(held.replace(old, new))


def of_table(text):
    """Which rows catch a reading of the definitions, in words, and whether one does."""
    named = re.search('^row: (.*)$', text, re.M)
    if not named:
        return 'no list of the table is named (row: LIST)', False
    with tempfile.TemporaryDirectory() as name:
        folder = pathlib.Path(name)
        definitions.copy_to(folder)
        applied(text, folder)
        definitions.by_rows(folder, named.group(1))
        model, agrees, errors = definitions.check(folder, 'cases')
    rows = [re.sub('.*?`(.*?)`.*', r'\1', error) for error in errors if 'Agrees.antt' in error]
    if not model or len(rows) < len(errors):
        return f'the edited definitions are not well formed: {errors}', False
    return ('caught by ' + ', '.join(rows), True) if rows and not agrees else (f'no row of {named.group(1)} catches it', False)


def of_theorems(text):
    """Where a reading of the published model is refused, in words, and whether it is."""
    with tempfile.TemporaryDirectory() as name:
        folder = pathlib.Path(name)
        definitions.with_theorems(folder)
        applied(text, folder)
        model, proved, errors = definitions.check(folder, 'theorems')
    if not model or proved or not errors:
        return f'the model is {"" if model else "not "}proved, and so are the theorems: {proved}', False
    return 'refused at ' + ', '.join(error.partition(': error')[0] for error in errors), True


def tried(trap, asked):
    """The trap's name, what came of it, and whether it was caught."""
    try:
        return trap.stem, *asked(trap.read_text())
    except ValueError as wrong:
        return trap.stem, str(wrong), False


def untouched():
    """Without an edit nothing is caught: the table agrees, list by list, and the theorems are proved."""
    with tempfile.TemporaryDirectory() as name:
        folder = pathlib.Path(name)
        definitions.copy_to(folder)
        definitions.by_rows(folder)
        table = definitions.check(folder, 'cases')
    with tempfile.TemporaryDirectory() as name:
        folder = pathlib.Path(name)
        definitions.with_theorems(folder)
        return table[1] and definitions.check(folder, 'theorems')[1]


def main():
    traps = chosen({trap.stem: (trap, asked) for part, asked in (('traps', of_table), ('published', of_theorems))
                    for trap in sorted((HERE / part).glob('*.edit'))}).values()
    with concurrent.futures.ThreadPoolExecutor(os.cpu_count()) as pool:
        agrees = pool.submit(untouched)
        found = list(pool.map(lambda trap: tried(*trap), traps))
    print(f'no trap: table and theorems {"agree" if agrees.result() else "DISAGREE"}')
    for name, came, caught in found:
        print(f'trap {name}: {came}' + ('' if caught else ' FAILED'))
    failed = sum(not caught for *_, caught in found) + (not agrees.result())
    print(f'{1 + len(traps) - failed} passed, {failed} failed')
    return 0 if traps and failed == 0 else 1


if __name__ == '__main__':
    sys.exit(main())
