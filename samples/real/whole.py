"""Real documents, set by the package: LaTeX's turns against the engine's, galley by galley, and their chapters as samples.

    python3 samples/real/whole.py COMMAND [--chapters FOLDER] [NAME...]

prints the rows of WHOLE.md for the documents. COMMAND is the command barleychime. sources.py says which documents there are and how one is
added. With --chapters every galley with floats enough is written to the folder, NAME-N.galley, with LaTeX's own pages of it, NAME-N.latex, and
the rows of TABLE.md for these are printed, too. `--chapters samples/real` makes all chapters here again.
"""
import argparse
import pathlib
import re
import subprocess
import sys
import tempfile

import sources

LEAST = 4  # floats of a galley that is a chapter here
ROW = re.compile(r' *(\d+) +(\d+) +(\d+) +(\d+)  (\S.*?)  +(\S.*?)  +(.*)')
LAST = re.compile(r'.*: (\d+) pages, (\d+) turns; LaTeX.s own pages have (\d+)')
TESTS = pathlib.Path(__file__).resolve().parents[2] / 'tests'


def rows(command, path):
    """Rows of WHOLE.md for a document that is ready."""
    name = path.stem
    done = subprocess.run([command, 'tex', path.name], cwd=path.parent, env=sources.ENVIRONMENT, stdout=subprocess.PIPE, text=True, check=True)
    for row in done.stdout.splitlines()[1:]:
        if found := ROW.fullmatch(row):
            number, lines, figures, tables, latex, by_list, words = found.groups()
            yield f'| {name} | {number}, "{words}" | {lines} | {figures} | {tables} | {latex} | {by_list} |'
        elif found := LAST.fullmatch(row):
            pages, turns, own = found.groups()
            yield f'| {name} | whole, {pages} pages | | | | {own} | {turns} |'


def ends(streams):
    """LaTeX's page list of a galley: how much of each stream stands on the pages up to each of them."""
    every = [page for stream in streams for page in stream]
    for page in range(min(every), max(every) + 1):
        yield [sum(at <= page for at in stream) for stream in streams]


def chapters(command, path):
    """The galleys with floats enough of a document that has been set: name, bytes and LaTeX's own list. One more run has LaTeX's pages.

    A chapter has no folio, so that it opens on a right-hand page, and may follow on in a book."""
    path.with_suffix('.list').unlink(missing_ok=True)
    sources.quiet(f'lualatex -interaction=batchmode {path.name}', path.parent)
    galleys = re.split(r'^# galley .*\n', path.with_suffix('.galley.txt').read_text(errors='replace'), flags=re.M)[1:]
    shipped = re.split(r'^galley ', path.with_suffix('.pages').read_text(), flags=re.M)[1:]
    for number, (galley, placed) in enumerate(zip(galleys, shipped), 1):
        lines, figures, tables = ([int(page) for page in row.split()[1:]] for row in placed.splitlines()[1:4])
        if len(figures) + len(tables) >= LEAST:
            records = ''.join(f'{row}\n' for row in galley.splitlines() if not row.startswith(('# ', 'FO ')))
            packed = subprocess.run([command, 'pack', '-'], input=records.encode(), stdout=subprocess.PIPE, check=True).stdout
            listed = ends([lines, figures, tables] if tables else [lines, figures])
            yield f'{path.stem}-{number}', packed, ''.join(' '.join(map(str, end)) + '\n' for end in listed)


def write_chapters(command, path, folder):
    """Chapters as files, and their rows of TABLE.md."""
    sys.path[:0] = [str(TESTS), str(TESTS / 'host')]
    import table
    from command import Command
    for name, galley, latex in chapters(command, path):
        (folder / f'{name}.galley').write_bytes(galley)
        (folder / f'{name}.latex').write_text(latex)
        yield from table.rows(Command(command), [folder / f'{name}.galley'])


def main():
    parser = argparse.ArgumentParser()
    parser.add_argument('command')
    parser.add_argument('--chapters', type=pathlib.Path)
    parser.add_argument('names', nargs='*', default=list(sources.DOCUMENTS))
    told = parser.parse_intermixed_args()  # options among the names
    command = pathlib.Path(told.command).resolve() if '/' in told.command else told.command
    for name in told.names:
        with tempfile.TemporaryDirectory() as folder:
            path = sources.prepare(name, pathlib.Path(folder))
            print('\n'.join(rows(command, path)), flush=True)
            if told.chapters:
                print('\n'.join(write_chapters(command, path, told.chapters)), flush=True)


if __name__ == '__main__':
    main()
