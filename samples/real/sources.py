"""Real documents whose sources Debian ships, made ready for LuaLaTeX with the package.

    python3 samples/real/sources.py NAME FOLDER

writes FOLDER/NAME.tex, which says \\usepackage{barleychime}, with all that it reads. A document is a row of DOCUMENTS: to add one, add a row.
`packages/install latex` installs LuaLaTeX and MetaPost's manuals; of another document the packages that are missing are named.
"""
import gzip
import os
import pathlib
import subprocess
import sys
from typing import NamedTuple


class Document(NamedTuple):
    packages: str  # Debian's, which have the sources and what they read
    folders: tuple  # of its sources, below /usr/share/doc/texlive-doc; NAME.tex is in the first
    first: tuple = ()  # commands that make what it reads
    then: tuple = ()  # the same, out of what its first run wrote
    replaced: tuple = ()  # pairs: what its source says, and what LuaLaTeX is to read
    preamble: str = ''  # said before its own


SOURCES = pathlib.Path('/usr/share/doc/texlive-doc')
METAPOST = ('texlive-metapost-doc', ('metapost/base/source-manual',))
METAPOST_INDEX = 'makeindex -c -s mpman.ist'
# Of memdesign's fonts Debian has few: draft sets the others in the font of the text, but for one that it forgets.
NO_BODONI = r'\AtBeginDocument{\DeclareFontFamily{T1}{bodoni}{}\DeclareFontShape{T1}{bodoni}{m}{n}{<->ssub*ppl/m/n}{}}'
DOCUMENTS = {
    'mpman': Document(*METAPOST, ('mpost -tex=tex mpman', 'mpost -tex=tex mpman-charts'), ('bibtex mpman', f'{METAPOST_INDEX} mpman')),
    'mpgraph': Document(*METAPOST, ('mpost -tex=tex mpgraph',), ('bibtex mpgraph', f'{METAPOST_INDEX} mpgraph')),
    'mpboxes': Document(*METAPOST, ('mpost -tex=tex mpboxes',), ('bibtex mpboxes', f'{METAPOST_INDEX} mpboxes')),
    'memman': Document('texlive-latex-recommended-doc', ('latex/memoir',), ('lualatex -interaction=batchmode trims-example',),
                       ('makeindex -s memman.ist memman', 'makeindex lines', 'makeindex -s memman.gst -o memman.gls memman.glo')),
    'memdesign': Document('texlive-lang-english texlive-latex-recommended-doc texlive-bibtex-extra', ('fonts/memdesign', 'latex/memoir'), (),
                          ('bibtex memdesign', 'makeindex memdesign'), ((r'\documentclass[10pt,', r'\documentclass[draft,10pt,'),), NO_BODONI),
}

# Double-sided, whatever the class says, as all real chapters here are; luatex85 has the names of pdfTeX's primitives.
WRAPPER = r'''\RequirePackage{luatex85}\def\pdftexversion{140}
%s
\input{%s-source}
'''
PACKAGE = r'''\PassOptionsToPackage{sides=2,trace=true}{barleychime}
\AddToHook{begindocument/before}{\usepackage{barleychime}}'''


LATEX = pathlib.Path(__file__).resolve().parents[2] / 'latex'
ENVIRONMENT = {**os.environ, 'TEXINPUTS': f'.:{LATEX}:'}  # so that TeX finds the package


def quiet(command, folder):
    return subprocess.run(command.split(), cwd=folder, env=ENVIRONMENT, stdin=subprocess.DEVNULL, stdout=subprocess.DEVNULL,
                          stderr=subprocess.DEVNULL, check=False)


def is_here(name):
    return all((SOURCES / folder).is_dir() for folder in DOCUMENTS[name].folders)


def copy(source, folder):
    """Debian packs what is large."""
    for path in (SOURCES / source).iterdir():
        if path.is_file():
            data = gzip.open(path).read() if path.suffix == '.gz' else path.read_bytes()
            (folder / path.name.removesuffix('.gz')).write_bytes(data)


def prepare(name, folder, package=PACKAGE):
    """NAME.tex in a folder, with what it reads; the bibliography is made by a first run. Its path."""
    document = DOCUMENTS[name]
    if not is_here(name):
        raise FileNotFoundError(f'the sources of {name} are not here: apt-get install --no-install-recommends {document.packages}')
    folder.mkdir(parents=True, exist_ok=True)
    for source in reversed(document.folders):
        copy(source, folder)
    text = (folder / f'{name}.tex').read_text(encoding='latin1')
    for before, after in ((r'\usepackage[latin1]{inputenc}', ''), *document.replaced):
        text = text.replace(before, after)
    (folder / f'{name}-source.tex').write_text(text, encoding='utf8')
    (folder / f'{name}.tex').write_text(WRAPPER % (f'{package}\n{document.preamble}'.strip(), name))
    for command in (*document.first, f'lualatex -interaction=batchmode {name}', *document.then):
        quiet(command, folder)
    return folder / f'{name}.tex'


if __name__ == '__main__':
    print(prepare(sys.argv[1], pathlib.Path(sys.argv[2])))
