#!/usr/bin/env python3
"""Brings the names of definitions and lemmas in the pages to snake case: those that port_names.py did not turn, since port.py had turned them in the
sources already, and the pages had not followed.

usage: tools/port_docs.py        at the top of the repository, once, after port_names.py

A name in `backticks` that no text of crates/ has, and whose snake case some text of crates/*/specs or crates/*/proofs has, gets that.
"""
import pathlib
import re

import port_names

HISTORY = pathlib.Path('docs/history')


def main():
    there = set()
    for path, text in port_names.texts(['crates'], ('.antt', '.rt')):
        there |= set(port_names.TOKEN.findall(text)) | set(re.findall(r'\w+', text))

    def word(match):
        name = match[0]
        to = port_names.turned(name)
        return to if name not in there and to != name and to in there else name

    changed = 0
    for path in [pathlib.Path('README.md'), pathlib.Path('CHANGELOG.md'), *sorted(pathlib.Path('docs').rglob('*.md'))]:
        if HISTORY in path.parents or path.name == 'PORT.md':
            continue
        text = path.read_text()
        new = port_names.SPAN.sub(lambda span: port_names.TOKEN.sub(word, span[0]), text)
        if new != text:
            path.write_text(new)
            changed += 1
    print(f'port_docs: {changed} files')


if __name__ == '__main__':
    main()
