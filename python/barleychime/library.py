"""The engine's shared library: where it is found, and its C functions, declared here and nowhere else.

The header `barleychime.h` says what each function does. The constants have the header's names without its prefix.
"""
from __future__ import annotations

import ctypes
import functools
import os
import pathlib
import subprocess
from typing import Any, Iterator

VERSION = 200
LONGEST_GALLEY = 76542
ANSWER_WORDS = 9
BOOK_WORDS = 8
FORECAST_WORDS = 6
MOST_PAPERS = 10000
REPORT_WORDS = 11
DESK_PAGES = 64
DESK_LIST_WORDS = 192
MOST_LAYOUTS = 8
LAYOUT_WORDS = 197
LONGEST_NAME = 16
DESK_WORDS = 1774
DESK_COUNT = 0
DESK_WIDTH = 1
DESK_PAGE = 2
DESK_END = 3
DESK_LIST = 6
DESK_LAYOUTS = 198
LAYOUT_NAME_LENGTH = 0
LAYOUT_NAME = 1
LAYOUT_LIST = 5

VARIABLE = 'BARLEYCHIME_SHARED'
FILE, SONAME = 'libbarleychime.so', 'libbarleychime.so.0'

WORD, WIDE, LENGTH = ctypes.c_uint32, ctypes.c_uint64, ctypes.c_size_t
LENT = ctypes.c_void_p
BYTES, WORDS = (ctypes.c_char_p, LENGTH), (LENT, LENGTH)


class LibraryMissing(OSError):
    """The shared library is not found, or is not of a version that this package can call."""


class Functions:
    """The functions of a library, by the header's names without its prefix. `making` names another function of making's type, which
    has a namesake that takes an opening."""

    def __init__(self, library: ctypes.CDLL, making: str = 'barleychime_make') -> None:
        def declared(name: str, *parameters: Any) -> Any:
            function = library[name]
            function.argtypes, function.restype = parameters, WORD
            return function

        at_desk = (LENT, LENT)  # the desk and the answer
        self.version = declared('barleychime_version')
        self.make = declared(making, *BYTES, *WORDS, *WORDS, LENT)
        self.make_after = declared(f'{making}_after', *BYTES, *WORDS, *WORDS, *WORDS, LENT)
        self.book = declared('barleychime_book', *BYTES, *WORDS, *WORDS, *WORDS, LENT)
        self.mark = declared('barleychime_mark', *BYTES, *WORDS, LENT)
        self.forecast = declared('barleychime_forecast', *BYTES, LENT)
        self.report = declared('barleychime_report', *WORDS, LENT)
        self.section = declared('barleychime_section', WORD, LENT, LENT)
        self.desk_open = declared('barleychime_desk_open', *BYTES, *WORDS, *at_desk)
        self.desk_ask = declared('barleychime_desk_ask', *BYTES, WORD, LENT, *at_desk)
        self.desk_commit = declared('barleychime_desk_commit', *at_desk)
        self.desk_save = declared('barleychime_desk_save', *BYTES, *at_desk)
        self.desk_back = declared('barleychime_desk_back', *BYTES, *at_desk)
        self.desk_drop = declared('barleychime_desk_drop', *BYTES, *at_desk)
        self.desk_list = declared('barleychime_desk_list', LENT, *at_desk)


@functools.lru_cache(maxsize=None)
def functions() -> Functions:
    """The functions of the library that is found, looked for once."""
    for path in places():
        try:
            return fit(path, Functions(ctypes.CDLL(path)))
        except AttributeError as error:
            raise LibraryMissing(f'{path} is older than version {figures(VERSION)}: {error}') from None
        except LibraryMissing:
            raise
        except OSError as error:
            if os.environ.get(VARIABLE):
                raise LibraryMissing(f'{path}, which {VARIABLE} names, cannot be loaded: {error}') from None
    raise LibraryMissing(f'{FILE} is not found: `make` in the project builds it, `make install` installs it, and {VARIABLE} names one that '
                         'stands elsewhere')


def places() -> Iterator[str]:
    """Where the library may be: the file that the variable names and no other; else beside this package, in the project's own tree,
    where pkg-config says that it is installed, and where the system looks."""
    named = os.environ.get(VARIABLE)
    if named:
        yield named
        return
    here = pathlib.Path(__file__).resolve().parent
    folders = [here]
    if (here.parent / 'pyproject.toml').is_file():
        folders.append(here.parents[1] / 'target' / 'shared')
    folders += installed()
    yield from (str(folder / FILE) for folder in folders if (folder / FILE).is_file())
    yield SONAME


def installed() -> list[pathlib.Path]:
    """The folder of the library that `make install` told pkg-config of."""
    try:
        told = subprocess.run(['pkg-config', '--variable=libdir', 'barleychime'], capture_output=True, text=True, check=True)
    except (OSError, subprocess.CalledProcessError):
        return []
    return [pathlib.Path(told.stdout.strip())]


def fit(path: str, found: Functions) -> Functions:
    """The functions, if their version is this one or a later one of the same major number."""
    version = found.version()
    if version < VERSION or version // 10000 != VERSION // 10000:
        raise LibraryMissing(f'{path} has version {figures(version)}, and this package calls {figures(VERSION)}')
    return found


def figures(version: int) -> str:
    """A version as people write it: 0.2.0 for 200."""
    return f'{version // 10000}.{version // 100 % 100}.{version % 100}'
