"""Tests of what people use: the archive behind the C header, the command, the samples, the table of real chapters.

BARLEYCHIME_LIB names the archive; without it target/staticlib/libbarleychime.a is taken. The last line is
'N passed, M failed'. To try the tests themselves without the proved archive, over the plain Rust of bench/native:

    cargo build --release --offline --manifest-path tests/host/standin/Cargo.toml
    export BARLEYCHIME_LIB=tests/host/standin/target/release/libbarleychime.a
    export BARLEYCHIME_PROGRAM=tests/host/standin/target/release/paginate
    python3 tests/host/run.py

Cases are named as arguments. The tests of marking, making, report and program take them too.
"""

import inspect
import os
import subprocess
import sys
import tempfile
from pathlib import Path

ROOT = Path(__file__).resolve().parents[2]
PROVED = ROOT / 'target/staticlib/libbarleychime.a'
sys.path.insert(0, str(ROOT / 'tests'))
sys.path.insert(0, str(ROOT / 'tests' / 'host'))

import archive  # noqa: E402
import bad_input  # noqa: E402
import book  # noqa: E402
import c_interface  # noqa: E402
import command_line  # noqa: E402
import course  # noqa: E402
import desk  # noqa: E402
import documents  # noqa: E402
import examples  # noqa: E402
import explain  # noqa: E402
import fold  # noqa: E402
import for_programs  # noqa: E402
import forecast  # noqa: E402
import make_advise  # noqa: E402
import make_after  # noqa: E402
import make_out  # noqa: E402
import options  # noqa: E402
import pack  # noqa: E402
import refusals  # noqa: E402
import report  # noqa: E402
import samples  # noqa: E402
import stack  # noqa: E402
import table  # noqa: E402
from choice import chosen  # noqa: E402
from command import Command  # noqa: E402
from tally import Tally  # noqa: E402


# Each is named for what it tests, most for a command or an option of it.
CASES = {module.__name__: module for module in (
    c_interface, archive, command_line, refusals, options, bad_input, for_programs, make_advise, pack, explain, forecast, make_out,
    make_after, book, report, desk, examples, samples, course, documents, table, stack, fold)}


def main():
    cases, tally = chosen(CASES), Tally()
    os.environ['NO_COLOR'] = '1'  # what is said on a terminal is compared word by word; options.py has colour
    library = Path(os.environ.get('BARLEYCHIME_LIB') or PROVED).resolve()
    if not library.is_file():
        print(f'FAILED {library} is not there')
        print('0 passed, 1 failed')
        return 1
    command = Command.built(ROOT, library)
    with tempfile.TemporaryDirectory() as name:
        given = {'tally': tally, 'command': command, 'root': ROOT, 'library': library, 'folder': Path(name)}
        for case in cases.values():
            if case is stack and library != PROVED.resolve():  # the header's figures are the proved archive's
                continue
            case.run(*(given[asked] for asked in inspect.signature(case.run).parameters))
    return tally.end()


if __name__ == '__main__':
    try:
        sys.exit(main())
    except (OSError, subprocess.SubprocessError) as error:
        print(f'FAILED {error}')
        print('0 passed, 1 failed')
        sys.exit(1)
