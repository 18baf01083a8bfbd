"""The Python package: its calls against the reference, what it states against the header, its types, and how it is installed.

BARLEYCHIME_SHARED names the shared library, else it is made from the archive that is tested. The last line is 'N passed, M failed'.
"""
import os
import pathlib
import sys
import tempfile

sys.path.insert(0, str(pathlib.Path(__file__).resolve().parents[1]))

import engine  # noqa: E402, which puts the package on the path
import called  # noqa: E402
import installed  # noqa: E402
import stated  # noqa: E402
from choice import chosen  # noqa: E402
from tally import Tally  # noqa: E402


CASES = {'called': lambda tally, _: called.run(tally), 'stated': lambda tally, _: stated.run(tally), 'installed': installed.run}


def main():
    cases, tally = chosen(CASES), Tally()
    with tempfile.TemporaryDirectory() as name:
        folder = pathlib.Path(name)
        if not os.environ.get('BARLEYCHIME_SHARED'):
            os.environ['BARLEYCHIME_SHARED'] = str(engine.shared(engine.archive(), folder / 'libbarleychime.so'))
        for case in cases.values():
            case(tally, folder)
    return tally.end()


if __name__ == '__main__':
    sys.exit(main())
