"""What is installed of others, and what others install of this: Debian's packages, the tarball, `make install`, versions."""
import pathlib
import sys

sys.path.insert(0, str(pathlib.Path(__file__).resolve().parents[1]))

import counting
import installing
import tarball
import versions
from choice import chosen
from tally import Tally


CASES = {module.__name__: module for module in (installing, counting, versions, tarball)}


def main():
    tally = Tally()
    for case in chosen(CASES).values():
        case.check(tally)
    return tally.end()


if __name__ == '__main__':
    sys.exit(main())
