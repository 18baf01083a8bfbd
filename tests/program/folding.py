"""The program `folding` against the formulas, and the formulas against what document 02 says of them. The last line is
'N passed, M failed'."""
import pathlib
import subprocess
import sys

ROOT = pathlib.Path(__file__).resolve().parents[2]
sys.path.insert(0, str(ROOT / 'tests'))
from reference import folding  # noqa: E402
from choice import chosen  # noqa: E402
from tally import Tally  # noqa: E402

PROGRAM = ROOT / 'crates/folding/out/folding'


def formulas(tally):
    tally.same('numbers in all', len(folding.table()), 544)
    for n in folding.SIZES:
        pages = folding.section(n)
        tally.same(f'every page of {n} once', sorted(pages), list(range(1, n + 1)))
        tally.same(f'left and right of {n}', {left + right for left, right in zip(pages[::2], pages[1::2])}, {n + 1})
    tally.group('the formulas')


def program(tally):
    due = ''.join(f'{number}\n' for number in folding.table())
    for given in (b'', b'8\n'):
        ran = subprocess.run([PROGRAM], input=given, capture_output=True, check=False)
        tally.same(f'the program, given {given}', (ran.returncode, ran.stdout.decode(), ran.stderr), (0, due, b''))
    tally.same('its expected output', (ROOT / 'crates/folding/stdout').read_text(), due)
    tally.group('the program')


def main():
    tally = Tally()
    for case in chosen({'formulas': formulas, 'program': program}).values():
        case(tally)
    return tally.end()


if __name__ == '__main__':
    sys.exit(main())
