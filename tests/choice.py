"""The cases of a part: all of them, or those that the arguments of its program name. With `--list` their names are printed, one a line,
and nothing is run; a name that is not there ends the program with status 2 and the names that are."""
import sys


def chosen(cases, arguments=None):
    """What of a table from names to cases is asked for, in its own order."""
    asked = sys.argv[1:] if arguments is None else arguments
    if asked == ['--list']:
        print(*cases, sep='\n')
        sys.exit(0)
    for name in asked:
        if name not in cases:
            print(f'there is no case {name}; the cases are: {", ".join(cases)}', file=sys.stderr)
            sys.exit(2)
    return {name: case for name, case in cases.items() if not asked or name in asked}
