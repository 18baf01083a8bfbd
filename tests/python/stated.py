"""What the package states a second time, since it cannot read the header: limits, what the words of a desk are, the version. Refusals are
compared with the library's table where that is, in tests/host."""
import re

from barleychime import library
from engine import ROOT

HEADER = (ROOT / 'include/barleychime.h').read_text()


def constants():
    """The numbers of the header by their names, without its prefix: plain macros, sums of numbers, and the values of enums."""
    found = re.findall(r'^#define BARLEYCHIME_(\w+) ([^\n(]*\d+|\(\(size_t\)[\d +*]+\))$', HEADER, re.M)
    found += re.findall(r'^ +BARLEYCHIME_(\w+) = (\d+)', HEADER, re.M)
    return {name: eval(text.replace('(size_t)', ''), {'__builtins__': {}}) for name, text in found}


def run(tally):
    header = constants()
    ours = {name: value for name, value in vars(library).items() if name.isupper() and type(value) is int}
    tally.same('constants of the package', ours, {name: header.get(name) for name in ours})
    tally.same('there are some', len(ours) > 20, True)
    tally.group('what Python states')
