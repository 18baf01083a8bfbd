"""The names that the sources declare, bring in and cite: enough of antt's and Rattle's syntax to follow a name from file to file."""
import pathlib
import re

USE = re.compile(r'^\s*(?:pub )?(?:ghost )?use\s+([^\s{;]+?)(?:(?:\.|::)\{(.*?)\})?(?: as ([^\s;]+))?;?\s*$', re.S)
SIGNATURE = re.compile(r'^(\s*)(?:unfoldable |abbrev |pub )*((?:record|data) )?([^\s(){}:,;]+)((?: [({].*)?) ?:(?: |$)')
CRATE_PATH = re.compile(r'Rattle\.([^.]+)\.(.*)$')
ATTRIBUTE = re.compile(r'^\s*#\[tactic\((.*)\)\]\s*$')
CITED = re.compile(r'(\w+)((?:::\w+)+)::(\w+)')
WORD = re.compile(r'[^\s(){}\[\],;«»]+')
KEYWORDS = {'module', 'mod', 'open', 'let', 'in', 'where', 'λ', 'elim', 'record', 'data', 'unfolding'}


class Use:
    """A `use`: the path, the names that it brings in (each with the name it goes by), or the name that the module goes by."""

    def __init__(self, path, names, alias, line):
        self.path, self.names, self.alias, self.line = path, names, alias, line


class Declaration:
    """A definition, law, record or data type, on lines first to last of its file; `inner` are its constructors and fields."""

    def __init__(self, name, depth, first, last, is_type):
        self.name, self.depth, self.first, self.last, self.is_type = name, depth, first, last, is_type
        self.inner = set()


class Source:
    def __init__(self, path, crates, text=None):
        self.path = path
        self.crate = path.relative_to(crates).parts[0]
        self.is_code = path.suffix == '.rt'
        self.is_proof = of_function(path.relative_to(crates).parts)
        self.module = '.'.join(path.relative_to(crates).with_suffix('').parts[1:])
        self.uses, self.lines = [], []
        self.split((path.read_text() if text is None else text).split('\n'))
        self.declarations = [] if self.is_code else outermost(list(self.declared()))
        self.body = '\n'.join(self.lines)

    def split(self, lines):
        """The `use` lines apart from the others, and every comment left out."""
        at = 0
        while at < len(lines):
            line, first = uncommented(lines[at], self.is_code), at
            if re.match(r'\s*(?:pub )?(?:ghost )?use\s', line):
                while line.count('{') > line.count('}'):
                    at += 1
                    line += ' ' + lines[at].strip()
                path, names, alias = USE.match(line).groups()
                pairs = [tuple(p.strip() for p in name.split(' as ')) for name in (names or '').split(',') if name.strip()]
                self.uses.append(Use(path, [(p[0], p[-1]) for p in pairs], alias, first + 1))
                line = ''
            attribute = ATTRIBUTE.match(line) if self.is_code else None
            if attribute: # the laws and definitions that a function's attribute names, by their paths
                for crate, modules, name in CITED.findall(attribute.group(1)):
                    path = f'Rattle.{self.crate if crate == "crate" else crate}{modules.replace("::", ".")}'
                    self.uses.append(Use(path, [(name, name)], None, first + 1))
            self.lines += [line] + [''] * (at - first)
            at += 1

    def declared(self):
        for first, line in enumerate(self.lines):
            match = SIGNATURE.match(line)
            if not match or match.group(3) in KEYWORDS or match.group(4) and not match.group(2):
                continue
            depth, name = len(match.group(1)), match.group(3)
            last = first + 1
            while last < len(self.lines) and self.goes_on(self.lines[last], name, depth):
                last += 1
            found = Declaration(name, depth, first, last, bool(match.group(2)))
            if found.is_type:
                for inner in self.lines[first + 1:last]:
                    named = re.match(r'\s*(?:pub )?([^:]+?) :', inner)
                    found.inner.update(named.group(1).split() if named else ())
            yield found

    @staticmethod
    def goes_on(line, name, depth):
        """Whether a line belongs to the declaration above it: it is indented further, or is another of its clauses."""
        indent = len(line) - len(line.lstrip())
        if not line.strip() or indent > depth:
            return True
        if indent < depth:
            return False
        again = SIGNATURE.match(line)
        first = WORD.match(line.strip())
        if first and first.group(0) in ('unfolding', '→', '≡', '×', '↔', 'where'):
            return True
        if again and again.group(3) != name and not again.group(4):
            return False
        return bool(first) and (first.group(0) == name or is_operator(name) and all(part in line.split('=')[0] for part in name.split('◌')))

    def owner(self, line):
        """The declaration that a line stands in."""
        return next((d for d in self.declarations if d.first <= line < d.last), None)

    def words(self, line):
        for match in WORD.finditer(line):
            word = match.group(0)
            yield word.rstrip('.')
            yield from re.split(r'\W+', word) if self.is_code else word.split('.')

    def cites(self, name, line):
        """Whether a line has a name, which may be an operator with places for its arguments."""
        parts = [part for part in name.split('◌') if part]
        return all(part in line for part in parts) if is_operator(name) or name == '[]' else name in self.words(line)


def is_operator(name):
    return '◌' in name


def of_function(parts):
    """Whether a file of a crate belongs to the proof of a function: laws stand in proofs/laws, or in a file right below proofs/."""
    return len(parts) > 3 and parts[1] == 'proofs' and parts[2] != 'laws'


def uncommented(line, is_code):
    mark = '//' if is_code else '--'
    at = line.find(mark)
    while at > 0 and not line[at - 1].isspace():
        at = line.find(mark, at + 1)
    return line if at < 0 else line[:at]


def outermost(declarations):
    """Those that stand in no other: what a `where` declares belongs to the declaration above it."""
    return [d for d in declarations if not any(o.first < d.first and d.last <= o.last and o.depth < d.depth for o in declarations)]


def read(crates, changed=None):
    """All sources; `changed` gives other texts for some of the paths."""
    changed = changed or {}
    paths = sorted(p for part in ('src', 'specs', 'proofs') for p in pathlib.Path(crates).glob(f'*/{part}/**/*') if p.suffix in ('.rt', '.antt'))
    return [Source(path, crates, changed.get(path)) for path in paths]
