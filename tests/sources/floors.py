"""The floors of crates.txt: what a crate lists, what its files name, and which floors a floor may touch.

A heading is `# Floor` or `# Floor over Floor, Floor`; below it stand the floor's crates, each with the crates that it names itself.
"""
import re

HEADING = re.compile(r'# (\w+)(?: over ([\w, ]+))?')
CRATE = re.compile(r'(\w+)(?: staticlib)?:(.*)')
GHOST = re.compile(r'(?<![\w.])Rattle\.(\w+)')
CODE = re.compile(r'(?<![\w:·.])([a-z]\w*)::')
KIT = {'check', 'libc', 'io', 'os', 'bytes', 'anyhow'} # std is always there, and never listed

# What only the code generated from a crate's proofs names, and why: crate, dependency.
GENERATED = set()


class Floor:
    """A floor: the floors that it may touch besides itself, and its crates in order."""

    def __init__(self, name, over):
        self.name, self.over, self.crates = name, over, []


def floors_of(text):
    """The floors of crates.txt in order, and the crates that each crate lists."""
    floors, listed = [], {}
    for line in text.split('\n'):
        heading, crate = HEADING.fullmatch(line), CRATE.match(line)
        if heading:
            floors.append(Floor(heading[1], re.findall(r'\w+', heading[2] or '')))
        elif crate:
            floors[-1].crates.append(crate[1])
            listed[crate[1]] = crate[2].split()
    return floors, listed


def named(sources, crates):
    """The crates, of the project and of the kit, that the files of each crate name."""
    found, own = {}, {}
    for source in sources:
        if source.is_code:
            own.setdefault(source.crate, set()).update(re.findall(r'^\s*(?:pub )?mod (\w+)', source.body, re.M))
    for source in sources:
        text = '\n'.join([source.body, *(f'{use.path}::' if source.is_code else use.path for use in source.uses)])
        brought = {name for use in source.uses if '::' in use.path for name in (use.path.split('::')[-1], *(known for _, known in use.names))}  # as std::io
        names = set(GHOST.findall(text)) | (set(CODE.findall(text)) - own[source.crate] - brought if source.is_code else set())
        found.setdefault(source.crate, set()).update(names & (set(crates) | KIT) - {source.crate})
    return found


def unlisted(listed, sources):
    """Dependencies that are listed for nothing, and such as are named and not listed."""
    for crate, names in named(sources, listed).items():
        wanted = names | {dependency for owner, dependency in GENERATED if owner == crate}
        for dependency in sorted(wanted ^ set(listed.get(crate, ()))):
            yield f'crates.txt: {crate} ' + (f'names {dependency} and does not list it' if dependency in wanted
                                             else f'lists {dependency}, which none of its files names')


def upward(floors, listed):
    """Floors that reach up: a heading that names no floor above it, a crate over one that its floor may not touch or that comes later."""
    floor_of = {crate: floor for floor in floors for crate in floor.crates}
    order = list(listed)
    for at, floor in enumerate(floors):
        for below in set(floor.over) - {other.name for other in floors[:at]}:
            yield f'crates.txt: the floor {floor.name} stands over {below}, which is no floor below it'
    for crate, names in listed.items():
        for name in names:
            here, there = floor_of[crate], floor_of.get(name)
            if there and there is not here and there.name not in here.over:
                yield f'crates.txt: {crate}, on the floor {here.name}, reaches up to {name}: {here.name} may not touch {there.name}'
            elif there and order.index(crate) < order.index(name):
                yield f'crates.txt: {crate} stands before {name}, which it lists'


def untold(floors, architecture):
    """A table of docs/ARCHITECTURE.md whose floor or crates are not those of crates.txt, in its order."""
    chapter = architecture.split('## The crates')[1].split('\n## ')[0]
    told = [(name, re.findall(r'^\| `crates/(\w+)` \|', table, re.M))
            for name, table in re.findall(r'^\*\*(\w+)\*\*(.*?)(?=^\*\*|\Z)', chapter, re.M | re.S)]
    there = [(floor.name, floor.crates) for floor in floors]
    for (name, crates), (floor, stand) in zip(told, there):
        if (name, crates) != (floor, stand):
            yield f'docs/ARCHITECTURE.md, The crates: {name} has {" ".join(crates)}, where crates.txt has {floor} with {" ".join(stand)}'
    if len(told) != len(there):
        yield f'docs/ARCHITECTURE.md, The crates: {len(told)} floors, where crates.txt has {len(there)}'


def faults(text, sources, architecture):
    floors, listed = floors_of(text)
    return [*unlisted(listed, sources), *upward(floors, listed), *untold(floors, architecture)]
