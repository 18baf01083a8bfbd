"""Chapters by a solver of integer programmes: how long the same page model takes that way, and that it has the same T.

    python3 bench/solver/solve.py [--solver cbc|glpsol] [--seconds N] GALLEY...   each galley by the solver and by the engine
    python3 bench/solver/solve.py [--solver cbc|glpsol] --check N                 N tiny galleys and more, drawn at random, also against a search of all lists

cbc (Debian's coinor-cbc) or glpsol (glpk-utils) is on PATH. BARLEYCHIME_LIB names the engine's archive, else it is proved and compiled. It is no
part of the gate: docs/SOLVERS.md has what it printed."""
import argparse
import pathlib
import re
import resource
import subprocess
import sys
import tempfile
import time

ROOT = pathlib.Path(__file__).resolve().parents[2]
sys.path[:0] = [str(ROOT / 'tests'), str(ROOT / 'bench/solver')]
import engine  # noqa: E402
from model import Programme  # noqa: E402
from reference import galley as galleys  # noqa: E402
from reference import marking, sample, search  # noqa: E402

SEED, FASTEST_OF = 20261120, 20


def cbc(file, seconds):
    """What it says, and the values of the variables that are not 0."""
    solution = file.with_suffix('.sol')
    limit = ['sec', str(seconds)] if seconds else []
    ran = subprocess.run(['cbc', file, 'ratio', '0', *limit, 'solve', 'solution', solution], capture_output=True, text=True)
    if not solution.is_file():
        return 'infeasible' if 'infeasible' in ran.stdout else ran.stdout[-300:], {}
    said, *rows = solution.read_text().splitlines()
    values = {fields[1]: float(fields[2]) for fields in (row.replace('**', '').split() for row in rows)}
    if said.startswith('Stopped'):
        return 'stopped', {}
    return 'optimal' if said.startswith('Optimal') else 'infeasible' if 'nfeasible' in said else said, values


def glpsol(file, seconds):
    solution = file.with_suffix('.sol')
    limit = ['--tmlim', str(seconds)] if seconds else []
    ran = subprocess.run(['glpsol', '--lp', file, *limit, '--write', solution], capture_output=True, text=True)
    if 'TIME LIMIT EXCEEDED' in ran.stdout:
        return 'stopped', {}
    if 'OPTIMAL SOLUTION FOUND' not in ran.stdout:
        none = 'NO PRIMAL FEASIBLE' in ran.stdout or 'NO INTEGER FEASIBLE' in ran.stdout or 'INFEASIBLE' in ran.stdout
        return 'infeasible' if none else ran.stdout[-300:], {}
    text = solution.read_text()
    if re.search(r'^s mip .* [nu] ', text, re.M) and not re.search(r'^s mip .* o ', text, re.M):
        return 'infeasible', {}
    named = subprocess.run(['glpsol', '--lp', file, '--check', '--wglp', '/dev/stdout'], capture_output=True, text=True).stdout
    names = {number: name for number, name in re.findall(r'^n j (\d+) (\S+)$', named, re.M)}
    return 'optimal', {names[number]: float(value) for number, value in re.findall(r'^j (\d+) (\S+)$', text, re.M)}


SOLVERS = {'cbc': cbc, 'glpsol': glpsol}


def processor_time():
    """Of the programs that were run from here."""
    return resource.getrusage(resource.RUSAGE_CHILDREN).ru_utime


def solved(galley, solver, seconds=None):
    """What the solver says, the page list that it found, its variables and rows, and the seconds of a processor that it took."""
    programme = Programme(galley)
    with tempfile.TemporaryDirectory() as folder:
        file = pathlib.Path(folder) / 'galley.lp'
        file.write_text(programme.text())
        began = processor_time()
        said, values = SOLVERS[solver](file, seconds)
        took = processor_time() - began
    size = len(programme.whole), len(programme.rows)
    return said, programme.words(values) if values and said != 'infeasible' else (), size, took


def made(called, data, galley):
    """The engine's answer, and the seconds of its fastest call."""
    lengths, fastest = engine.lengths(galley), float('inf')
    work, pages = (engine.lent((0,) * length) for length in lengths)
    for _ in range(FASTEST_OF):
        told = engine.told(engine.ANSWER_WORDS)
        began = time.process_time()
        returned = called.c.make(data, len(data), work, lengths[0], pages, lengths[1], told)
        fastest = min(fastest, time.process_time() - began)
    return engine.answered(returned, told)[0], fastest


def check(called, solver, count):
    """Tiny galleys of every kind: the solver finds a list exactly where one exists, marking accepts it, and it has as many turns as the
    engine's and as the best of all lists."""
    failed = 0
    some = [*sample.galleys(SEED, count, 5, 3), *sample.galleys(SEED + 1, count // 2, 3, 2, 2), *sample.left_galleys(SEED + 2, count // 4)]
    met = {'made': 0, 'none': 0}
    for number, galley in enumerate(some):
        best = search.best(galley)
        said, words, _, _ = solved(galley, solver)
        due = marking.mark(galley, best)[4] if best else None
        answer = called.make(galleys.write(galley), *((0,) * length for length in engine.lengths(galley)))[0]
        marked = marking.mark(galley, words) if words else ('none',)
        got = marked[4] if marked[0] == 'accepted' else None
        met['made' if best else 'none'] += 1
        by_engine = answer[4] if answer[0] == 'accepted' else None
        if not got == by_engine == due or (said == 'infeasible') != (best is None):
            failed += 1
            print(f'FAILED galley {number}: {said}, {words} is {marked}, due {due} by {best}; {galley}')
    print(f'{solver}: {met["made"]} with a list, {met["none"]} without')
    print(f'{len(some) - failed} passed, {failed} failed')
    return int(failed > 0)


def main():
    words = argparse.ArgumentParser(usage=__doc__)
    words.add_argument('--solver', choices=SOLVERS, default='cbc')
    words.add_argument('--seconds', type=int)
    words.add_argument('--check', type=int)
    words.add_argument('galleys', nargs='*', type=pathlib.Path)
    asked = words.parse_args()
    called = engine.Engine(engine.load(engine.archive()))
    if asked.check:
        return check(called, asked.solver, asked.check)
    print('| chapter | lines | figures | tables | variables | rows | T by the solver | T by the engine | solver | engine |\n|' + '---|' * 10)
    differ = 0
    for file in asked.galleys:
        data = file.read_bytes()
        galley = galleys.read(data)[1]
        said, list_words, (variables, rows), took = solved(galley, asked.solver, asked.seconds)
        answer, call = made(called, data, galley)
        marked = marking.mark(galley, list_words) if list_words else ('none',)
        turns = marked[4] if marked[0] == 'accepted' else 'none' if said == 'infeasible' else said
        due = answer[4] if answer[0] == 'accepted' else 'none'
        differ += turns != due and said != 'stopped'
        sizes = ' | '.join(map(str, (*galley.sizes, 0)[:3]))
        print(f'| {file.stem} | {sizes} | {variables} | {rows} | {turns} | {due} | {took:.2f} s | {call * 1e6:.0f} µs |', flush=True)
    return int(differ > 0)


if __name__ == '__main__':
    sys.exit(main())
