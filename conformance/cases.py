"""The cases of conformance/cases. CONTRIBUTING.md, "A case", tells what a case holds."""
import glob
import json
import os
import subprocess
import sys

HERE = os.path.dirname(os.path.abspath(__file__))
TOP = os.path.dirname(HERE)
BUILT = os.path.join(TOP, 'crates', 'dahlia', 'out', 'dahlia')
FIELDS = {'name', 'why', 'words', 'files', 'status', 'stdout', 'first_line', 'output', 'memory'}


class BadTable(Exception):
    """A table of cases breaks the format."""


def content(value):
    """The bytes that a value of a table stands for."""
    if isinstance(value, str):
        return value.encode()
    if 'hex' in value:
        return bytes.fromhex(value['hex'])
    if 'path' in value:
        with open(os.path.join(TOP, value['path']), 'rb') as file:
            return file.read()
    if 'numbered' in value:
        piece, count = value['numbered']
        pieces = (piece.replace('{this}', str(n)).replace('{next}', str(n + 1)) for n in range(count))
        return (value.get('prefix', '') + ''.join(pieces) + value.get('suffix', '')).encode()
    unit, count = value['repeat']
    return (value.get('prefix', '') + unit * count + value.get('suffix', '')).encode()


def words_of(case):
    """The words of a case; one that is not UTF-8 is given by its bytes."""
    return [word if isinstance(word, str) else content(word) for word in case['words']]


def check(case, table):
    """Raises BadTable where a case breaks the format."""
    name = case.get('name', '?')
    if set(case) - FIELDS or not {'name', 'words', 'files', 'status'} <= set(case):
        raise BadTable(f'{table}: {name}: fields {sorted(case)}')
    if sum(field in case for field in ('stdout', 'first_line', 'output')) != 1:
        raise BadTable(f'{table}: {name}: one of `stdout`, `first_line` and `output` is wanted')


def all_cases():
    """Each case of each table, with its table's name. Names differ."""
    cases, seen = [], set()
    for path in sorted(glob.glob(os.path.join(HERE, 'cases', '*'))):
        table = os.path.basename(path)
        if not table.endswith('.json'):
            raise BadTable(f'{table}: a file that no run reads')
        with open(path, encoding='utf-8') as file:
            rows = json.load(file)
        for case in rows:
            check(case, table)
            if case['name'] in seen:
                raise BadTable(f"{table}: a second case {case['name']}")
            seen.add(case['name'])
            cases.append((table[:-5], case))
    return cases


def unread_examples():
    """The programs of examples/ that no case runs."""
    read = {value['path'] for _, case in all_cases() for value in case['files'].values() if 'path' in value}
    here = {os.path.relpath(path, TOP) for path in glob.glob(os.path.join(TOP, 'examples', '*.fuse'))}
    return sorted(here - read)


def chosen(names):
    """The cases of these names, or of the tables that are so called; without names all of them."""
    cases = all_cases()
    known = {case['name'] for _, case in cases} | {table for table, _ in cases}
    missing = [name for name in names if name not in known]
    if missing:
        raise BadTable('no case and no table is called ' + ', '.join(missing))
    return [(t, c) for t, c in cases if not names or c['name'] in names or t in names]


def built_program():
    """The program of this checkout, built by the script `dahlia` where it is not up to date."""
    status = subprocess.run([os.path.join(TOP, 'dahlia')], stdin=subprocess.DEVNULL, stdout=subprocess.DEVNULL).returncode
    if status == 70 or not os.access(BUILT, os.X_OK):
        sys.exit('conformance: there is no program to run: `./dahlia` could not build it')
    return BUILT


def program_and_names(arguments):
    """What a runner's arguments name: a program, where the first holds a `/`, and cases. Where `--help` or `-h` is among
    them, what the runner's file says of it is printed, and nothing is built or run."""
    if '--help' in arguments or '-h' in arguments:
        print(sys.modules['__main__'].__doc__)
        raise SystemExit(0)
    if arguments and '/' in arguments[0]:
        return os.path.abspath(arguments[0]), arguments[1:]
    return built_program(), arguments


def write_files(case, folder):
    """Writes the files of a case into a folder."""
    for name, value in case['files'].items():
        with open(os.path.join(folder, name), 'wb') as file:
            file.write(content(value))
