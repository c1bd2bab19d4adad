#!/usr/bin/env python3
"""Writes what the sources hold of the names that this implementation gives, from docs/names.tsv and docs/primitives.tsv;
--check compares it, blanks aside, and names what differs.

A row of names.tsv is a name: its constant, the library that it stands in (two, where `(rnrs syntax-case)` has a name of
`(rnrs base)` too), whether it is a keyword of expansion itself (`core`), one that the derived library defines (`derived`, with
the place of its definition there, from 0) or the name of a procedure or another variable (`variable`). The number of a name is
its place among the rows, so those of a library stand together. A row of primitives.tsv is a primitive of expansion time: its
table, its row there, the least and the most arguments (`-` where there is no limit), and its name.

What is written: the constants, the texts and their table in the definitions, which names are keywords, what each library
exports, which definition each derived name has, the three tables of primitives, and the slots by which they are found.
`rattle fmt --write` lays it out.
"""
import os, re, sys

top = os.path.dirname(os.path.dirname(os.path.abspath(__file__)))
LIBRARIES = ['(rnrs base)', '(rnrs lists)', '(rnrs control)', '(rnrs syntax-case)', '(rnrs exceptions)', '(rnrs io simple)',
             '(rnrs hashtables)', '(rnrs sorting)', '(rnrs files)', '(rnrs programs)', '(rnrs records procedural)',
             '(rnrs records syntactic)']
# The libraries whose names `(rnrs)` doesn't have.
APART = ['(rnrs records procedural)', '(rnrs records syntactic)']
TABLES = ['lists', 'numbers', 'texts']


def rows_of(name):
    """The rows of a table of this folder, without its head, by their cells."""
    with open(os.path.join(top, 'docs', name), encoding='utf-8') as rows:
        return [row.rstrip('\n').split('\t') for row in rows if row.strip()][1:]


def camel(library):
    """`(rnrs io simple)` as `IoSimple`."""
    return ''.join(word.capitalize() for word in re.split(r'[ -]', library.strip('()'))[1:])


def runs(numbers):
    """Numbers in order as runs, each with its first and its last."""
    found = []
    for number in numbers:
        if found and found[-1][1] + 1 == number:
            found[-1][1] = number
        else:
            found.append([number, number])
    return found


class Names:
    def __init__(self):
        self.rows = rows_of('names.tsv')
        self.texts = [row[0] for row in self.rows]
        self.constants = [row[1] for row in self.rows]
        self.libraries = [re.findall(r'\([^)]*\)', row[2]) for row in self.rows]
        self.kinds = [row[3].split() for row in self.rows]
        self.number = {text: number for number, text in enumerate(self.texts)}
        homes = [LIBRARIES.index(libraries[0]) for libraries in self.libraries]
        if homes != sorted(homes) or len(self.number) != len(self.rows):
            sys.exit('names.tsv: each name stands once, and those of a library stand together, in the order of the libraries')

    def before(self, number, count):
        """The constant of a number, or that of how many there are."""
        return self.constants[number] if number < len(self.rows) else count

    def library_runs(self, library):
        """The names of a library as runs: its own, then those of `(rnrs base)` that it has too."""
        own = [n for n, libraries in enumerate(self.libraries) if libraries[0] == library]
        shared = [n for n, libraries in enumerate(self.libraries) if library in libraries[1:]]
        return runs(own) + runs(shared)

    def whole_run(self):
        """The names of `(rnrs)`."""
        return runs([n for n, libraries in enumerate(self.libraries) if libraries[0] not in APART])

    def keyword_runs(self):
        return runs([n for n, kind in enumerate(self.kinds) if kind[0] != 'variable'])

    def derived(self):
        """The name that each definition of the derived library is exported by, or none."""
        places = {int(kind[1]): n for n, kind in enumerate(self.kinds) if kind[0] == 'derived'}
        return [places.get(place) for place in range(max(places) + 1)]


def constants(names):
    return ''.join(f'\npub const {constant}: u16 = {number};\n' for number, constant in enumerate(names.constants))


def is_keyword(names):
    """Whether a number is that of a keyword, in Rattle and in the definitions."""
    code, spec = [], []
    for first, last in names.keyword_runs():
        low, high = names.constants[first], names.constants[last]
        if first == 0:
            code.append(f'n <= names::{high}')
            spec.append(f'nat_le n names.{high}')
        elif last - first < 2:
            code += [f'n == names::{names.constants[n]}' for n in range(first, last + 1)]
            spec += [f'n == names.{names.constants[n]}' for n in range(first, last + 1)]
        else:
            code.append(f'(names::{low} <= n && n <= names::{high})')
            spec.append(f'(nat_le names.{low} n && nat_le n names.{high})')
    return ' || '.join(code), ' || '.join(spec)


def run_constants(names):
    """Each run of library.rt by its name there."""
    found = {'RNRS': names.whole_run()[0]}
    for library in LIBRARIES:
        own, *shared = names.library_runs(library)
        found['_'.join(re.split(r'[ -]', library.strip('()'))[1:]).upper()] = own
        for run in shared:
            found['ELLIPSIS_AND_UNDERSCORE'] = run
    return found


def library_runs(names):
    def text(run):
        end = names.before(run[1] + 1, None)
        return f'run names.{names.constants[run[0]]} ' + (f'names.{end}' if end else 'name_count') + ' ∷ '
    rows = ['library_runs l.Rnrs = ' + ''.join(map(text, names.whole_run())) + '[]']
    rows += [f'library_runs l.{camel(it)} = ' + ''.join(map(text, names.library_runs(it))) + '[]' for it in LIBRARIES]
    return '\n'.join(rows)


def primitives(names, table):
    rows = [row for row in rows_of('primitives.tsv') if row[0] == table]
    items = [f'Primitive {{ op: names::{names.constants[names.number[name]]}, row: rows::{row}, least: {least}, '
             f'most: {"None" if most == "-" else f"Some({most})"}, }},' for _, row, least, most, name in rows]
    return len(rows), '\n'.join(items)


def slots(names):
    """For each op its place in the tables of primitives, one behind the other, counted from 1; 0 where it has none."""
    rows = [row for table in TABLES for row in rows_of('primitives.tsv') if row[0] == table]
    place = {}
    for at, row in enumerate(rows, 1):
        place.setdefault(names.number[row[4]], at)
    return [place.get(op, 0) for op in range(max(place) + 1)]


def pieces(names):
    """Each piece: its file below crates/, a pattern whose first group stands before it and whose last stands behind, and its text."""
    code, spec = is_keyword(names)
    derived = names.derived()
    yield 'base_data/src/op/names.rt', r'(`UNDERSCORE`\.\n)(.*)(\Z)', constants(names)
    yield 'base_data/src/op.rt', r'(pub const NAME_COUNT: u16 = )(\d+)(;)', str(len(names.rows))
    yield 'base_data/src/op.rt', r'(pub const OP_NAMES: [^=]* = \[\n)(.*?)(\];)', ''.join(f'    "{text}",\n' for text in names.texts)
    yield 'base_data/src/op.rt', r'(let n = self\.0;\n)(.*?)(\n    \})', code
    yield ('base_data/specs/OpNames.antt', r'(op_rows =\n)(.*?)(\n\n|\Z)',
           ' ∷\n'.join(f'    (names.{c}, codes "{t}")' for c, t in zip(names.constants, names.texts)) + ' ∷ []')
    yield 'base_data/specs/Op.antt', r'(is_keyword n =\n)(.*?)(\n\n|\n\Z)', '    ' + spec
    for name, (first, last) in run_constants(names).items():
        end = names.before(last + 1, None)
        yield ('load_builtin/src/library.rt', rf'(const {name}: Run = Run \{{\n)(.*?)(\n\}};)',
               f'    from: names::{names.constants[first]},\n    to: ' + (f'names::{end},' if end else 'NAME_COUNT,'))
    yield 'load_builtin/specs/Libraries.antt', r'(library_runs : Library → List Run\n)(.*?)(\n\n)', library_runs(names)
    yield ('load_builtin/src/exports.rt', r'(pub const DERIVED: )(.*?)(;\n\n)', f'[Option<u16>; {len(derived)}] = [\n'
           + ''.join('    None,\n' if n is None else f'    Some(names::{names.constants[n]}),\n' for n in derived) + ']')
    yield ('load_builtin/specs/Exports.antt', r'(derived =\n)(.*?)(\n\n)',
           '    ' + ' ∷ '.join('None' if n is None else f'Some names.{names.constants[n]}' for n in derived) + ' ∷ []')
    for table in TABLES:
        count, items = primitives(names, table)
        yield (f'eval_prims/src/primitive/{table}.rt', rf'(pub const {table.upper()}: )(.*?)(;\n*\Z)', f'[Primitive; {count}] = [\n{items}\n]')
    found = slots(names)
    yield ('eval_prims/src/primitive/slots.rt', r'(pub const SLOTS: )(.*?)(;\n*\Z)',
           f'[u8; {len(found)}] = [\n    ' + ', '.join(map(str, found)) + ',\n]')


def plain(text):
    return ' '.join(text.split())


def main():
    check = sys.argv[1:] == ['--check']
    differs = False
    for file, pattern, text in pieces(Names()):
        path = os.path.join(top, 'crates', file)
        with open(path, encoding='utf-8') as source:
            whole = source.read()
        found = re.search(pattern, whole, re.S)
        if found is None:
            sys.exit(f'{file}: nothing stands where `{pattern}` was')
        if plain(found[2]) == plain(text):
            continue
        differs = True
        if check:
            print(f'{file}: not what names.tsv and primitives.tsv give: docs/names.py writes it', file=sys.stderr)
        else:
            with open(path, 'w', encoding='utf-8') as source:
                source.write(whole[:found.start(2)] + text + whole[found.end(2):])
            print(f'written: {file}')
    sys.exit(1 if check and differs else 0)


if __name__ == '__main__':
    main()
