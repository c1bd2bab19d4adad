#!/usr/bin/env python3
"""Writes docs/LAWS.md from the doc comments of the public laws and functions of all crates; --check compares it, and
tells which rows and lists of the documents are too long to read.

A law is a public function without parameters and answer that ensures something. Laws and other functions are listed
with the first paragraph of the comment that stands above them: of a law all of it, of a function its first sentence.
What has no comment, as an accessor, or only makes another owner of a value, is left out. A long comment is a list.
"""
import glob, os, re, sys, textwrap

top = os.path.dirname(os.path.dirname(os.path.abspath(__file__)))
page = os.path.join(top, 'docs', 'LAWS.md')
# The most columns of a row, words of a bullet, and rows of docs/THEOREMS.md.
WIDTH = 110
WORDS = 60
THEOREMS = 120

HEAD = '''# The laws

`docs/laws.py` writes this page from the comments in the sources, and `.ci/run` compares it. It lists what
`rt ci` proves, crate by crate, lowest first:

- a *law* is a public function without parameters and answer, whose clause is the statement;
- a *function* has clauses on its answer. Nearly all say that it is exactly what a definition in `specs/`
  gives, fault and place included; a call that allocates may also answer that memory ran out.

A name such as `laws::changes_compose` is a path within its crate. Where a comment and a clause differ, the
clause is what is proved. `docs/THEOREMS.md` has the eleven that matter most, `docs/GLOSSARY.md` the words.
'''


def crates():
    """The crates of crates.txt, lowest first."""
    with open(os.path.join(top, 'crates.txt'), encoding='utf-8') as rows:
        return [row.split(':')[0].split()[0] for row in rows if row.strip() and not row.startswith('#')]


def sources(folder):
    """The modules that other crates can name, the root first, each with its path and its rows."""
    found = []

    def take(module, path):
        with open(path, encoding='utf-8') as text:
            rows = text.read().split('\n')
        found.append((module, rows))
        for row in rows:
            below = re.match(r'(pub )?mod (\w+);', row)
            if below and (below.group(1) or any(re.match(rf'pub use (crate::)?{below.group(2)}::', r) for r in rows)):
                inner = f'{module}::{below.group(2)}' if module else below.group(2)
                stem = os.path.join(folder, *inner.split('::'))
                take(inner, stem + '.rt' if os.path.exists(stem + '.rt') else os.path.join(stem, 'mod.rt'))

    root = os.path.join(folder, 'lib.rt')
    if os.path.exists(root):
        take('', root)
    return found


def first_sentence(text):
    """A text up to its first full stop that ends a sentence."""
    found = re.match(r'((?:`[^`]*`|[^`])*?\.)(?=\s+[A-Z`]|$)', text)
    return found.group(1) if found else text


def comment_above(rows, at):
    """The first paragraph of the doc comment above a row; attributes may stand between."""
    at -= 1
    while at >= 0 and rows[at].strip().startswith('#['):
        at -= 1
    words = []
    while at >= 0 and rows[at].strip().startswith('///'):
        words.insert(0, rows[at].strip()[3:].strip())
        at -= 1
    return ' '.join(words[:words.index('')] if '' in words else words)


def signature(rows, at, indent):
    """The rows of a function from its name to its body."""
    taken = []
    for row in rows[at:]:
        if taken and (row.startswith((indent + '{', indent + '}')) or not row.strip()):
            break
        taken.append(row)
    return taken


def items(module, rows):
    """The laws and the functions with clauses of a module: whether it is a law, its name and its comment."""
    holder, public = '', 'pub '
    for at, row in enumerate(rows):
        block = re.match(r'(?:impl(?:<[^{]*?>)? (?:[\w<>:, &]+ for )?|(pub trait ))(\w+)', row)
        if block:
            holder, public = block.group(2), '' if block.group(1) else 'pub '
        elif row.startswith('}'):
            holder, public = '', 'pub '
        head = re.match(rf'(\s*){public}fn (\w+)(?:<.*?>)?\((\))?', row)
        if not head or (head.group(1) and not holder):
            continue
        if not any(re.match(r'\s*ensures\b', part) for part in signature(rows, at, head.group(1))):
            continue
        name = '::'.join(part for part in (module, holder, head.group(2)) if part)
        law = bool(head.group(3)) and not holder and '->' not in row
        yield law, name, comment_above(rows, at)


def opening(rows):
    """The first paragraph of the head of a root file."""
    words = []
    for row in rows:
        if not row.startswith('//!') or row.strip() == '//!':
            break
        words.append(row[3:].strip())
    return ' '.join(words)


def filled(text, first='', further=''):
    """The text in lines, none of which ends within a piece of code."""
    kept = re.sub('`[^`]*`', lambda code: code.group().replace(' ', '\0'), text)
    return textwrap.fill(kept, WIDTH, initial_indent=first, subsequent_indent=further, break_long_words=False,
                         break_on_hyphens=False).replace('\0', ' ') + '\n'


def bullet(name, text):
    """An item of a list; a text of too many words is cut into several, each a sentence or a part of one."""
    parts = [text] if len(text.split()) < WORDS else re.split(r'(?<=[.;]) ', text)
    return filled(f'`{name}`: {parts[0]}', '- ', '  ') + ''.join(filled(part, '  - ', '    ') for part in parts[1:])


def written():
    parts = [HEAD]
    for crate in crates():
        modules = sources(os.path.join(top, 'crates', crate, 'src'))
        laws, functions = [], []
        for module, rows in modules:
            for law, name, text in items(module, rows):
                if text and not text.startswith('Another owner of'):
                    (laws if law else functions).append(bullet(name, text if law else first_sentence(text)))
        if laws or functions:
            parts.append(f'\n## {crate}\n\n' + filled(opening(modules[0][1])))
            parts.extend('\n' + title + ''.join(rows) for title, rows in (('', laws), ('Functions:\n\n', functions)) if rows)
    return ''.join(parts)


def too_long():
    """The rows and bullets of the documents that are longer than allowed."""
    found = []
    for path in sorted(glob.glob(f'{top}/*.md') + glob.glob(f'{top}/docs/*.md') + glob.glob(f'{top}/tests/*/*.md')):
        name = os.path.relpath(path, top)
        with open(path, encoding='utf-8') as text:
            rows = text.read().split('\n')
        found += [f'{name}:{at}: {len(row)} columns' for at, row in enumerate(rows, 1) if len(row) > WIDTH]
        if name == 'docs/THEOREMS.md' and len(rows) > THEOREMS + 1:
            found.append(f'{name}: more than {THEOREMS} rows')
        words, begun = 0, 0
        for at, row in enumerate(rows + [''], 1):
            if begun and not re.match(r' +[^ -]', row):
                if words > WORDS:
                    found.append(f'{name}:{begun}: a bullet of {words} words')
                begun = 0
            if re.match(r' *- ', row):
                begun, words = at, -1
            words += len(row.split())
    return found


def main():
    text = written()
    if sys.argv[1:] == ['--check']:
        with open(page, encoding='utf-8') as kept:
            if kept.read() != text:
                sys.exit('docs/LAWS.md is not what docs/laws.py writes: run docs/laws.py')
        if too_long():
            sys.exit('\n'.join(too_long()))
    elif len(sys.argv) == 1:
        with open(page, 'w', encoding='utf-8') as out:
            out.write(text)
    else:
        sys.exit('usage: docs/laws.py [--check]')


if __name__ == '__main__':
    main()
