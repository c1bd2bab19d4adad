#!/usr/bin/env python3
"""What single entries of a cache do to a run: tests/cache_entries.py PROGRAM [--long] [PART..].

Entries that are cut, changed, left out, of other roots or of other files cost only repeated work: each run's text is that of
a run without a cache, and its report names the libraries that are due as reused. An entry that was made by hand is used,
since its seal is right. Sealed anew, an entry with any of its bytes changed never brings the program down.
Without --long only some of the bytes are changed. The last line counts what failed.
"""
import hashlib
import os
import random
import resource
import shutil
import subprocess
import sys
import tempfile

PROGRAM = os.path.abspath(sys.argv[1])
LONG = '--long' in sys.argv[2:]
PARTS = [word for word in sys.argv[2:] if word != '--long']
HEADER = b'SXENTRY4'
failed = 0
runs = 0


def fail(what):
    global failed
    failed += 1
    print('FAIL', what, flush=True)


def write(path, content):
    if os.path.dirname(path):
        os.makedirs(os.path.dirname(path), exist_ok=True)
    with open(path, 'wb') as file:
        file.write(content if isinstance(content, bytes) else content.encode())


def read(path):
    with open(path, 'rb') as file:
        return file.read()


def run(*words, **others):
    """The status of a run, its text, and the lines on standard error."""
    global runs
    runs += 1
    done = subprocess.run([PROGRAM, *words], capture_output=True, timeout=120, **others)
    return done.returncode, done.stdout, done.stderr.decode(errors='replace').splitlines()


def place(path, folder='c'):
    """Where the entry of a library is kept, by its path and its source."""
    return '%s/%s.sxe' % (folder, hashlib.sha256(b'./' + path.encode() + b'\0' + read(path)).hexdigest())


def sealed(body):
    return HEADER + hashlib.sha256(body).digest() + body


def expect(what, want, reused, libraries, *words, **others):
    """A run gives the text that is wanted, and reuses just these libraries."""
    status, text, report = run('--report', *words, **others)
    due = [('reused ' if name in reused else 'expanded ') + name for name in libraries]
    if (status, text) != (0, want):
        fail('%s: status %d, text %r' % (what, status, text[:200]))
    if report != due:
        fail('%s: told %r where %r is due' % (what, [a for a, b in zip(report, due) if a != b] or report, [b for a, b in zip(report, due) if a != b] or due))


def chain(count):
    """Libraries in a chain, each with a macro, and the program above them."""
    for i in range(count):
        before, called = (' (lib a%d)' % (i - 1), 'f%d' % (i - 1)) if i else ('', 'car')
        write('lib/a%d.sls' % i, '(library (lib a%d) (export f%d m%d) (import (rnrs)%s)\n'
              '  (define-syntax m%d (syntax-rules () ((_ x) (list x x))))\n'
              '  (define (f%d x) (%s (m%d x))))\n' % (i, i, i, before, i, i, called, i))
    write('p.sps', '(import (rnrs) (lib a%d)) (display (f%d 1)) (m%d 2)\n' % ((count - 1,) * 3))
    return ['(lib a%d)' % i for i in range(count)], ['lib/a%d.sls' % i for i in range(count)]


def stopped_puts():
    """A run that was stopped within a put left some of the entry's bytes; one whose put failed left anything there."""
    names, paths = chain(60)
    want = run('p.sps')[1]
    expect('cold', want, [], names, '--cache', 'c', 'p.sps')
    expect('warm', want, names, names, '--cache', 'c', 'p.sps')
    places = [place(path) for path in paths]
    whole = [read(at) for at in places]
    if sorted(places) != sorted('c/' + name for name in os.listdir('c')):
        fail('other files in the folder than the entries')
    for i, at in enumerate(places):
        for size in sorted({0, 1, len(whole[i]) // 2, len(whole[i])}):
            # Stopped: nothing behind it.
            shutil.rmtree('c')
            for k in range(i):
                write(places[k], whole[k])
            write(at, whole[i][:size])
            due = names[:i + (size == len(whole[i]))]
            expect('stopped at put %d behind %d bytes' % (i, size), want, due, names, '--cache', 'c', 'p.sps')
            # Failed: all others.
            write(at, whole[i][:size])
            due = [name for k, name in enumerate(names) if k != i or size == len(whole[i])]
            expect('failed put %d behind %d bytes' % (i, size), want, due, names, '--cache', 'c', 'p.sps')
            if read(at) != whole[i]:
                fail('entry %d is not mended' % i)
    # Puts that fail for good, in the place of each entry in turn.
    for i, at in enumerate(places):
        os.remove(at)
        os.mkdir(at)
        due = [name for name in names if name != names[i]]
        expect('a folder in the place of entry %d' % i, want, due, names, '--cache', 'c', 'p.sps')
        os.rmdir(at)
        write(at, whole[i])
    # Writes that the system refuses behind so many bytes: no half entry is ever left in a place.
    for limit in (0, 1, 100, *[len(whole[i]) + 1 - (i & 2) for i in range(0, 60, 4)]):
        shutil.rmtree('c')
        expect('files of %d bytes at most' % limit, want, [], names, '--cache', 'c', 'p.sps', restore_signals=False,
               preexec_fn=lambda: resource.setrlimit(resource.RLIMIT_FSIZE, (limit, limit)))
        left = [i for i, at in enumerate(places) if os.path.exists(at)]
        if left != [i for i in range(60) if len(whole[i]) <= limit]:
            fail('files of %d bytes at most: entries %r are there' % (limit, left))
        if any(read(places[i]) != whole[i] for i in left) or len(os.listdir('c') if os.path.isdir('c') else []) != len(left):
            fail('files of %d bytes at most: other files are there' % limit)


def other_files():
    """Entries of other roots, of an import that was edited, of a file that came to be, of another version."""
    names = ['(low)', '(middle)', '(high)']
    low = '(library (low) (export m) (import (rnrs)) (define-syntax m (syntax-rules () ((_ x) (list x %s)))))'
    write('two/low.sls', low % '1')
    write('two/middle.sls', '(library (middle) (export n) (import (rnrs) (low)) (define-syntax n (syntax-rules () ((_ x) (m x)))))')
    write('two/high.sls', '(library (high) (export f) (import (rnrs) (middle)) (define (f x) (n x)))')
    write('p.sps', '(import (rnrs) (high)) (display (f 1))')
    write('one/other.sls', '(library (other) (export) (import))')
    words = ('--root', 'one:two', '--cache', 'c', 'p.sps')

    def alone(*roots):
        return run('--root', *(roots or ('one:two',)), 'p.sps')[1]

    expect('three libraries', alone(), [], names, *words)
    expect('three libraries again', alone(), names, names, *words)
    # An import two steps away: the macro that (high) uses comes from (low).
    write('two/low.sls', low % '2')
    expect('an import two steps away is edited', alone(), [], names, *words)
    expect('the same again', alone(), names, names, *words)
    # The entry of the old text was kept under another name; those above it were put in the place of the old ones.
    write('two/low.sls', low % '1')
    expect('the first text again', alone(), ['(low)'], names, *words)
    # Other roots, by which the same files are found.
    expect('other roots', alone('two'), [], names, '--root', 'two', '--cache', 'c', 'p.sps')
    expect('the same roots again', alone('two'), names, names, '--root', 'two', '--cache', 'c', 'p.sps')
    expect('the first roots', alone(), [], names, *words)
    # A file that came to exist under an earlier root, where there was none: that of the lowest library.
    write('one/low.sls', low % '3')
    expect('a file under an earlier root', alone(), [], names, *words)
    if b'3' not in alone():
        fail('the file under the earlier root is not read')
    os.remove('one/low.sls')
    # (low) has the path of its file, and so its own place, where its old entry still is.
    expect('no such file again', alone(), ['(low)'], names, *words)
    # A file that nobody needs: nothing is expanded.
    write('one/unneeded.sls', '(library (unneeded) (export) (import))')
    expect('a file that nobody needs', alone(), names, names, *words)
    # A file under an earlier root with the same bytes: it is another path.
    write('one/middle.sls', read('two/middle.sls'))
    expect('the same bytes under an earlier root', alone(), ['(low)'], names, *words)
    os.remove('one/middle.sls')
    # Another version, and another name in the file of a library.
    write('two/low.sls', (low % '1').replace('(low)', '(low (1 2))'))
    expect('another version', alone(), [], names, *words)
    expect('the version again', alone(), names, names, *words)
    write('two/low.sls', low % '1')
    expect('no version again', alone(), ['(low)'], names, *words)


def by_hand():
    """An entry that is made by hand, with its seal, is used; another library's record in the place of an entry isn't."""
    text = '(library (m) (export a) (import (rnrs base)) (define a %s))'
    write('p.sps', '(import (rnrs base) (m)) a')
    write('m.sls', text % '3')
    expect('a is 3', run('p.sps')[1], [], ['(m)'], '--cache', 'c', 'p.sps')
    entry = read(place('m.sls'))
    if entry != sealed(entry[40:]):
        fail('the seal is another')
    write('m.sls', text % '1')
    want = run('p.sps')[1]
    write(place('m.sls'), sealed(entry[40:].replace(b'(define a 3)', b'(define a 1)')))
    status, out, report = run('--cache', 'c', '--report', 'p.sps')
    if (status, out, report) != (0, want.replace(b'%m/a/0 1)', b'%m/a/0 3)'), ['reused (m)']) or out == want:
        fail('a record made by hand: %r' % ((status, out, report),))
    # The sources are those of now, and the record is of another version, name or path: it isn't used.
    source = read('m.sls')
    for what, name, path in (('version', '(m (1))', 'm.sls'), ('name', '(n)', 'n.sls'), ('path', '(m)', 'm.sls')):
        shutil.rmtree('c')
        other = (text % '1').replace('(m)', name).encode()
        write(path, other)
        write('q.sps', '(import (rnrs base) %s) a' % name)
        run('--cache', 'c', 'q.sps')
        front, record = read(place(path))[40:].split(len(other).to_bytes(8, 'big') + other)
        front, record = front.replace(b'n.sls', b'm.sls'), record.replace(b'n.sls', b'm.sls')
        if what == 'path':
            record = record.replace(b'./m.sls', b'./l.sls')
        write('m.sls', source)
        write(place('m.sls'), sealed(front + len(source).to_bytes(8, 'big') + source + record))
        expect('a record of another ' + what, want, [], ['(m)'], '--cache', 'c', 'p.sps')


def changed_bytes():
    """Each byte of an entry changed, and each beginning of it, with the old seal and with a new one."""
    choose = random.Random(1)
    write('p.sps', '(import (rnrs base) (m)) (define x (k 1)) (n y x) y')
    small = ('(library (m) (export k n) (import (only (rnrs base) define define-syntax syntax-rules _ ... + let))\n'
             '  (define a "b") (define (k x) (+ x 1))\n'
             '  (define-syntax n (syntax-rules () ((_ x y ...) (define x (let ((t 1.5)) (+ t y ...)))))))')
    large = ('(library (m) (export k n) (import (rnrs) (rnrs records syntactic))\n'
             '  (define-syntax n (lambda (s) (syntax-case s () ((_ x . y) (identifier? #\'x) #\'(define x (list . y))))))\n'
             '  (define-record-type r (fields a (mutable b)))\n'
             '  (define (k x) (case x ((1) `(1 ,x #(#\\a "b"))) (else (make-r 1 2)))))')
    for what, source in (('small', small.replace('1.5', '1')), ('large', large)):
        shutil.rmtree('c', ignore_errors=True)
        write('m.sls', source)
        want = run('p.sps')[1]
        expect(what, want, [], ['(m)'], '--cache', 'c', 'p.sps')
        at = place('m.sls')
        whole = read(at)
        expect(what, want, ['(m)'], ['(m)'], '--cache', 'c', 'p.sps')
        places = range(len(whole))
        if not LONG:
            places = sorted(choose.sample(places, min(len(places), 600 if what == 'small' else 300)))
        for i in places:
            write(at, whole[:i])
            expect('%s, the first %d bytes' % (what, i), want, [], ['(m)'], '--cache', 'c', 'p.sps')
            data = bytearray(whole)
            data[i] ^= 1 << choose.randrange(8)
            write(at, bytes(data))
            expect('%s, byte %d changed' % (what, i), want, [], ['(m)'], '--cache', 'c', 'p.sps')
        # With a new seal nothing is promised of the text; but the program ends as it should.
        for i in places:
            for body in (bytes(whole[40:i]), bytes(whole[40:i]) + bytes([choose.choice((0, 1, 2, 255, whole[i] ^ 1, whole[i] ^ 128))]) + whole[i + 1:]):
                if i < 40 or body == whole[40:]:
                    continue
                write(at, sealed(body))
                status, text, report = run('--cache', 'c', '--report', 'p.sps')
                if status not in (0, 1) or (status == 0 and report not in (['expanded (m)'], ['reused (m)'])) or (report == ['expanded (m)'] and text != want):
                    fail('%s, byte %d changed under a new seal: %d %r' % (what, i, status, report))
        write(at, whole + b'\0')
        expect(what + ', a byte more', want, [], ['(m)'], '--cache', 'c', 'p.sps')
        write(at, sealed(whole[40:] + b'\0'))
        expect(what + ', a byte more under a new seal', want, [], ['(m)'], '--cache', 'c', 'p.sps')
        write(at, whole)
        expect(what, want, ['(m)'], ['(m)'], '--cache', 'c', 'p.sps')


def rights():
    """A folder, and entries, that may not be read or written. The superuser runs the program as nobody."""
    names, paths = chain(5)
    want = run('p.sps')[1]
    others = dict(user=65534, group=65534, extra_groups=[]) if os.geteuid() == 0 else {}
    program = shutil.copy(PROGRAM, os.path.abspath('program'))
    os.chmod(program, 0o755)
    for folder, below, files in os.walk('.'):
        os.chmod(folder, 0o755)
    shutil.rmtree('c', ignore_errors=True)
    os.mkdir('c')
    if others:
        os.chown('c', 65534, 65534)

    def as_other(what, reused):
        global PROGRAM
        kept, PROGRAM = PROGRAM, program
        expect(what, want, reused, names, '--cache', 'c', 'p.sps', **others)
        PROGRAM = kept

    as_other('rights', [])
    as_other('rights again', names)
    os.chmod('c', 0)
    as_other('no rights', [])
    os.chmod('c', 0o500)
    as_other('no right to write', names)
    at = place(paths[2])
    write(paths[2], read(paths[2]) + b'\n')
    as_other('no right to write what was edited', names[:2])
    as_other('no right to write what was edited, again', names[:2])
    os.chmod('c', 0o700)
    os.chmod(place(paths[1]), 0)
    as_other('one entry that may not be read', names[:1])
    as_other('all entries again', names)


def limits():
    """A folder that is a file, a path that is too long, and a library whose entry is too long to be put."""
    names, paths = chain(3)
    want = run('p.sps')[1]
    write('c', 'x')
    expect('a file for a folder', want, [], names, '--cache', 'c', 'p.sps')
    os.remove('c')
    expect('a folder below a file', want, [], names, '--cache', 'p.sps/c', 'p.sps')
    expect('a folder in a folder', want, [], names, '--cache', 'c/d/e', 'p.sps')
    expect('a folder in a folder again', want, names, names, '--cache', 'c/d/e', 'p.sps')
    expect('the same folder by another name', want, names, names, '--cache', './c/d/../d/e', 'p.sps')
    expect('too long a path', want, [], names, '--cache', 'c' * 5000, 'p.sps')
    # A text whose entry has more than 8 MB: three strings of 3 MB.
    for i in range(3):
        write('big/b%d.sls' % i, '(library (big b%d) (export s%d) (import (rnrs base)%s) (define s%d "%s"))' % (i, i, ' (big b%d)' % (i - 1) if i else '', i, 'x' * 1500000))
    write('q.sps', '(import (big b2)) s2')
    names = ['(big b%d)' % i for i in range(3)]
    want = run('q.sps')[1]
    expect('long', want, [], names, '--cache', 'd', 'q.sps')
    sizes = [os.path.getsize(place('big/b%d.sls' % i, 'd')) if os.path.exists(place('big/b%d.sls' % i, 'd')) else 0 for i in range(3)]
    if max(sizes) > 8388608:
        fail('an entry is longer than an entry may be: %r' % sizes)
    expect('long again', want, [name for name, size in zip(names, sizes) if size], names, '--cache', 'd', 'q.sps')


def number(n, size=8):
    return n.to_bytes(size, 'big')


def spelled(text):
    return number(len(text)) + text.encode()


NIL = bytes(4)  # '()
SPAN = spelled('./m.sls') + number(0, 4) + number(1, 4)


def named(n):
    """A label of the library (m), or the number of a procedure."""
    return b'\4' + number(1) + spelled('m') + number(n)


def around(before, inner, after):
    """So many levels round what is in them. What stands before a level may have a name of its own."""
    if callable(before):
        return lambda levels: b''.join(before(named(1000000 + i)) for i in range(levels)) + inner + after * levels
    return lambda levels: before * levels + inner + after * levels


CLAUSE = b'\x0a' + NIL + number(1)
# Core code within core code.
EVALUATED = {
    'if, test': around(b'\3', NIL, NIL + b'\0'),
    'if, consequent': around(b'\3' + NIL, NIL, b'\0'),
    'if, alternative': around(b'\3' + NIL + NIL + b'\1', NIL, b''),
    'begin, first': around(b'\5' + number(2), NIL, NIL),
    'begin, last': around(b'\5' + number(2) + NIL, NIL, b''),
    'lambda': around(lambda n: b'\6' + n + number(1) + number(0) + b'\0', NIL, b'\1'),
    'case-lambda': around(lambda n: b'\6' + n + number(2) + number(0) + b'\0' + NIL + number(0) + b'\0', NIL, b'\0'),
    'letrec, body': around(b'\7\0' + number(0), NIL, b''),
    'syntax-case, output': around(CLAUSE + b'\0\0', NIL, SPAN),
    'syntax-case, fender': around(CLAUSE + b'\0\1', NIL, NIL + SPAN),
}
DEEP_CODE = {
    **EVALUATED,
    'letrec*, value': around(lambda n: b'\7\1' + number(1) + n, NIL, NIL),
    'call, operator': around(b'\x08', NIL, number(0)),
    'call, operand': around(b'\x08' + NIL + number(1), NIL, b''),
    'syntax-case, subject': around(b'\x0a', NIL, number(0) + SPAN),
}
# The text before and behind each level.
DEEP_TEXTS = {
    'set!': ('(set! v ', ')'),
    'if, test': ('(if ', ' (quote ()))'),
    'if, consequent': ('(if (quote ()) ', ')'),
    'if, alternative': ('(if (quote ()) (quote ()) ', ')'),
    'begin, first': ('(begin ', ' (quote ()))'),
    'begin, last': ('(begin (quote ()) ', ')'),
    'lambda': ('(lambda () ', ')'),
    'case-lambda': ('(case-lambda (() (quote ())) (() ', '))'),
    'letrec, body': ('(letrec () ', ')'),
    'call, operator': ('(', ')'),
    'call, operand': ('((quote ()) ', ')'),
}
# Of what stands in core code how many levels an entry may have, and so many round its innermost part.
DEEP_PARTS = {}
for what, levels, before, parts, after in (
        ('a list', 1000, b'\0', around(b'\0\2' + number(1), bytes(3), bytes(3)), b''),
        ('a vector', 1000, b'\0', around(b'\0\3' + number(1), bytes(3), b''), b''),
        ('a pattern of a vector', 2000, CLAUSE, around(b'\5' + number(1), b'\0', b'\0' + number(0)), b'\0' + NIL + SPAN),
        ('a pattern of a list', 2000, CLAUSE, around(b'\4' + number(1), b'\0', b'\0' + number(0) + b'\0'), b'\0' + NIL + SPAN),
        ('a pattern behind a list', 2000, CLAUSE, around(b'\4' + number(1) + b'\0\0' + number(0), b'\0', b''), b'\0' + NIL + SPAN),
        ('a pattern that is repeated', 2000, CLAUSE, around(b'\5' + number(0) + b'\1', b'\0', number(0)), b'\0' + NIL + SPAN),
        ('a pattern after an ellipsis', 2000, CLAUSE, around(b'\5' + number(0) + b'\1\0' + number(1), b'\0', b''), b'\0' + NIL + SPAN),
        ('a template of a vector', 2000, b'\x09', around(b'\3' + number(1), b'\1' + bytes(3), bytes(4)), SPAN),
        ('a template of a list', 2000, b'\x09', around(b'\2' + number(1), b'\1' + bytes(3), bytes(4) + b'\1' + bytes(3)), SPAN),
        ('a template behind a list', 2000, b'\x09', around(b'\2' + number(1) + b'\1' + bytes(7), b'\1' + bytes(3), b''), SPAN),
        ('a tree of a list', 1000, b'\x09\1', around(b'\0\2' + number(1), bytes(3), bytes(3)), SPAN),
        ('a tree of a vector', 1000, b'\x09\1', around(b'\0\3' + number(1), bytes(3), b''), SPAN)):
    DEEP_PARTS[what] = levels, lambda count, before=before, parts=parts, after=after: before + parts(count) + after


def deep():
    """Entries under a right seal that nest code, patterns, templates and data as deep as an entry may, and deeper.

    A procedure of such code has just it in the text. A transformer with such code beside what it gives leaves the text as
    it is without a cache. One level more has no spelling: the library is expanded. The stack has 8 MB, as on most systems.
    """
    source = ("(library (m) (export g k) (import (rnrs))\n  (define v 1)\n  (define (g) (set! v 'LINE))\n"
              "  (define-syntax k (lambda (s) (begin 'EVALUATED (lambda () 'INNER) (syntax 1)))))\n")
    write('m.sls', source)
    write('p.sps', '(import (rnrs) (m)) (g) (k)')
    want = run('p.sps')[1]
    expect('deep', want, [], ['(m)'], '--cache', 'c', 'p.sps')
    at = place('m.sls')
    body = read(at)[40:]

    def quoted(word):
        first = source.index(word)
        return b'\0\1' + spelled('./m.sls') + number(first, 4) + number(first + len(word), 4) + b'\1' + spelled(word)

    def forged(what, word, code, text, reused):
        if body.count(quoted(word)) != 1:
            fail('no quotation of %s in the entry' % word)
        write(at, sealed(body.replace(quoted(word), code)))
        expect(what, text, ['(m)'] if reused else [], ['(m)'], '--cache', 'c', 'p.sps',
               preexec_fn=lambda: resource.setrlimit(resource.RLIMIT_STACK, (8 << 20, resource.getrlimit(resource.RLIMIT_STACK)[1])))

    # `v` as a label, which stands before the word, and as a variable of the text.
    label = body[:body.index(quoted('LINE'))][-len(named(0)):]
    variable = want[want.index(b'(set! ') + 6:want.index(b' (quote LINE)')].decode()
    # In place of each word there may be so many core expressions, one within another: behind a procedure and a `set!` or a
    # `begin`, and for one word a procedure more.
    all_code = {**DEEP_CODE, 'set!': around(b'\4' + label, NIL, b'')}
    for word, levels, tried in (('LINE', 8191, DEEP_TEXTS), ('EVALUATED', 8191, EVALUATED), ('INNER', 8190, DEEP_CODE)):
        for what in tried:
            code, text = all_code[what], want
            if word == 'LINE':
                before, after = DEEP_TEXTS[what]
                deepest = before.replace('v', variable) * (levels - 1) + '(quote ())' + after * (levels - 1)
                text = want.replace(b'(quote LINE)', deepest.encode())
            forged('%s for %s' % (what, word), word, code(levels - 1), text, True)
            forged('%s for %s, a level more' % (what, word), word, code(levels), want, False)
    # In core code that is as deep as it may be.
    for what, (levels, part) in DEEP_PARTS.items():
        for count, reused in ((levels - 1, True), (levels, False)):
            forged('%s of %d levels' % (what, count + 1), 'INNER', around(b'\3' + NIL, part(count), b'\0')(8188), want, reused)


def main():
    for part in (other_files, by_hand, limits, deep, rights, stopped_puts, changed_bytes):
        if PARTS and part.__name__ not in PARTS:
            continue
        folder = tempfile.mkdtemp(prefix='cache')
        os.chdir(folder)
        before = runs
        part()
        print('%s: %d runs' % (part.__name__, runs - before), flush=True)
        os.chdir('/')
        subprocess.run(['chmod', '-R', 'u+rwX', folder], check=False)
        shutil.rmtree(folder)
    print('cache_entries: %d failed of %d runs' % (failed, runs))
    return failed != 0


sys.exit(main())
