#!/usr/bin/env python3
"""Lays a tree of the older Rattle beside one of today's, and names what differs by more than spelling.

  python3 same_words.py BEFORE NOW

Compared are the lines of every module of specs/ and of the lemmas in proofs/, in their order and where they lie now; the clauses of every function, those
of the exports to C too; that each module is listed now; the rest of src/, file by file; imports, as sets of module and name; attributes but for derives and tactics; must-fail edits; and,
byte by byte, what the programs read and print, tests/, include/, bench/ and examples/.

Spelling is: a name in snake case where it was in camel case or had dashes (`allowed`), one name for one name in each file; a projection tight or after a
space, and the brackets that go with it; how a clause names its result and the value behind a reference; layout of src/.

Left out: the proofs of functions, which the prover judges; from which of the kit's modules a word of the kit comes; comments;
crates.txt; and all but the clauses of a crate that only one tree has.
"""
import collections, difflib, glob, os, re, sys

# modules that lie elsewhere now, and those that became two
MOVED = {f'promises/specs/Proofs/{m}': [f'promises/proofs/{m}'] for m in
         ('Calls', 'Refusals', 'One', 'Numbers', 'Histories', 'Two', 'Three', 'Checked', 'All', 'Useless')}
MOVED |= {f'theorems/specs/Proofs/{m}': [f'theorems/proofs/{m}'] for m in ('Causes', 'Follows', 'Progress')}
MOVED |= {f'{c}/specs/{m}': [f'{c}/proofs/{m}'] for c, ms in
          {'theorems': ['Demands'], 'rules': ['Logs', 'Kept', 'Facts', 'Steps', 'Calls'], 'block': ['Plans', 'Appends'], 'audit': ['Kept']}.items() for m in ms}
MOVED |= {'audit/specs/Check': ['audit/specs/Check', 'audit/proofs/Checks'],
          'winchclover/specs/Answered': ['winchclover/specs/Answered', 'winchclover/proofs/Telling']}
BACK = {new.replace('/', '.'): old.replace('/', '.') for old, news in MOVED.items() for new in news}
# names that could not keep their words: a definition beside them has that name
GIVEN = {'sets_bounded': 'sets-bound', 'slot_is_free': 'is-free', 'slot_is_reserved': 'is-reserved', 'cell_in_n': 'in-n', 'target_in_b': 'in-b',
         'block_in_b': 'in-b', 'hand_holds': 'in-hand', 'serial_not_above': 'not-above'}
# words of the library that have another name today
LIBRARY = {'getD': 'get_or', 'leadingZeros': 'count_leading_zeros', 'List·': '', '′': "'"}


def snake(part):
    return re.sub(r"(?<=[a-z0-9'])([A-Z])", lambda m: '_' + m.group(1).lower(), part) if part[:1].islower() else part


def allowed(old, new):
    """Whether a name may have become the other by spelling alone."""
    for a, b in LIBRARY.items():
        old = old.replace(a, b)
    if old == new or new in GIVEN and GIVEN[new] == old or old == 'if_then_else_' and new == 'if◌then◌else◌':
        return True
    if re.search(r'[^\w\'-]', old) and old.replace('_', '◌') == new:
        return True
    plain = '_'.join(snake(p) for p in old.split('-')).replace('_', '')
    return plain in (new.replace('-', '').replace('_', ''), new.removesuffix('_lem').replace('-', '').replace('_', '')) or old.replace('_', '◌') == new


def loose(word):
    """A word without what spelling may change, to find the line that it stands in."""
    for a, b in LIBRARY.items():
        word = word.replace(a, b)
    word = GIVEN.get(word, word)
    return word.removesuffix('_lem').replace('-', '').replace('_', '').replace('◌', '').lower()


PATH = re.compile(r"[^\W\d][\w'₀-₉⁻¹′-]*(\.[\w'₀-₉⁻¹′-]+)+")


def tokens(text):
    """Words, brackets and signs. A tight projection is `~x`, one after a space `.x`."""
    out = []
    for t in re.findall(r'[()\[\]{},;]|[^\s()\[\]{},;]+', text):
        if re.fullmatch(r'_[^\w\s]+_?|[^\w\s]+_', t):
            out.append(t.replace('_', '◌'))
        elif len(t) > 1 and t.endswith('.') and t[-2] != '.':
            out += tokens(t[:-1]) + ['λ.']
        elif re.fullmatch(r"\.[\w'′-]+(\.[\w'′-]+)*", t):
            first, *rest = t[1:].split('.')
            out += ['.' + first] + ['~' + p for p in rest]
        elif PATH.fullmatch(t):
            first, *rest = t.split('.')
            out += [first] + ['~' + p for p in rest]
        else:
            out.append(t)
    return out


BREAKS = {'in', 'let', 'if', 'then', 'else', 'where', 'unfolding', 'unfold', 'record', 'module', 'pub', 'abbrev', 'unfoldable', 'implies', 'λ.', ',', ';'}
CLOSED = {'(': ')', '[': ']', '{': '}'}


def shape(text, old):
    """The text's form, with `w` for each word and every projection bracketed by what it projects from (in the older form: all of the application before
    it), and its words in order."""
    parts, at, words = tokens(text), 0, []

    def whole(spine):
        return spine[0] if len(spine) == 1 else '<' + ' '.join(spine) + '>'

    def inside():
        nonlocal at
        out, spine = [], []

        def flush():
            if spine:
                out.append(whole(spine))
                spine.clear()

        while at < len(parts):
            t = parts[at]
            at += 1
            if t in CLOSED.values():
                break
            if t in CLOSED:
                part = inside()
                spine.append(part[0] if t == '(' and len(part) == 1 else t + ' '.join(part) + CLOSED[t])
            elif t[0] in '.~' and len(t) > 1:
                words.append(t[1:])
                if t[0] == '.' and old and spine:
                    spine[:] = [whole(spine)]
                spine[-1:] = [(spine[-1] if spine else '') + '.w']
            elif t in BREAKS or not re.search(r'\w', t):
                flush()
                out.append(t)
            else:
                words.append(t)
                spine.append('w')
        flush()
        return out

    out = []
    while at < len(parts):
        out += inside()
    return ' '.join(out), words


class Names:
    """One name for one name, in one file."""

    def __init__(self):
        self.forth, self.back = {}, {}

    def same(self, old, new):
        return allowed(old, new) and self.forth.setdefault(old, new) == new and self.back.setdefault(new, old) == old


def same_lines(where, before, now, tell, names=None):
    """Two lists of (text, place), the first in the older form: tells what is not the same in its order."""
    names = names or Names()
    forms = [[shape(t, old) for t, _ in lines] for lines, old in ((before, True), (now, False))]
    keys = [[(len(t) - len(t.lstrip()), f[0], tuple(loose(w) for w in f[1])) for (t, _), f in zip(lines, fs)] for lines, fs in zip((before, now), forms)]
    for tag, i, j, k, l in difflib.SequenceMatcher(None, *keys, autojunk=False).get_opcodes():
        if tag == 'equal':
            for a, b, x, y in zip(forms[0][i:j], forms[1][k:l], before[i:j], now[k:l]):
                if not all(names.same(o, n) for o, n in zip(a[1], b[1])):
                    tell(f'- {x[1]}: {x[0].strip()}')
                    tell(f'+ {y[1]}: {y[0].strip()}')
        else:
            for t, p in before[i:j]:
                tell(f'- {p}: {t.strip()}')
            for t, p in now[k:l]:
                tell(f'+ {p}: {t.strip()}')


# ---- imports: a set of module and name

def module(path, own):
    """A module's path in one form; a module of the kit's is only 'the kit'."""
    path = path.replace('::', '.').replace('Rattle·', 'Rattle.').replace('·specs.specs', '.specs').replace('·', '.').replace('the-variants', 'TheVariants')
    parts = path.removeprefix('Rattle.').split('.')
    if path.startswith('Rattle.') and parts[0] in own:
        path = '.'.join(parts)
        for new in sorted(BACK, key=len, reverse=True):
            if path == new or path.startswith(new + '.'):
                return BACK[new] + path[len(new):]
        return path
    return 'the kit'


def imports(text, own, ghost):
    out = set()
    for m in re.finditer(r'(?m)^\s*' + ('ghost ' if ghost else '') + r'use ([^\s;{]+?)\.?(?:\{([^}]*)\})?(?: as (\S+?))?;?$', text):
        path, names, alias = m.groups()
        if names is None:
            out.add((module(path, own), 'as ' + (alias or path)))
        for n in (names or '').split(','):
            if n.strip():
                out.add((module(path, own), n.strip()))
    return {('the kit', n) if n in ('if_then_else_', 'if◌then◌else◌') else (m, n) for m, n in out}


def same_imports(where, before, now, tell):
    left = sorted(now)
    for m, n in sorted(before):
        found = [x for x in left if x[0] == m and allowed(n, x[1])]
        if found:
            left.remove(found[0])
        else:
            tell(f'- {where} imports {n} of {m}')
    for m, n in left:
        tell(f'+ {where} imports {n} of {m}')


# ---- src/

# `now x`, `now (x .entry)` and `now (x .exit)`, in brackets of its own or not
NOW = re.compile(r"(?P<open>\()?\bnow (?:\()?(?P<value>\w+)(?: \.(?P<when>entry|exit)\))?(?(open)\))")


def clause(text, writable):
    """The fact of a clause in the older form, in today's words for the result and for what lies behind a reference."""
    text = text.strip()
    result = re.match(r"λ ([\w']+)\. ", text)
    if result:
        text = text[result.end():]
        if result.group(1) != '_':
            text = re.sub(rf"(?<![\w'.]){re.escape(result.group(1))}(?![\w'])", 'result', text)
    text = text.replace('⌜', '').replace('⌝', '')
    return NOW.sub(lambda m: m['value'] + ('.new' if m['when'] == 'exit' else '.old' if m['value'] in writable else '.now'), text).strip()


def source(path):
    """The clauses of a file by function, its attributes, and its other words."""
    text = re.sub(r'//[^\n]*', '', open(path, encoding='utf-8').read())
    bare = re.sub(r'(?m)^\s*(ghost |pub )?use [^;]*;', '', text)
    attributes = [a for a in re.findall(r'#!?\[[^\]]*\]', bare) if not re.match(r'#!?\[(derive|tactic)\(', a)]
    bare = re.sub(r'#!?\[[^\]]*\]', '', bare)
    writable = {m.group(1): set(re.findall(r'(\w+): &mut', m.group(2))) for m in re.finditer(r'\bfn (\w+)\(([^)]*)\)', bare)}
    clauses, rest, function = {}, [], None
    for line in bare.split('\n'):
        head = re.search(r'\bfn (\w+)', line)
        function = head.group(1) if head else function
        said = re.match(r'\s*(requires|ensures)( \w+)? \{(.*)\}\s*$', line)
        if said:
            clauses.setdefault(function, []).append((said.group(1), said.group(3)))
        else:
            rest.append(line)
    words = re.findall(r'\w+|\S', '\n'.join(rest))
    words = [w for i, w in enumerate(words) if not (w == ',' and words[i + 1:i + 2] and words[i + 1] in ')}]')]
    uses = set()
    for m in re.finditer(r'(?m)^(?:pub )?use ([^;{]+?)(?:::\{([^}]*)\})?;', text):
        uses |= {f'{m.group(1)}::{n.strip()}' for n in (m.group(2) or '').split(',') if n.strip()} or {m.group(1)}
    return clauses, writable, attributes, words, uses, text


def same_clauses(where, before, writable, now, tell, names):
    """The clauses of two files, by function; how many the first has."""
    for f in sorted(set(before) | set(now), key=str):
        place = f'{where} {f}'
        same_lines(where, [(f'{k} ; {clause(text, writable.get(f, set()))}', place) for k, text in before.get(f, [])],
                   [(f'{k} ; {text.strip()}', place) for k, text in now.get(f, [])], tell, names)
    return sum(len(c) for c in before.values())


def same_source(where, before, now, own, tell):
    (clauses, writable, attributes, words, uses, text), (clauses_now, _, attributes_now, words_now, uses_now, text_now) = source(before), source(now)
    if attributes != attributes_now:
        tell(f'{where}: attributes {attributes} -> {attributes_now}')
    for tag, i, j, k, l in difflib.SequenceMatcher(None, words, words_now, autojunk=False).get_opcodes() if words != words_now else []:
        if tag != 'equal':
            tell(f'{where}: {" ".join(words[max(i - 3, 0):i])} [{" ".join(words[i:j])} -> {" ".join(words_now[k:l])}]')
    for n in sorted(uses ^ uses_now):
        tell(f'{"-" if n in uses else "+"} {where} uses {n}')
    same_imports(where, imports(text, own, True), imports(text_now, own, True), tell)
    return same_clauses(where, clauses, writable, clauses_now, tell, Names())


# ---- all of it

def antt(path):
    """The lines of a module but for imports, comments and the list of the modules below it; and its whole text."""
    text = open(path, encoding='utf-8').read()
    place = '/'.join(path.split('/')[-3:])
    lines = [(line, f'{place}:{n}') for n, line in enumerate(text.split('\n'), 1)]
    return [l for l in lines if l[0].strip() and not l[0].strip().startswith(('--', 'use ', 'pub use ', 'pub mod ', 'mod '))], text


def is_module(path):
    """Whether a file is a module of specs/ or of lemmas, and not the proof of a function."""
    return '/specs/' in path or os.path.basename(path) not in ('Proof.antt', 'Answers.antt', 'Invariants.antt')


class Comparison:
    def __init__(self, old, new):
        self.old, self.new, self.said, self.count = old, new, [], collections.Counter()
        self.tell = self.said.append
        self.crates = self.common('crates/*/')
        self.own = {os.path.basename(c) for r in (old, new) for c in glob.glob(f'{r}/crates/*')}

    def found(self, *patterns):
        """The paths below each tree, but for what the prover made."""
        return [{os.path.relpath(f, r) for p in patterns for f in glob.glob(f'{r}/{p}', recursive=True) if '/out/' not in f} for r in (self.old, self.new)]

    def common(self, *patterns):
        """The paths that both trees have; tells those that one has."""
        a, b = self.found(*patterns)
        for p in sorted(a ^ b):
            self.tell(f'{p}: {"before" if p in a else "now"} only')
        return sorted(a & b)

    def texts(self, path):
        return [open(f'{r}/{path}', encoding='utf-8').read() for r in (self.old, self.new)]

    def modules(self, crate):
        a, b = [{p[len('crates/'):-len('.antt')] for p in ps if is_module(p)} for ps in self.found(f'{crate}/specs/**/*.antt', f'{crate}/proofs/**/*.antt')]
        taken = set()
        for m in sorted(a):
            to = MOVED.get(m, [m])
            before, text = antt(f'{self.old}/crates/{m}.antt')
            if not set(to) <= b:
                if before:
                    self.tell(f'{m}: before only')
                continue
            taken |= set(to)
            now = [antt(f'{self.new}/crates/{t}.antt') for t in to]
            self.count['modules'] += bool(before)
            self.count['lines'] += len(before)
            same_lines(m, before, [l for lines, _ in now for l in lines], self.tell)
            # of a module that became two the second imports the first
            itself = m.replace('/', '.')
            same_imports(m, imports(text, self.own, False), {i for _, t in now for i in imports(t, self.own, False) if i[0] != itself}, self.tell)
        for m in sorted(b):
            lines, _ = antt(f'{self.new}/crates/{m}.antt')
            if lines and m not in taken:
                self.tell(f'{m}: now only')
            if lines and not self.listed(m):
                self.tell(f'{m}: in no list of modules')

    def listed(self, module):
        """Whether the module above names it, so that it is read at all."""
        above, name = os.path.split(module)
        above = f'{self.new}/crates/{above}/Lib.antt' if above.count('/') == 1 else f'{self.new}/crates/{above}.antt'
        return os.path.exists(above) and re.search(rf'(?m)^(pub )?mod {name}$', open(above, encoding='utf-8').read())

    def sources(self, crate):
        for p in self.common(f'{crate}/src/**/*.rt'):
            self.count['files of src'] += 1
            self.count['clauses'] += same_source(p[len('crates/'):], f'{self.old}/{p}', f'{self.new}/{p}', self.own, self.tell)

    def exports(self, before, now):
        """The functions that C calls, in the crate that exported them and in that which does: their clauses."""
        (clauses, writable, *_), (clauses_now, *_) = source(f'{self.old}/{before}'), source(f'{self.new}/{now}')
        self.count['clauses of exports'] += same_clauses(now, {f: c for f, c in clauses.items() if f.startswith('winch_')}, writable, clauses_now, self.tell, Names())

    def edits(self, crate):
        for p in self.common(f'{crate}/must-fail/*'):
            self.count['edits'] += 1
            x, y = self.texts(p)
            # an edit of code is in Rust's words, and the same to the letter
            if x != y:
                same_lines(p, *([(l, p) for l in t.split('\n') if l] for t in (x, y)), self.tell)

    def files(self):
        kept = [f'{d}/**' for d in ('tests', 'include', 'bench', 'examples')] + [f'crates/*/{f}' for f in ('stdin', 'stdout', 'args', 'status', 'data/**')]
        for p in self.common(*kept):
            if os.path.isfile(f'{self.old}/{p}'):
                self.count['other files'] += 1
                if open(f'{self.old}/{p}', 'rb').read() != open(f'{self.new}/{p}', 'rb').read():
                    self.tell(f'{p}: not the same')

    def all(self):
        for c in self.crates:
            self.modules(c)
            self.sources(c)
            self.edits(c)
        self.exports('crates/winchclover/src/lib.rt', 'crates/winchclover_c/src/lib.rt')
        self.files()
        print('\n'.join(self.said))
        print(', '.join(f'{n:,} {what}' for what, n in self.count.items()) + f' compared; {len(self.said)} lines of difference')


if __name__ == '__main__':
    if len(sys.argv) != 3:
        sys.exit(__doc__)
    Comparison(*(p.rstrip('/') for p in sys.argv[1:3])).all()
