#!/usr/bin/env python3
"""respell.py: brings the project's own definitions and lemmas to the library's spelling, once, at the top of the repository.

A definition whose values are types is in upper camel case; every other definition, lemma, field and constructor in snake case. What is
declared in src/ (functions, types, fields, constants) keeps its name, as does every name of the library, and every string, input and output.
`respell.py --list` prints the old and new names and changes nothing.
"""
import glob
import re
import sys

OWN = [line.split(':')[0].split()[0] for line in open('crates.txt') if line.strip() and not line.startswith('#')]
ANTT = sorted(glob.glob('crates/*/specs/**/*.antt', recursive=True) + glob.glob('crates/*/proofs/**/*.antt', recursive=True))
SRC = sorted(glob.glob('crates/*/src/**/*.rt', recursive=True))
EDITS = sorted(glob.glob('crates/*/must-fail/*.edit'))
PAGES = ['README.md'] + sorted(glob.glob('docs/*.md')) + ['host/reference/README.md']
# lemmas that would fall together with a definition's new name
GIVEN = {name: name + '_lem' for name in ('all_in_use', 'last_digits', 'number_word', 'both_ok')}

DECLARED = re.compile(r'^(\s*)((?:abbrev |unfoldable |pub |record |data )*)([^\s:(){}.;,"]+)\s*(.*?)(?<!\S):(?!\S)\s*(.*)$')
HUMP = re.compile(r'\b[a-z][a-z0-9]*[A-Z]\w*\b')
TOKEN = re.compile(r'[^\s(){}.;,"`]+')


def words(name):
    """one_two of oneTwo, one-two, one_two"""
    spread = re.sub(r'(?<=[a-z0-9])(?=[A-Z])|(?<=[A-Z])(?=[A-Z][a-z])', '_', name)
    return [w for w in re.split(r'[-_]', spread) if w]


def snake(name):
    parts = []
    for w in words(name):
        parts.append(w.lower() if w.isupper() else w[0].lower() + w[1:])
    return '_'.join(parts)


def camel(name):
    return ''.join(w[0].upper() + w[1:] for w in words(name))


def declarations(path):
    """(name, is a type) of each declaration of a file"""
    lines = open(path).read().split('\n')
    found = []
    for i, line in enumerate(lines):
        if re.match(r'\s*(--|use |module |mod |pub mod |ruleset )', line):
            continue
        m = DECLARED.match(line)
        if not m:
            continue
        indent, marks, name, args, rest = m.groups()
        if name in ('let', 'in', 'elim', 'record', '|', 'λ') or '↦' in name or not re.match(r'[A-Za-z]', name):
            continue
        kind = marks.split()
        text = rest
        j = i + 1
        while j < len(lines) and lines[j].startswith(indent + '    ') and not lines[j].strip().startswith('--'):
            text += ' ' + lines[j].strip()
            j += 1
        isType = 'record' in kind or 'data' in kind or re.search(r'(^|→ )Type (0|1|\{.*\}|ℓ)$', text.strip()) is not None
        if kind or indent == '' or lines[i - 1].strip().endswith('where') or True:
            found.append((name, isType, len(indent), bool(kind)))
    return found


def renamed():
    """old name -> new name, of all that the project declares in specs/ and proofs/"""
    types = {}
    for path in ANTT:
        for name, is_type, indent, marked in declarations(path):
            if indent <= 2 or marked:
                types.setdefault(name, set()).add(is_type)
    new = {}
    for name in sorted(types):
        if types[name] == {True}:
            to = name if re.fullmatch(r'[A-Z]\w*', name) else camel(name)
        elif re.fullmatch(r"[A-Z][A-Za-z0-9']*", name):
            to = name  # a constructor, or a variable that stands for a type
        else:
            to = snake(name)
        to = GIVEN.get(name, to)
        if to != name:
            new[name] = to
    # A definition keeps the plain name; a lemma that would have it gets `_lem`.
    taken = {to for name, to in new.items() if '-' not in name} | {name for name in types if name not in new}
    for name, to in new.items():
        if '-' in name and to in taken:
            new[name] = to + '_lem'
    return new, {new.get(name, name) for name in types}


class Lookup(dict):
    """renamed(), and for text that port.py did not turn what it renamed by itself"""

    def __init__(self, new, final):
        super().__init__(new)
        self.final = final

    def __contains__(self, token):
        return super().__contains__(token) or (re.fullmatch(r'[a-z]\w*(-\w+|[A-Z]\w*)+', token) and snake(token) in self.final)

    def __missing__(self, token):
        return snake(token)


def foreign(text):
    """what a file takes from the library: names, and modules by their last part"""
    names, modules = set(), set()
    for m in re.finditer(r'(?m)^\s*(?:pub )?(?:ghost )?use ([^\s{]+?)(?:\.\{([^}]*)\})?(?: as (\S+))?;?$', text):
        path, items, alias = m.groups()
        if re.match(r'Rattle\.(' + '|'.join(OWN) + r')\.(specs|proofs)\b', path) and '.Goals' not in path and '.Given' not in path:
            continue
        if items is None:
            modules.add(alias or path.split('.')[-1])
        else:
            for item in items.split(','):
                names.update(item.split(' as ')[-1:][0].split())
                names.update(item.split(' as ')[0].split())
    return names, modules


def respelled(text, new, names, modules):
    def one(m):
        token = m.group(0)
        if token in names or token not in new:
            return token
        before = m.string[: m.start()]
        if before.endswith('.') and re.search(r'(?:^|[^\w.])(\w+)\.$', before):
            if re.search(r'(?:^|[^\w.])(\w+)\.$', before).group(1) in modules:
                return token
        return new[token]

    return TOKEN.sub(one, text)


def quoted(text, new, names, modules):
    """in prose: names between backticks; a name with a hump anywhere"""
    text = re.sub(r'`[^`\n]*`', lambda m: '`' + respelled(m.group(0)[1:-1], new, names, modules) + '`', text)

    def hump(m):
        token = m.group(0)
        return new[token] if token in new and token not in names else token

    return HUMP.sub(hump, text)


def antt(text, new):
    names, modules = foreign(text)
    out = []
    for line in text.split('\n'):
        code, dash, prose = line.partition('-- ') if line.lstrip().startswith('--') or ' -- ' in line else (line, '', '')
        out.append(respelled(code, new, names, modules) + dash + quoted(prose, new, names, modules))
    return '\n'.join(out)


def source(text, new):
    """a name with a hump is never Rust's own there; one with a dash stands in clauses and ghost imports alone"""
    out = []
    for line in text.split('\n'):
        code, slashes, prose = line.partition('//')
        if re.match(r'\s*(ghost use|requires|ensures|pub ghost|ghost)\b', code) or '≡' in code:
            code = respelled(code, new, set(), set())
        pieces = code.split('"')
        pieces[::2] = [HUMP.sub(lambda m: new.get(m.group(0), m.group(0)), piece) for piece in pieces[::2]]
        out.append('"'.join(pieces) + slashes + quoted(prose, new, set(), set()))
    return '\n'.join(out)


def edit(text, new):
    out, inside = [], ''
    for line in text.split('\n'):
        if line.startswith('file: '):
            inside = line
        key, colon, rest = line.partition(': ')
        if key in ('old', 'new') and '.antt' in inside:
            out.append(key + colon + respelled(rest, new, set(), set()))
        elif key == 'falls':
            out.append(key + colon + ', '.join(new[name] if name in new else name for name in rest.split(', ')))
        elif key in ('old', 'new'):
            out.append(key + colon + (respelled(rest, new, set(), set()) if '≡' in rest else rest))
        else:
            out.append(quoted(line, new, set(), set()))
    return '\n'.join(out)


def main():
    new, final = renamed()
    loose = Lookup(new, final)
    if '--list' in sys.argv:
        for name in sorted(new):
            print(name, new[name])
        return
    together = 0
    for paths, turn in ((ANTT, antt), (SRC, source), (EDITS + ['tests/mutants.txt'], lambda t, n: edit(t, loose)), (PAGES, lambda t, n: quoted(t, loose, set(), set()))):
        for path in paths:
            text = open(path).read()
            after = turn(text, new)
            if turn is antt:
                code = re.sub(r'(?m)(^| )-- .*$', '', text)
                names, _ = foreign(text)
                held = set(TOKEN.findall(code))
                for name in sorted(held):
                    to = new.get(name)
                    if to and name not in names and to in held and new.get(to, to) == to:
                        print(f'{path}: {name} and {to} fall together')
                        together += 1
            if after != text:
                open(path, 'w').write(after)
    if together:
        print(f'respell: {together} to look at')


main()
