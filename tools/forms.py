#!/usr/bin/env python3
"""Counts, in crates/*/src, the places that an older language's forms leave: tools/forms.py [COMMIT] [--list] [POINT]

Without a commit it reads the working tree. Each line is a point, what is looked for, and how many places there are;
--list prints the places. What is found are candidates: docs/DESIGN-PASS.md says of each kind what became of it."""
import re
import subprocess
import sys
from collections import defaultdict

args = [a for a in sys.argv[1:] if not a.startswith('-')]
only = [a for a in args if re.fullmatch(r'[1-7]', a)]
commit = [a for a in args if a not in only]


def git(*words):
    return subprocess.check_output(('git',) + words, text=True)


def sources():
    """Each file of crates/*/src and its text."""
    if commit:
        names = git('ls-tree', '-r', '--name-only', commit[0]).split('\n')
        read = lambda name: git('show', f'{commit[0]}:{name}')
    else:
        names = git('ls-files').split('\n')
        read = lambda name: open(name).read()
    return {n: read(n) for n in names if re.fullmatch(r'crates/[^/]+/src/.*\.rt', n)}


class Function:
    def __init__(self, file, line, name, head, body):
        self.file, self.line, self.name, self.head, self.body = file, line, name, head, body

    def __str__(self):
        return f'{self.file}:{self.line} {self.name}'


def functions(file, text):
    lines = text.split('\n')
    for i, line in enumerate(lines):
        m = re.match(r'(\s*)(?:pub(?:\([a-z]+\))? )?(?:unsafe )?(?:extern "C" )?fn (\w+)', line)
        if not m:
            continue
        indent, name = m.groups()
        head, j = [line], i
        while not re.match(r'(?!\s*(?:ensures|requires)\b).*(\{|\{\}|;)$', lines[j]):
            j += 1
            head.append(lines[j])
        if not lines[j].endswith('{'):
            continue
        k = j + 1
        while lines[k] != indent + '}':
            k += 1
        yield Function(file, i + 1, name, '\n'.join(head), '\n'.join(lines[j + 1:k]))


TOKEN = re.compile(r'"(?:[^"\\]|\\.)*"|[A-Za-z_]\w*|\d\w*|[^\s\w]')
WORDS = set('if else match for in loop while let mut return break continue self as Some None Ok Err true false'.split())


def shape(code):
    """The tokens with every name and number taken away."""
    out = []
    for t in TOKEN.findall(re.sub(r'//.*', '', code)):
        out.append(t if t in WORDS else 's' if t[0] == '"' else 'i' if re.match(r'[A-Za-z_]', t) else 'n' if t[0].isdigit() else t)
    return tuple(out)


def lines_with(files, pattern):
    rx = re.compile(pattern)
    return [f'{f}:{n + 1} {line.strip()}' for f, text in files.items() for n, line in enumerate(text.split('\n')) if rx.search(line)]


def parameters(head):
    m = re.search(r'\((.*?)\)\s*(?:->|\n|where|\{|$)', head.replace('\n', ' '))
    found = re.findall(r'(\w+): ([^,()]+(?:\([^)]*\))?)', m.group(1)) if m else []
    return frozenset((n, t.strip()) for n, t in found)


def travelling(funs):
    """Three parameters or more, of the same names and types, in three functions or more of a crate."""
    by_set = defaultdict(set)
    for a in funs:
        for b in funs:
            if a.file.split('/')[1] == b.file.split('/')[1]:
                both = parameters(a.head) & parameters(b.head)
                if len(both) >= 3:
                    by_set[(a.file.split('/')[1], both)] |= {str(a), str(b)}
    return [f'{c}: ' + ', '.join(sorted(n for n, _ in p)) + ' in ' + '; '.join(sorted(fs)) for (c, p), fs in by_set.items() if len(fs) >= 3]


def clauses(funs):
    """A clause, word for word, in three contracts or more of a crate."""
    where = defaultdict(list)
    for f in funs:
        for c in re.findall(r'(?:ensures|requires)(?: \w+)? \{ (.*) \}', f.head):
            if 'result' not in c and len(c) > 8:
                where[(f.file.split('/')[1], c)].append(str(f))
    return [f'{c}: {t} in ' + '; '.join(fs) for (c, t), fs in where.items() if len(fs) >= 3]


def same_shape(funs):
    groups = defaultdict(list)
    for f in funs:
        s = shape(f.body)
        if len(s) >= 12:
            groups[s].append(str(f))
    return ['; '.join(g) for g in groups.values() if len(g) > 1]


def calls(f):
    """How many arms of f are one call."""
    return len(re.findall(r'^\s+[A-Z_0-9][^=]*=> (?:self\.)?[a-z]\w*\([^(){}]*\)\??,$', f.body, re.M))


def main():
    files = sources()
    funs = [f for name, text in files.items() for f in functions(name, text)]
    bodies = lambda p: [str(f) for f in funs if re.search(p, f.body)]
    looks = [
        ('1', 'enums', lines_with(files, r'^(pub )?enum ')),
        ('1', 'arms from a number to a kind, or back', lines_with(files, r'^\s+(\d+ => (Some|Ok)?\(?[A-Z]\w*::\w+|[A-Z]\w*::\w+(\(_\)| \{ \.\. \})? => (Some\()?\d+\)?,)')),
        ('1', 'a flag with a value, a bool for success', lines_with(files, r'let \(has_|\(bool, |return (true|false);|-> Result<bool')),
        ('1', 'Ok and Err, Some and None passed on by hand', lines_with(files, r'^\s+(Ok\((\w+)\) => Ok\(\2\)|None => None|None => Ok\(\(\)\)|None => Err\(|Err\(\w*\) => (return )?Err\()')),
        ('2', 'groups of functions of one shape', same_shape(funs)),
        ('2', 'constants declared again', lines_with(files, r'^(pub )?const (DEVICES|SIZE|LENT|CORE_WORDS|LIMIT|MOST)\b')),
        ('3', 'for over a range of numbers', lines_with(files, r'for \w+ in [^{]*\.\.')),
        ('3', 'loop and while', lines_with(files, r"^\s*('\w+: )?(loop|while)\b")),
        ('3', 'a search: a for that returns from its midst', bodies(r'(?s)\bfor [^{]*\{[^}]*\bif [^{]*\{\s*(return|break)')),
        ('3', 'a count kept by hand', lines_with(files, r'^\s+\w+ = \w+\.(saturating|wrapping)_add\(1\);')),
        ('4', 'impls of From, TryFrom and Display', lines_with(files, r'^impl.* (From<.*>|TryFrom<.*>|fmt::Display) for ')),
        ('4', 'comparisons by hand', lines_with(files, r'fn (same|equal)_?\w*\(|\.code\(\) == |\w+\.number == \w+\.number')),
        ('4', 'conversions by a function of their own', lines_with(files, r'fn (from_\w+|to_\w+|\w+_from|of|stop_\w+|code|tag|name)\(')),
        ('5', 'parameters that travel together', travelling(funs)),
        ('5', 'clauses in three contracts or more', clauses(funs)),
        ('6', 'a count beside an array', lines_with(files, r'^\s+(pub )?(count|begin): u32,')),
        ('6', 'static tables', lines_with(files, r'^(pub )?(static|const) \w+: \[')),
        ('7', 'a match of three arms or more that each only call a function', [str(f) for f in funs if calls(f) >= 3]),
        ('7', 'function pointers and dyn', lines_with(files, r'\bdyn \w|: fn\(')),
    ]
    for point, what, found in looks:
        if only and point not in only:
            continue
        print(f'{point}  {what}: {len(found)}')
        if '--list' in sys.argv:
            print(''.join(f'     {x}\n' for x in found), end='')


main()
