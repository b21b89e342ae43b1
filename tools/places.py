#!/usr/bin/env python3
"""Lists the places in src/ that read like an older language, by the eight points of docs/DESIGN-PASS.md.
usage: tools/places.py [COMMIT] [POINT..]     (the work tree where no commit is given)
A row is a place to look at, not a verdict: the page says of each what became of it."""
import re, subprocess, sys

args = sys.argv[1:]
commit = args.pop(0) if args and not args[0].isdigit() else None
points = [int(a) for a in args] or [1, 2, 3, 4, 5, 6, 7, 8]


def git(*words):
    return subprocess.run(['git', *words], capture_output=True, text=True, check=True).stdout


def files(*globs):
    names = git('ls-tree', '-r', '--name-only', commit) if commit else git('ls-files', '-co', '--exclude-standard')
    wanted = re.compile('|'.join(globs))
    return sorted(n for n in set(names.split('\n')) if wanted.fullmatch(n))


def text(name):
    return git('show', f'{commit}:{name}') if commit else open(name, encoding='utf-8').read()


def code(name):
    """The lines of a file with no comments, clauses or imports."""
    for n, line in enumerate(text(name).split('\n'), 1):
        bare = line.split('//')[0].rstrip()
        if bare.strip() and not re.match(r'\s*(ghost|ensures|requires|use|pub use)\b', bare):
            yield n, bare


src = files(r'crates/[^/]*/src/.*\.rt')
PATTERNS = {
    1: [r'\benum [A-Z]', r'\b(code|rule|cause|number): (u8|u32|usize)', r'-> (io::Result<)?bool', r'\w+: bool\b'],
    3: [r'^\s*for ', r'^\s*while ', r'^\s*loop\b'],
    4: [r'fn (number|code|letter|from_code|into_\w+|new)\(', r'\bas (u8|u32|u64|usize|char)\b', r'let \w+ = self\.\w+(\(\))?;$',
        r'\.max\(.*\.min\(', r'\b(eq|cmp|clone)\('],
    5: [r'disk: usize, row: usize', r'stripe: usize, index: usize', r'\brow: usize,$', r'\bindex: usize,$', r'width\(?\)?( - |\.saturating_sub\()1',
        r'rt: &HostRuntime'],
    6: [r'\[[\w:<>]+; [A-Z_0-9]+\]', r'\b(used|len|count|length): usize,$', r'\.get\(\w+ \* '],
    7: [r'\bdyn\b', r'\bfn\(', r'\b[A-Z]: Fn', r'impl Fn', r'match (call|step|self\.state|phase)\b'],
}


def by_pattern(point):
    for name in src:
        for n, line in code(name):
            if any(re.search(p, line) for p in PATTERNS[point]):
                yield f'{name}:{n}: {line.strip()}'


def bodies():
    """Each function and struct with its body, names and numbers made alike."""
    for name in src:
        lines = list(code(name))
        for k, (n, line) in enumerate(lines):
            head = re.match(r'\s*(?:pub(?:\(crate\))? )?(fn|struct) (\w+)', line)
            if not head:
                continue
            depth, body, open_ = 0, [], False
            for _, part in lines[k:]:
                depth += part.count('{') - part.count('}')
                open_ = open_ or '{' in part
                body.append(part.strip())
                if (open_ and depth <= 0) or part.rstrip().endswith(';') and not open_:
                    break
            inner = ' '.join(body)
            inner = inner[inner.find('{'):] if '{' in inner else ''
            shape = re.sub(r'\b\d[\w]*\b', 'n', re.sub(r'\b[A-Za-z_]\w*\b', 'x', inner))
            yield name, n, head.group(1), head.group(2), shape


def twins():
    groups = {}
    for name, n, kind, word, shape in bodies():
        if len(shape) >= (10 if kind == 'struct' else 16):
            groups.setdefault((kind, shape), []).append(f'{name}:{n} {word}')
    for (kind, _), places in groups.items():
        if len(places) > 1:
            yield f'{kind} ' + ' ~ '.join(places)


def proofs():
    for name in files(r'crates/[^/]*/proofs/.*\.antt'):
        if name.endswith(('Answers.antt', 'Invariants.antt')):
            yield name
    for name in src + files(r'crates/[^/]*/specs/.*\.antt'):
        for n, line in enumerate(text(name).split('\n'), 1):
            if re.search(r'\b(Decides|cond|eqb|get_or)\b', line) and not re.match(r'\s*(ghost )?use ', line):
                yield f'{name}:{n}: {line.strip()[:120]}'


for point in points:
    rows = list(twins() if point == 2 else proofs() if point == 8 else by_pattern(point))
    print(f'point {point}: {len(rows)}')
    for row in rows:
        print('  ' + row)
