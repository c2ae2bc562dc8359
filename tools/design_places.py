#!/usr/bin/env python3
"""Lists the places in crates/*/src that read like an older language, point by point, and counts them.

    python3 tools/design_places.py [FOLDER]        FOLDER is a checkout; the default is the one this file lies in
    python3 tools/design_places.py [FOLDER] --counts

It goes by text and finds candidates: what each one is, a reader says (docs/DESIGN-PASS.md).
"""
import pathlib
import re
import sys

ROOT = pathlib.Path(__file__).resolve().parent.parent
NUMBERS = r'u8|u16|u32|u64|i64|usize'


def sources(root):
    """Each source file as (name, lines)."""
    for path in sorted(root.glob('crates/*/src/**/*.rt')):
        yield str(path.relative_to(root)), path.read_text().split('\n')


def functions(lines):
    """Each function as (line, name, head, body): the head goes to its opening brace, clauses included."""
    i = 0
    while i < len(lines):
        m = re.match(r'(\s*)(pub(\([a-z]+\))? )?fn ([a-z_0-9]+)', lines[i])
        if not m:
            i += 1
            continue
        indent, start = m.group(1), i
        while i < len(lines) and not (lines[i].rstrip().endswith('{') and not re.match(r'\s*(requires|ensures)', lines[i])
                                      or lines[i] == indent + '{' or lines[i].rstrip().endswith(';')):
            i += 1
        head = lines[start:i + 1]
        end = i
        while end < len(lines) and lines[end] != indent + '}' and not lines[i].rstrip().endswith(';'):
            end += 1
        yield start + 1, m.group(4), head, lines[i + 1:end]
        i = end + 1


def point1(name, lines):
    text = '\n'.join(lines)
    for m in re.finditer(r'enum (\w+)[^{]*\{([^}]*)\}', text):
        cases = re.findall(r'^\s*(\w+)', m.group(2), re.M)
        like = [c for c in cases if c in ('None', 'Nothing', 'No', 'Missing', 'Refused', 'Fault', 'Failed', 'Ok', 'Err')]
        if like:
            yield text[:m.start()].count('\n') + 1, f'enum {m.group(1)} with the case {", ".join(like)}'
    for line, fn, head, body in functions(lines):
        sign = ' '.join(head).split('ensures')[0].split('requires')[0]
        if '&mut' in sign and re.search(r'-> bool\b', sign):
            yield line, f'fn {fn} changes something and answers a bool'
        if re.search(r'-> .*(Option<u8>|\(u8, u8\))', sign):
            yield line, f'fn {fn} answers the number of a kind'
        if re.fullmatch(r'\(?(code|wall) == \d+\)?', ' '.join(b.strip() for b in body if b.strip())):
            yield line, f'fn {fn} tests the number of a kind'
    for i, line in enumerate(lines):
        if re.search(r'//.*(\b0 (past|where|while)\b|is 0\.|list\'s length where|zeros where|no such good)', line):
            yield i + 1, 'a number that says there is none: ' + line.strip(' /')[:90]


def shape(line):
    line = re.sub(rf'\b({NUMBERS})\b', 'T', line.strip())
    return re.sub(r'\b\d[\d_]*\b', 'N', line)


def point2(files):
    """Functions of one name in two places, and runs of five like lines of code."""
    seen = {}
    for name, lines in files:
        for line, fn, head, body in functions(lines):
            if not head[-1].rstrip().endswith(';') and fn not in ('main', 'new', 'from', 'fmt'):
                seen.setdefault(fn, []).append(f'{name}:{line}')
    for fn, places in sorted(seen.items()):
        if len(places) > 1:
            yield ' ~ '.join(places), f'fn {fn}'
    runs = {}
    for name, lines in files:
        if name.startswith('crates/figures'):
            continue
        code = [(i + 1, shape(l)) for i, l in enumerate(lines)
                if l.strip() and not re.match(r'\s*(//|ghost use|use |#|[{}\])]+[,;]?$|requires|ensures)', l)]
        for k in range(len(code) - 4):
            runs.setdefault(tuple(s for _, s in code[k:k + 5]), []).append((name, code[k][0]))
    last = {}
    for run, places in runs.items():
        if len(places) > 1:
            key = tuple(p[0] for p in places)
            lines = tuple(p[1] for p in places)
            if key in last and all(0 <= b - a <= 3 for a, b in zip(last[key], lines)):
                last[key] = lines
                continue
            last[key] = lines
            yield ' ~ '.join(f'{n}:{l}' for n, l in places), 'five like lines: ' + run[0][:70]


def point3(name, lines):
    for line, fn, head, body in functions(lines):
        for i, text in enumerate(body):
            m = re.match(r'\s*for (\w+) in (.*\.\..*) \{', text)
            if m and m.group(1) != '_' and re.search(rf'\[[^\]]*\b{m.group(1)}\b[^\]]*\]', '\n'.join(body[i + 1:])):
                yield line + len(head) + i, f'fn {fn}: {text.strip()} as an index'
            elif m:
                yield line + len(head) + i, f'fn {fn}: {text.strip()}'
            elif re.match(r'\s*(while|loop)\b', text):
                yield line + len(head) + i, f'fn {fn}: {text.strip()}'


def point4(name, lines):
    for i, text in enumerate(lines):
        m = re.match(r'impl.* (PartialEq|Eq|PartialOrd|Ord|Clone|Copy|From<.*>|TryFrom<.*>|Display|Debug|fmt::Display) for', text)
        if m:
            yield i + 1, text.strip(' {')
    for line, fn, head, body in functions(lines):
        if re.match(r'(same|equal|eq|cmp|compare|copy|print|push|said|to|number|code)(_|$)|.*_(text|line|of_step|of_found|of_refined)$', fn):
            yield line, f'fn {fn}'


def clauses(head):
    text = ' '.join(l.strip() for l in head)
    for kind, body in re.findall(r'(requires|ensures)(?: \w+)? \{ (.*?) \}(?= requires| ensures| \{|$|;)', text):
        for part in re.split(r' × | → ', body):
            part = part.strip()
            while part.startswith('(') and part.count('(') > part.count(')'):
                part = part[1:]
            while part.endswith(')') and part.count(')') > part.count('('):
                part = part[:-1]
            if part.startswith('(') and part.endswith(')') and part.find(')') == len(part) - 1:
                part = part[1:-1]
            if len(part) > 7 and not re.match(r'result|\w+ : |IfOk', part):
                yield re.sub(r'\b(self|market|run|point)\.(now|old|new)\b', r'\1', part)


def point5(files):
    facts, groups = {}, {}
    for name, lines in files:
        for line, fn, head, body in functions(lines):
            if head[-1].rstrip().endswith(';'):
                continue
            for fact in set(clauses(head)):
                facts.setdefault(fact, []).append(f'{name}:{fn}')
            sign = ' '.join(l.strip() for l in head).split(' requires ')[0].split(' ensures ')[0]
            args = re.findall(r'(\w+): ([^,()]+(?:\([^)]*\))?)', sign.split('->')[0])
            args = sorted({(a, re.sub(r"'\w+ ", '', t).strip()) for a, t in args})
            for k in range(len(args)):
                for other in args[k + 1:]:
                    groups.setdefault((args[k], other), []).append(f'{name}:{fn}')
    for fact, places in sorted(facts.items(), key=lambda p: -len(p[1])):
        if len(places) > 2:
            yield f'{len(places)} contracts', fact[:110]
    for (a, b), places in sorted(groups.items(), key=lambda p: -len(p[1])):
        if len(places) > 2:
            yield f'{len(places)} functions', f'({a[0]}: {a[1]}, {b[0]}: {b[1]})'


def point6(name, lines):
    text = '\n'.join(lines)
    for m in re.finditer(r'struct (\w+)[^{;]*\{([^}]*)\}', text):
        tables = re.findall(r'(\w+): \[(\w+); (\d+)\]', m.group(2))
        counts = re.findall(r'(\w+): usize', m.group(2))
        at = text[:m.start()].count('\n') + 1
        if tables and (counts or 'grid: Grid' in m.group(2) or 'mesh: u32' in m.group(2)):
            yield at, f'struct {m.group(1)}: {", ".join(t[0] for t in tables)} beside a count'
        sizes = [(t[1], t[2]) for t in tables]
        for s in sorted(set(sizes)):
            if sizes.count(s) > 1:
                yield at, f'struct {m.group(1)}: parallel tables {", ".join(t[0] for t in tables if (t[1], t[2]) == s)}'
    for line, fn, head, body in functions(lines):
        sign = ' '.join(head).split('ensures')[0].split('requires')[0]
        if re.search(r'&mut \[u8\].*-> (io::Result<)?usize', sign):
            yield line, f'fn {fn} fills a buffer and answers a length'
        if re.match(r'(find|search|lookup|carrier|unowned|last_priced)', fn):
            yield line, f'fn {fn} searches'


def point7(name, lines):
    for line, fn, head, body in functions(lines):
        text = '\n'.join(body)
        arms = re.findall(r'=> (?:\w+\()?\w+(?:::\w+|\.\w+)*\(', text)
        if 'match' in text and len(arms) >= 3:
            yield line, f'fn {fn}: a match picks one of {len(arms)} calls'
        sign = ' '.join(head).split('ensures')[0].split('requires')[0]
        if re.search(r'\b(up|down|left|right|first|last): bool', sign):
            yield line, f'fn {fn}: a bool picks the way'
        if re.search(r'\bfn\(|dyn |impl Fn', sign):
            yield line, f'fn {fn}: takes a function or a trait object'


def point8(root):
    for crate in sorted(p for p in root.glob('crates/*') if p.is_dir()):
        answers = list(crate.glob('proofs/**/Answers.antt'))
        files = list(crate.glob('proofs/**/*.antt'))
        lines = sum(len(f.read_text().split('\n')) for f in files)
        named = sum(len(re.findall(r'^pub ', f.read_text(), re.M)) for f in answers)
        lemmas = sum(len(re.findall(r'^pub [^:]*:', f.read_text(), re.M)) for f in crate.glob('proofs/*.antt'))
        if files:
            yield crate.name, f'{len(files)} files, {lines} lines; {named} answers in {len(answers)} files, {lemmas} lemmas of its own in proofs/'


def main():
    words = [w for w in sys.argv[1:] if not w.startswith('--')]
    root = pathlib.Path(words[0]) if words else ROOT
    files = list(sources(root))
    each = lambda find: [(f'{n}:{line}', what) for n, lines in files for line, what in find(n, lines)]
    points = [each(point1), list(point2(files)), each(point3), each(point4), list(point5(files)), each(point6), each(point7), list(point8(root))]
    for number, found in enumerate(points, 1):
        print(f'point {number}: {len(found)}')
        if '--counts' not in sys.argv:
            for place, what in found:
                print(f'    {place}  {what}')


main()
