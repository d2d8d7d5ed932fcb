#!/usr/bin/env python3
"""design_counts.py [COMMIT]: counts, in crates/*/src of a commit or of the work tree, the places that docs/DESIGN-PASS.md speaks of.
With -v each place is listed. A place that stays has a line '// Kept (point N): reason' in or right above it; a fact of several contracts has one in each file."""
import collections, re, subprocess, sys

args = [a for a in sys.argv[1:] if a != '-v']
verbose = '-v' in sys.argv
commit = args[0] if args else None


def sources():
    if commit:
        names = subprocess.run(['git', 'ls-tree', '-r', '--name-only', commit, 'crates'], capture_output=True, text=True, check=True).stdout.split()
    else:
        names = subprocess.run(['git', 'ls-files', '-co', '--exclude-standard', 'crates'], capture_output=True, text=True, check=True).stdout.split()
    for name in sorted(set(names)):
        if re.match(r'crates/\w+/src/.*\.rt$', name):
            text = subprocess.run(['git', 'show', f'{commit}:{name}'], capture_output=True, text=True, check=True).stdout if commit else open(name).read()
            yield name, text


class Fn:
    pass


def functions(name, text):
    """The functions of a file: name, the comment above, parameters, clauses, body, line."""
    lines = text.split('\n')
    found = []
    i = 0
    while i < len(lines):
        m = re.match(r'^(\s*)(pub(\(crate\))? )?(extern "C" )?fn (\w+)', lines[i])
        if not m:
            i += 1
            continue
        pad = m.group(1)
        f = Fn()
        f.file, f.line, f.name = name, i + 1, m.group(5)
        f.comment = []
        j = i - 1
        while j >= 0 and (lines[j].strip().startswith('//') or lines[j].strip().startswith('#[')):
            f.comment.insert(0, lines[j].strip())
            j -= 1
        j = i
        while j < len(lines) and lines[j] != pad + '{' and not lines[j].rstrip().endswith(' {') and not lines[j].rstrip().endswith(';'):
            j += 1
        k = j
        while k < len(lines) and lines[k] != pad + '}' and not (k == j and lines[k].rstrip().endswith(';')):
            k += 1
        f.head = '\n'.join(lines[i:j + 1])
        f.body = '\n'.join(lines[j + 1:k])
        f.first, f.last = i, k
        found.append(f)
        i = j + 1
    return found


def kept(f, point):
    """Whether a line in the function or right above it says why it stays, or one above an earlier function of the file that begins 'here and below'."""
    line = f'Kept (point {point})'
    return line in f.body or any(line in c for c in f.comment) or any(
        g.file == f.file and g.line < f.line and any(f'{line}: here and below' in c for c in g.comment) for g in fns)


rows = collections.OrderedDict()


def place(point, what, where, is_kept):
    rows.setdefault((point, what), []).append((where, is_kept))


files = dict(sources())
fns = [f for name, text in files.items() for f in functions(name, text)]
programs = re.compile(r'crates/(cases|vectors|levels)/')

# 1. own enums of the shape of Option or Result: two variants, or three of which one is a refusal; results that are such; none as a number; kinds as numbers
for name, text in files.items():
    for m in re.finditer(r'^(?:pub )?enum (\w+) \{\n(.*?)^\}', text, re.S | re.M):
        above = text[:m.start()].split('\n\n')[-1]
        variants = re.findall(r'^    (\w+)', m.group(2), re.M)
        refuses = 'Refused' in variants
        if len(variants) == 2 or (refuses and len(variants) == 3):
            place(1, 'own enum of the shape of Option or Result', f'{name}: {m.group(1)}', 'Kept (point 1)' in above)
    for n, l in enumerate(text.split('\n')):
        if re.match(r' *if let \w+::Refused\(why\) = \w+ \{', l):
            place(1, 'refusal handed on by hand', f'{name}:{n + 1}', False)
    if programs.match(name):
        for m in re.finditer(r'^(?:pub )?const ([A-Z_]+): (usize|u64) = \d+;', text, re.M):
            crate = '\n'.join(t for n, t in files.items() if n.split('/')[1] == name.split('/')[1])
            c = m.group(1)
            if f'index({c})' in crate:
                continue  # a place in a row
            if f'{c} =>' in crate or f'a::{c}' in crate or f'show::{c}' in crate or re.search(r'(say_name|say_line|say_both|answer:)[^;\n]*\b%s\b' % c, crate):
                place(1, 'number for a kind', f'{name}: {c}', False)
for f in fns:
    text = ' '.join(f.comment)
    if re.search(r'where (there is none|none (does|holds|is)|it is in none|none\b|it does not)', text) and re.search(r'-> (usize|u16|u8)', f.head):
        place(1, 'a number that stands for none', f'{f.file}:{f.line} {f.name}', kept(f, 1))

# 2. functions whose text is the same but for names, types and numbers
keyword = set('for in while if else let mut return fn pub as break continue loop match ref true false self'.split())


def shape(f):
    sig = re.sub(r'\s+', ' ', re.split(r'\n\s+(requires|ensures)', f.head)[0])
    toks = re.findall(r'[A-Za-z_]\w*|\d\w*|[^\s\w]', sig + ' ' + re.sub(r'//.*', '', f.body))
    seen, out = {}, []
    for t in toks:
        if t in keyword or not re.match(r'\w', t):
            out.append(t)
        elif t[0].isdigit():
            out.append('9')
        else:
            out.append('n%d' % seen.setdefault(t, len(seen)))
    s = re.sub(r' +', ' ', ' '.join(out))
    return re.sub(r' [|&^]=? ', ' op ', s)


groups = collections.defaultdict(list)
for f in fns:
    if not re.search(r'crates/mogzift_c/', f.file) and f.body.count('\n') >= 2:
        groups[shape(f)].append(f)
for g in groups.values():
    if len(g) > 1:
        place(2, 'functions that differ in names, types or numbers', ', '.join(f'{f.file[7:]}:{f.line} {f.name}' for f in g), any(kept(f, 2) for f in g))

# 3. loops
for f in fns:
    body = f.body.split('\n')
    for n, l in enumerate(body):
        m = re.match(r"^(\s*)('\w+: )?(while|for) (.*)\{$", l)
        if not m:
            continue
        inner = []
        for q in body[n + 1:]:
            if q.startswith(m.group(1) + '}'):
                break
            inner.append(q)
        inner = '\n'.join(inner)
        cond = m.group(4)
        above = body[n - 1] if n else ''
        is_kept = 'Kept (point 3)' in above or kept(f, 3)
        where = f'{f.file}:{f.line} {f.name}: {l.strip()}'
        if m.group(3) == 'while':
            if re.search(r'others\(', inner):
                place(3, 'members of a set taken out by hand', where, is_kept)
            else:
                place(3, 'while with an index or place moved by hand', where, is_kept)
        else:
            v = re.match(r'(\w+) in (.*)\.\.(.*?) ?$', cond)
            if v and re.search(r'\[[^\]]*\b%s\b[^\]]*\]' % v.group(1), inner):
                slices = set(re.findall(r'([\w.]+)\[[^\]]*\b%s\b[^\]]*\]' % v.group(1), inner))
                place(3, 'for over the index of one slice' if len(slices) == 1 else 'for over the index of several slices', where, is_kept)

# 4. conversions, comparisons and printing by hand
for f in fns:
    if re.match(r'(number|place|wide\w*|low_\w+|product|low_product|larger|most|least|digit|with_(two|four|word|byte)|say\w*|show_\w+|end_line|put_decimal|put)$', f.name):
        place(4, 'conversion, order or printing by hand', f'{f.file}:{f.line} {f.name}', kept(f, 4))

# 5. facts in three or more contracts, and parameters that travel together
facts = collections.defaultdict(list)
together = collections.defaultdict(list)
for f in fns:
    if 'crates/mogzift_c/' in f.file:
        continue
    for clause in re.findall(r'requires(?: \w+)? \{(.*?)\}\n', f.head + '\n', re.S):
        for part in re.split(r' × |\n\s+× ', clause):
            part = re.sub(r'\s+', ' ', part).strip(' ()')
            part = re.sub(r'\.(now|old|entry)\b', '', part)
            if part and not re.search(r'^\w+ [<≤] |^\w+\.0 < 2', part):
                facts[part].append(f)
    sig = re.split(r'\n\s+(?:requires|ensures)', f.head)[0]
    names = re.findall(r'(\w+): ', sig)
    if len(names) >= 8:
        place(5, 'function with eight or more parameters', f'{f.file}:{f.line} {f.name} ({len(names)})', kept(f, 5))
for fact, users in facts.items():
    if len(users) >= 3:
        place(5, 'fact asked for in three or more contracts', f'{fact}: {len(users)} in ' + ', '.join(sorted({u.file[7:] for u in users})), all(any(kept(u, 5) for u in users if u.file == name) for name in {u.file for u in users}))

# 6. memory with a place or a length beside it
for f in fns:
    sig = re.split(r'\n\s+(?:requires|ensures)', f.head)[0]
    if re.search(r'&(?:mut )?\[\w+\],?\s+(?:at|to|from|count|row|base): usize', sig):
        place(6, 'slice with a place or a count beside it', f'{f.file}:{f.line} {f.name}', kept(f, 6))

# 7. a switch on which step to run
for f in fns:
    for m in re.finditer(r'^\s*match (kind|letter|answer|name)\b', f.body, re.M):
        place(7, 'switch on a number or a letter', f'{f.file}:{f.line} {f.name}', kept(f, 7))

for (point, what), found in rows.items():
    print(f'{point}. {what}: {len(found)}, of which {sum(k for _, k in found)} have a line that says why they stay')
    if verbose:
        for where, k in found:
            print(f'     {"kept  " if k else "      "}{where}')
lines = sum(t.count('\n') for t in files.values())
print(f'lines of src: {lines}; functions: {len(fns)}; lines "Kept (point": {sum(t.count("Kept (point") for t in files.values())}')
