#!/usr/bin/env python3
"""Counts the places in crates/*/src where today's Rattle has a plainer form, point by point (docs/DESIGN-PASS.md says what each point is).

    tools/places.py [--list] [TREE]     TREE: a checkout, else this one; --list prints each place
"""
import collections
import pathlib
import re
import sys

args = [a for a in sys.argv[1:] if a != '--list']
listing = '--list' in sys.argv
root = pathlib.Path(args[0]) if args else pathlib.Path(__file__).resolve().parent.parent

HEAD = re.compile(r'^( *)((?:pub(?:\(crate\))? )?(?:extern "C" )?(?:const )?fn (\w+).*?)\n\1\{\n(.*?)^\1\}\n', re.S | re.M)
places = collections.OrderedDict()


def note(point, what, where):
    places.setdefault((point, what), []).append(where)


class Function:
    def __init__(self, crate, path, line, name, head, body):
        self.crate, self.path, self.line, self.name, self.head, self.body = crate, path, line, name, head, body
        inner = re.search(r'fn \w+(?:<[^>(]*>)?\((.*?)\)(?: ->|\s|$)', head, re.S)
        self.parameters = [' '.join(p.split()) for p in re.split(r',\s*(?![^<\[(]*[>\])])', inner.group(1)) if ':' in p] if inner else []
        self.clauses = re.findall(r'(requires|ensures)(?: \w+)? \{(.*?)\}\s*(?=requires|ensures|$)', head, re.S)

    def at(self):
        return f'{self.crate}/{self.path}:{self.line} {self.name}'


functions = []
for source in sorted(root.glob('crates/*/src/**/*.rt')):
    crate = source.relative_to(root / 'crates').parts[0]
    if crate == 'host_c':
        continue
    text = source.read_text()
    for m in HEAD.finditer(text):
        functions.append(Function(crate, source.name, text[:m.start()].count('\n') + 1, m.group(3), m.group(2), m.group(4)))
    for m in re.finditer(r'pub struct (\w+)[^{;]*\{(.*?)\n\}', text, re.S):
        fields = re.findall(r'(\w+): ([^,\n]+)', m.group(2))
        names = [f for f, _ in fields]
        where = f'{crate}/{source.name} {m.group(1)}'
        if ('ok', 'bool') in fields:
            note(1, 'a struct with a flag `ok` beside values', where)
        if 'number' in names and 'place' in names:
            note(1, 'a struct with a refusal by number', where)
        if 'first' in names and 'next' in names and re.search(rf'-> {m.group(1)}\n', text + ''.join(p.read_text() for p in source.parent.glob('*.rt'))):
            note(1, 'a struct whose equal fields say that there is nothing', where)
        for f in names:
            if f in ('kind', 'heading') and dict(fields)[f] == 'u32':
                note(1, 'a field that has a kind by number', f'{where}.{f}')
        if any(t.startswith('[u8; 255]') for _, t in fields):
            note(6, 'a struct of an array and its count', where)
    for m in re.finditer(r'^    Refused,$', text, re.M):
        note(1, 'a variant that says that there is nothing', f'{crate}/{source.name}:{text[:m.start()].count(chr(10)) + 1}')

# 1
for f in functions:
    if re.search(r'-> Verdict\b', f.head):
        note(1, 'a function that answers a refusal by number', f.at())
    for m in re.finditer(r'\.number != 0', f.body):
        note(1, 'a test of a refusal by its number', f.at())
    for m in re.finditer(r'row_verdict\(\d+', f.body):
        note(1, 'a row of a refusal by its number', f.at())
    for m in re.finditer(r'(?:if !\w+\.ok|\.next <= \w+\.first)\b', f.body):
        note(1, 'a test of a flag beside values', f.at())

# 2
KIND = re.compile(r'\b(?:u8|u16|u32|u64|usize)\b')


def shape(f):
    text = re.sub(r'\bfn \w+', 'fn', f.head.split('\n')[0].replace('pub ', '')) + f.body
    names = {}
    own = [p.split(':')[0].split()[-1] for p in f.parameters]
    for n, p in enumerate(own):
        names[p] = f'p{n}'
    text = re.sub(r'\b(\w+?)(?:8|16)?\b', lambda m: names.get(m.group(0), m.group(1)), KIND.sub('T', text))
    text = re.sub(r'\b\d+\b|\b[A-Z_]{3,}\b', 'N', text)
    text = re.sub(r' as T\b|\s+', ' ', text)
    text = re.sub(r'pair_at\(p(\d+), ', r'p\1[', text)
    return text


groups = collections.defaultdict(list)
for f in functions:
    if f.crate != 'host' and len(f.body) > 8:
        groups[shape(f)].append(f)
for fs in groups.values():
    if len(fs) > 1:
        for f in fs:
            note(2, 'a function whose words are another\'s but for a name, a type or a number', f.at())
names = {(f.crate, f.name): f for f in functions}
for f in functions:
    m = re.fullmatch(r'(\w+?)(8|16)', f.name)
    if m and any((f.crate, m.group(1) + end) in names for end in ('', '8', '16') if end != m.group(2)):
        note(2, 'a function named for the width of its numbers', f.at())
    if any(re.match(r'(wide|inb): bool', p) for p in f.parameters):
        note(2, 'a function with a flag for a type of samples or words', f.at())

# 3
for f in functions:
    for m in re.finditer(r'^( *)while ([^{]*)\{\n(.*?)^\1\}', f.body, re.S | re.M):
        test, inside = m.group(2), m.group(3)
        counted = [v for v in re.findall(r'\b([a-z]\w*)\b', test) if re.search(rf'\b{v} [+-]= 1;', inside)]
        note(3, 'a loop that counts an index by hand' if counted else 'another while', f'{f.at()}: while {test.strip()}')

# 4
for f in functions:
    body = ' '.join(f.body.split())
    if re.fullmatch(r'if (.*) \{ (?:return )?(?:1|\w+);? \}(?: else \{ 0 \}| 0)', body) and 'len()' not in body:
        note(4, 'a number for a bool by hand', f.at())
    if re.fullmatch(r'if (\w+) < (\w+) \{ (?:return )?(?:\1|\2);? \}(?: else \{ (?:\1|\2) \}| (?:\1|\2))', body):
        note(4, 'the lesser or the greater by hand', f.at())
    if re.fullmatch(r'if (\w+) < (\w+) \{ (?:return )?\2 - \1;? \}(?: else \{ \1 - \2 \}| \1 - \2)', body):
        note(4, 'a distance by hand', f.at())
    if re.search(r'\* (?:256|65536|16777216)\b|/ (?:256|65536|16777216) %', body) and f.crate in ('block', 'store', 'olr'):
        note(4, 'bytes of a number by hand', f.at())
    for m in re.finditer(r'wrapping_add_u', body):
        note(4, 'a function of std in place of its method', f.at())
    if re.search(r'% 2147483648 \* 2', body):
        note(4, 'a rotation by hand', f.at())
    for m in re.finditer(r'(?:[=!]=|=>|return|<) (?:9|(?<!< )10|13|32|35|48|50|53|57|58|68|69|78|80|83|85|87)\b(?![.\]])', body):
        if f.crate in ('form', 'pgm', 'text'):
            note(4, 'a character by its number', f'{f.at()}: {m.group(0)}')
    for m in re.finditer(r'if [^{}]* \{ return (?:true|false); \}', body):
        note(4, 'a test told by if and return', f.at())
    if re.search(r'match \w+ \{ (?:Heading::\w+ => (?:true|false), ){4}\}', body):
        note(4, 'a comparison of an enum by hand', f.at())
    if re.fullmatch(r'if \w+ < (\w+)\.len\(\) \{ return .*\1\[\w+\]; \} \d+', body):
        note(4, 'get with a default by hand', f.at())

# 5
facts = collections.defaultdict(set)
for f in functions:
    for kind, clause in f.clauses:
        for fact in re.split(r' × (?![^(]*\))', clause):
            fact = ' '.join(re.sub(r'^\(|\)$', '', fact.strip()).split())
            fact = re.sub(r'\.(?:now|old|new)\b', '', fact)
            if kind == 'requires' and fact:
                facts[fact].add(f.at())
for fact, where in facts.items():
    if len(where) >= 3:
        note(5, 'a fact that stands in the requires of three functions or more', f'{fact} ({len(where)})')
together = collections.defaultdict(collections.Counter)
for f in functions:
    ps = sorted({re.sub(r'&mut ', '&', p.replace('mut ', '')) for p in f.parameters})
    for a in ps:
        for b in ps:
            together[f.crate][a, b] += 1
for crate, count in together.items():
    groups, taken = [], set()
    for a in sorted({a for a, b in count}):
        if a not in taken and count[a, a] >= 3:
            group = [a] + [b for b in sorted({b for _, b in count}) if b != a and count[a, b] == count[a, a] == count[b, b]]
            taken |= set(group)
            if len(group) > 1:
                note(5, 'parameters that always travel together through three functions of a crate or more', f'{crate} ({", ".join(group)}) {count[a, a]}')

# 6, 7
for f in functions:
    own = [p.split(':')[0] for p in f.parameters]
    if 'lo' in own and 'hi' in own:
        note(6, 'a function with a pair of parallel buffers', f.at())
    if {'words', 'bytes'} <= set(own):
        note(6, 'a function with two buffers of which one serves', f.at())
    for p in f.parameters:
        m = re.match(r'(four|top|plain|whole|comment|flat|high): bool', p)
        if m:
            note(7, 'a function with a switch on which step to run', f'{f.at()}: {m.group(1)}')

# 8
for proof in sorted(root.glob('crates/*/proofs/**/Proof.antt')):
    note(8, 'a proof that walks a function by hand', str(proof.relative_to(root / 'crates').parent))

for (point, what), where in sorted(places.items(), key=lambda kv: kv[0][0]):
    print(f'{point}  {len(where):4}  {what}')
    if listing:
        for w in where:
            print(f'            {w}')
lines = sum(len(p.read_text().splitlines()) for p in root.glob('crates/*/proofs/**/*.antt'))
print(f'8  {lines:5}  lines of proofs')
