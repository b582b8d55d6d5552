"""perfdoc.py NEW BASE DOC: puts the tables of tools/bench (NEW) and of `tools/bench --only-placements` of what was before
(BASE) into docs/PERFORMANCE.md."""
import re, sys
new, base, doc = (open(p).read() for p in sys.argv[1:4])
number = lambda x: f'{int(x):,}' if re.fullmatch(r'\d{4,}', x) else x
name = lambda x: re.sub(r'\b(\d{4,})\b', lambda m: f'{int(m.group(1)):,}', x)
def table(text, title):
    i = text.index(title); rows = []
    for l in text[i:].split('\n')[1:]:
        if not l.startswith('|'):
            if rows: break
            continue
        rows.append([c.strip() for c in l.strip().strip('|').split('|')])
    return rows[2:]
line = lambda cells: '| ' + ' | '.join(cells) + ' |'
def put(section, rows):
    """Replace the rows of the first table after a heading."""
    global doc
    i = doc.index(section)
    j = doc.index('\n|---', i)
    j = doc.index('\n', j + 1) + 1
    k = j
    while doc[k] == '|': k = doc.index('\n', k) + 1
    doc = doc[:j] + ''.join(line(r) + '\n' for r in rows) + doc[k:]
def head(section, cells):
    global doc
    i = doc.index(section); i = doc.index('\n| row', i) + 1; j = doc.index('\n', doc.index('\n', i) + 1)
    doc = doc[:i] + line(cells) + '\n|' + '---|' * len(cells) + doc[j:]
pb = {r[0]: r for r in table(base, 'Ratios to')}
P = '## Ratios to the Rust'
head(P, ['row', 'before: ours', 'words', 'ours', 'from', 'to', 'words', 'from', 'to'])
put(P, [[name(r[0]), *((pb[r[0]][1], pb[r[0]][4]) if r[0] in pb else ('', ''))] + r[1:] for r in table(new, 'Ratios to')])
times = table(new, 'Rows of the goal: medians') + table(new, 'Other entries: medians')
put('## Times of one build', [[name(r[0])] + [number(c) for c in r[1:]] for r in times])
put('## Instructions', [[name(r[0])] + r[1:] for r in table(new, 'Instructions a row')])
put('## Time by the size', [[number(r[0])] + r[1:] for r in table(new, 'Nanoseconds a token')])
open(sys.argv[3], 'w').write(doc)
for r in table(new, '\nStack\n'): print(r)
