"""diffdoc.py COMPARED LIBC LIBW DOC: puts the tables of tools/compare into docs/DIFFERENCES.md, with the libraries' SHA-256."""
import re, sys, hashlib
text = open(sys.argv[1]).read(); sha = [hashlib.sha256(open(p,'rb').read()).hexdigest() for p in sys.argv[2:4]]; doc = open(sys.argv[4]).read()
n = lambda x: f'{int(x):,}'
rows = [l.split() for l in text.split('\n')]
i = next(k for k, r in enumerate(rows) if r[:1] == ['family']); j = next(k for k, r in enumerate(rows) if r[:1] == ['all'])
table = ''.join('| ' + ' | '.join([r[0]] + [n(x) for x in r[1:]]) + ' |\n' for r in rows[i+1:j+1])
a = doc.index('| family | rows'); a = doc.index('|---', a); a = doc.index('\n', a) + 1; b = a
while doc[b] == '|': b = doc.index('\n', b) + 1
doc = doc[:a] + table + doc[b:]
numbers = re.findall(r'(\d+): (\d+)', next(l for l in text.split('\n') if l.startswith('refused by number')))
a = doc.index('Questions by refusal number:'); a = doc.index('\n', a) + 2; b = doc.index('\nIt takes ', a)
parts = [numbers[k:k+9] for k in range(0, len(numbers), 9)]
doc = doc[:a] + '\n'.join('| ' + ' | '.join(x for x, _ in p) + ' |\n|' + '---|' * len(p) + '\n| ' + ' | '.join(n(y) for _, y in p) + ' |\n' for p in parts) + doc[b:]
old = re.findall(r'\b[0-9a-f]{64}\b', doc)
for o, s in zip(old, sha): doc = doc.replace(o, s)
al = rows[j]
doc = re.sub(r'each time [\d,]+ rows, [\d,]+ questions', f'each time {n(al[1])} rows, {n(al[2])} questions', doc)
open(sys.argv[4], 'w').write(doc)
