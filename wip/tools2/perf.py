import re
bench=open('/tmp/bench.words.txt').read(); base=open('/tmp/bench.base2.txt').read()
def n(x): return f'{int(x):,}' if re.fullmatch(r'\d+',x) else x
def table(text,title):
    i=text.index(title); rows=[]
    for l in text[i:].split('\n')[1:]:
        if not l.startswith('|'):
            if rows: break
            continue
        rows.append([c.strip() for c in l.strip().strip('|').split('|')])
    return rows[2:]
name=lambda x: re.sub(r'\b(\d{4,})\b',lambda m:f'{int(m.group(1)):,}',x)
row=lambda c:'| '+' | '.join(c)+' |'
pl=table(bench,'Ratios to'); pb={r[0]:r for r in table(base,'Ratios to')}
goals=table(bench,'Rows of the goal: medians'); others=table(bench,'Other entries: medians')
sizes=table(bench,'Nanoseconds a token'); instr=table(bench,'Instructions a row'); stack=table(bench,'\nStack\n')
p='/work/words/docs/PERFORMANCE.md'
out=open(p).read()
memory=out[out.index('## Memory'):out.index('## Before and after')]
b=[]
w=b.append
w("""# Performance

`tools/bench` gives every figure of the first six sections in one command (about two minutes). The goal is at most 1.0
times the Rust's time on each row of the first table, checks included, and time linear in the row.

## What is measured

- **The Rust** is the oracle's `*_bare` entry: the call of the Rust's own function on tokens that were made before, and
  the reading of its reply, without the catching of panics. It checks nothing of the row.
- **Ours** is the function of the static library with columns (`penne_parse_expression` and so on), its checks of the
  whole input included, and the reading of its six numbers. **Words** is the same of the library with words
  (`penne_words_parse_expression` and so on).
- **Checks** is ours with a cursor just past the row: it checks the whole row and the state, as before a parse, and then
  refuses with 30. "Ours without" is ours less this. That takes the call and the writing of a reply off too, some 10 ns,
  which is seen in the rows of 10 tokens only.
- All are built for release and run in one process by one driver (`tools/bencher`) on the same rows. Before any timing
  the replies and all nodes are compared on each row, and each row must be accepted up to its EndOfSource.
- A sample is as many parses as take some 200 microseconds, after one that is not timed. The samples of all rows and
  sides take turns.
- **Placements:** where code lies in a program decides how it is fetched and predicted; one arrangement says little. The
  program is built eight times, each with 528 bytes more before both parsers, and of each build the times of the fastest
  5% of 100 samples are taken, which other work on the machine disturbs least. The first table has the median of the
  eight, the least and the largest.
- The other times are of one build: medians of 501 samples, and beside them those of the fastest 5%.
- The buffers have 131,075 slots on all sides. They are used again from parse to parse, and **no side clears them**,
  before or between.
- The mixed rows are made from the reading rules by a generator with fixed seeds: operators, casts, calls, structs,
  arrays, references, strings, types. A case is 200 rows of 10 tokens, 50 of 100, 10 of 1,000 or one of 65,535, in turn;
  of types, constants, structs and words 50 rows.
- Instructions are callgrind's: what two parses more add to a run, halved.

The machine: a virtual one with two cores of an AMD EPYC (family 25, model 17; 32 KB of first-level data cache and 1
MB of second-level cache a core), 23 GB, Linux 6.18.44, Debian 12, rustc 1.95.0, rattle-kit-5b-plain logic
097e4c862dff5811, valgrind 3.19. Nothing else ran beside the run that is given here.

## Ratios to the Rust's time at several placements

"Before" are the entries with columns as they were before a node became a word (commit 56ad9d2), by the same driver right
after this run.

| row | before: ours | from | to | ours | from | to | words | from | to |
|---|---|---|---|---|---|---|---|---|---|""")
for r in pl: w(row([name(r[0])]+pb[r[0]][1:4]+r[1:]))
w("""
Ours is nowhere slower than before but on mixed rows of 10 tokens, by 0.02 to 0.03. Above 1.0 are types, and structs and
words with composite types: see "What is left".

## Times of one build

| row | tokens | nodes | Rust, ns | ours, ns | ratio | words, ns | ratio | checks, ns | ours without, ns | ratio | fastest 5%: Rust, ns | ours, ns | ratio | words, ns | ratio |
|---|---|---|---|---|---|---|---|---|---|---|---|---|---|---|---|""")
for r in goals+others: w(row([name(r[0])]+[n(x) for x in r[1:]]))
w("""
## Instructions

| row | Rust | ours | ratio | words | ratio | checks | ours without | ratio |
|---|---|---|---|---|---|---|---|---|""")
for r in instr: w(row([name(r[0])]+r[1:]))
w("""
## Time by the size of the row

Nanoseconds a token, ours with checks / the Rust, medians.

| tokens | sums | calls | structs | mixed |
|---|---|---|---|---|""")
for r in sizes: w(row([n(r[0])]+r[1:]))
def grow(c,k):
    f=float(sizes[0][c].split(' / ')[k]); l=float(sizes[-1][c].split(' / ')[k]); return round((l/f-1)*100)
g=[[grow(c,k) for c in (1,2,3)] for k in (0,1)]
mix=[[float(x) for x in r[4].split(' / ')] for r in (sizes[0],sizes[-1])]
w(f"""
The time is linear in the row: from 1,000 to 65,535 tokens the time a token of sums, calls and structs changes by {min(g[0])}
to {max(g[0])}% (the Rust's by {min(g[1])} to {max(g[1])}%). That of a mixed row grows from {mix[0][0]} to {mix[1][0]} ns, the Rust's from {mix[0][1]} to {mix[1][1]}, and
stays from some 30,000 tokens on: it is one row parsed over and over, and the processor's branch prediction learns a
short one by heart. Its instructions a token are the same at both ends, {int(instr[6][2].replace(',',''))/1000:.1f} at 1,000 tokens and {int(instr[7][2].replace(',',''))/65535:.1f} at 65,535.
""")
S={r[0]:[int(x) for x in r[1:]] for r in stack}
deep=[S[k] for k in S if k.startswith('199') and 'type' not in k]
rng=lambda c:(lambda lo,hi: f'{lo:,} to {hi:,}' if lo<hi else f'{lo:,}')(min(x[c] for x in deep),max(x[c] for x in deep))
line=lambda k:' | '.join(f'{x:,}' for x in S[k])
w(f"""## Stack

Bytes from the top of a painted stack to the lowest byte written, less those of an empty call.

| row | ours | words | Rust |
|---|---|---|---|
| 199 parentheses, arrays, calls, structs, steps `a[` or pointers `&a ..`, so that 200 expressions are open | {rng(0)} | {rng(1)} | {rng(2)} |
| 199 `&` before a type, so that 200 inner types are open | {line('199 `&` of a type')} |
| 200 parentheses, which ours refuses with 34 | {line('200 parentheses, refused by ours')} |
| a number | {line('a number')} |

An expression takes {round((min(x[0] for x in deep)-S['a number'][0])/199)} bytes a level, the Rust's some 352 to 464. The value of a constant takes some 200 bytes more in all.
So a call of ours uses less than 70 KiB (71,680 bytes) of stack; `rust/tests/memory.rs` holds all to that figure, which the
documentation gives everywhere.
""")
w(memory.rstrip()+"\n")
tail=out[out.index('## Before and after'):]
w(tail)
open('/tmp/PERF.md','w').write('\n'.join(b))
