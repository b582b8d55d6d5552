import re,sys
bench=open(sys.argv[1]).read(); commit=sys.argv[2]
before=dict(l.split('|',1) for l in open('/tmp/before.txt').read().strip().split('\n'))  # name|ratio3afc checks|ratio a475
def n(x):
    m=re.fullmatch(r'\d+',x)
    return f'{int(x):,}' if m else x
def table(title):
    i=bench.index(title); rows=[]
    for l in bench[i:].split('\n')[2:]:
        if not l.startswith('|'):
            if rows: break
            continue
        rows.append([c.strip() for c in l.strip().strip('|').split('|')])
    return rows[2:]
def name(x):
    return re.sub(r'\b(\d{4,})\b',lambda m:f'{int(m.group(1)):,}',x)
goals=table('Rows of the goal: medians'); others=table('Other entries: medians'); sizes=table('Nanoseconds a token'); instr=table('Instructions a row'); stack=table('\nStack\n')
out=open('/work/main/docs/PERFORMANCE.md').read()
a=out.index('The machine: a virtual one'); head=out[:a]
head=head.replace('(about 80 seconds)','(about a minute)')
b=[]
b.append("""The machine: a virtual one with two cores of an AMD EPYC (family 25, model 17; 32 KB of first-level data cache and 1 MB
of second-level cache a core), 23 GB, Linux 6.18.44, Debian 12, rustc 1.95.0, rattle-kit-5b-plain logic
097e4c862dff5811, valgrind 3.19. Nothing else ran beside the run that is given here, the library being that of commit
%s. Medians of several runs with other work beside them differ from these ratios by up to 0.1, and those of
the fastest 5%% by up to 0.03.
"""%commit)
b.append("""## Rows of the goal

| row | tokens | nodes | Rust, ns | ours, ns | ratio | checks, ns | ours without, ns | ratio | fastest 5%: Rust, ns | ours, ns | ratio |
|---|---|---|---|---|---|---|---|---|---|---|---|""")
for r in goals: b.append('| '+' | '.join([name(r[0])]+[n(x) for x in r[1:]])+' |')
b.append("""
| row | instructions: Rust | ours | ratio | checks | ours without | ratio |
|---|---|---|---|---|---|---|""")
for r in instr[:9]: b.append('| '+' | '.join([name(r[0])]+r[1:])+' |')
b.append("""
## The other entries

Mixed rows, 50 of each; the goal does not name them.

| row | Rust, ns | ours, ns | ratio | checks, ns | ours without, ns | ratio | instructions: Rust | ours | ratio |
|---|---|---|---|---|---|---|---|---|---|""")
for r,i in zip(others,instr[9:]): b.append('| '+' | '.join([r[0].replace('mixed ','')]+[n(x) for x in r[3:9]]+i[1:4])+' |')
b.append("""
## Time by the size of the row

Nanoseconds a token, ours with checks / the Rust, medians.

| tokens | sums | calls | structs | mixed |
|---|---|---|---|---|""")
for r in sizes: b.append('| '+' | '.join([n(r[0])]+r[1:])+' |')
def grow(c,k):
    f=float(sizes[0][c].split(' / ')[k]); l=float(sizes[-1][c].split(' / ')[k]); return round((l/f-1)*100)
g=[[grow(c,k) for c in (1,2,3)] for k in (0,1)]
mix=[[float(x) for x in r[4].split(' / ')] for r in (sizes[0],sizes[-1])]
b.append(f"""
The time is linear in the row: from 1,000 to 65,535 tokens the time a token of sums, calls and structs changes by {min(g[0])} to
{max(g[0])}% (the Rust's by {min(g[1])} to {max(g[1])}%). That of a mixed row grows from {mix[0][0]} to {mix[1][0]} ns, the Rust's from {mix[0][1]} to {mix[1][1]}, and
stays from some 30,000 tokens on: it is one row parsed over and over, and the processor's branch prediction learns a short
one by heart. Its instructions a token are the same at both ends, {int(instr[6][2].replace(',',''))/1000:.1f} at 1,000 tokens and {int(instr[7][2].replace(',',''))/65535:.1f} at 65,535.
""")
S={r[0]:r[1:] for r in stack}
deep=[S[k] for k in S if k.startswith('199') and 'type' not in k]
lo,hi=min(int(x[0]) for x in deep),max(int(x[0]) for x in deep); rl,rh=min(int(x[1]) for x in deep),max(int(x[1]) for x in deep)
ty=[S[k] for k in S if 'of a type' in k][0]; rf=[S[k] for k in S if k.startswith('200')][0]; nu=S['a number']
b.append(f"""## Stack

Bytes from the top of a painted stack to the lowest byte written, less those of an empty call.

| row | ours | Rust |
|---|---|---|
| 199 parentheses, arrays, calls, structs, steps `a[` or pointers `&a ..`, so that 200 expressions are open | {lo:,} to {hi:,} | {rl:,} to {rh:,} |
| 199 `&` before a type, so that 200 inner types are open | {int(ty[0]):,} | {int(ty[1]):,} |
| 200 parentheses, which ours refuses with 34 | {int(rf[0]):,} | {int(rf[1]):,} |
| a number | {int(nu[0]):,} | {int(nu[1]):,} |

An expression takes {(lo-int(nu[0]))//199} bytes a level, the Rust's some 352 to 464.
""")
i=out.index('## Memory'); j=out.index('## Before and after')
b.append(out[i:j].rstrip('\n')+'\n')
b.append("""## Before and after

Ratios of medians of 501 samples on the rows of the goal, checks included, on the machine above. First: commit 3afc7d7,
compiled again from its code. Then: commit 7a7b3c4, likewise. Last: the library of the tables above.

| row | 3afc7d7 | 7a7b3c4 | last | checks at first, ns | last |
|---|---|---|---|---|---|""")
for r in goals:
    f=before[name(r[0])].split('|'); b.append(f'| {name(r[0])} | {f[0]} | {f[2]} | {r[5]} | {n(f[1])} | {n(r[6])} |')
b.append("""
On a machine with an Intel Xeon (family 6, model 207) the first two had 2.91 and 1.55 on the struct, 1.47 and 1.37 on
parentheses, 1.20 and 1.18 on the call, 1.34 on arrays and 1.06 to 1.10 on mixed rows of 100 tokens and more. The last
was not measured there.

- **Checks:** the largest kind and the largest value type are looked for first, in a loop without another way out, which is
  compiled to vector instructions; the first bad token is looked for only where one of the two is too large.
- **Members:** a member whose type is a single token is read without a call, and both its nodes are appended at once. Where
  the answer of a call and that of an append met in one variable, its case was stored as two bytes and loaded as a word, and
  a processor waits where it cannot forward a store to a load. Such places are found by looking at the compiled code for
  slots of the stack that are stored by narrower pieces than they are loaded.
- **Types:** an element type of a single token is read without a call of the reader that calls itself, and that reader is
  given copies of the row, so that the two halves of a slice are stored and loaded alike.
- **Numbers:** an expression that is a number and nothing more is appended at once. So an argument that is one takes half
  the instructions.
- **Lists:** fields have a loop of their own, and the closing tokens are written out. That took the tests for fields out of
  the other lists, the table of refusals out of the frame, and its size from 456 to 360 bytes.
- **Unaries** without a prefix are answered at once.

## What is left

Read from the machine code of the library (`objdump`, callgrind by instruction), and tested by changing the code. The
machine gives no access to the processor's own counters, so that what it waits for is inferred.

- **Parentheses: the frame.** All readers of expressions are compiled into one function. A level of parentheses takes
  13.5 ns at ten levels and 16.3 at two hundred, whose frames do not fit the first-level cache (the Rust: 20.2 and 17.5;
  14.6 at 75). A first operand in parentheses that is read before the loops was measured without proof: 0.71 to 0.82 of the
  Rust's time, but mixed rows were slower by some 5%, and it was not kept.
- **Mixed rows of 65,535 tokens** have a sixth fewer instructions than the Rust, and nearly its time: it goes into branches
  that are not predicted.
- **Types, and structs and words with composite types,** stay above 1.0. A slice goes to a function as the address of its
  pointer and length, so that each call of the reader of inner types stores and loads four such pairs, where the Rust
  passes two addresses. Of a row of 10 tokens the checks are a fifth to a half of the time.

What was tried and is no faster: a reader of lists that is not inlined, one loop for all lists with one place that reads a
value, a wrapper for numbers around `parse_expression` (which makes two calls of one), and the same for names.""")
open('/work/main/docs/PERFORMANCE.md','w').write(head+'\n'.join(b).rstrip('\n')+'\n')
