"""fillp.py PROOF.antt 'use lines;...' need='answer' ..: house format: closed needs inline, open ones named"""
import re,sys
f=sys.argv[1]; uses=[u for u in sys.argv[2].split(';') if u]; ans=dict(a.split('=',1) for a in sys.argv[3:])
s=open(f).read()
st=[l for l in s.split('\n') if l.startswith('use ') and ('.Statement.' in l or '.Tie as tie' in l or 'Needs' in l)]
defs=re.findall(r'^([\w-]+) : tie\.Need-([\w-]+)\n\1 (c(?: κs)?) = (.*)$',s,re.M)
d={n:(a,b) for n,_,a,b in defs}
m=re.search(r'(pub [\w-]+-spec .*?\(tie\.spec)\s+(.*)\)\s*$',s,re.S)
out=['use '+u for u in uses]+st+['']
for n,_,a,b in defs:
    if n in ans: out+=[f'{n} : tie.Need-{n}',f'{n} {a} = {ans[n]}','']
    elif b.strip()=='?': out+=[f'{n} : tie.Need-{n}',f'{n} {a} = ?','']
body=[]
for l in m.group(2).split():
    n=l.strip()
    if n in d and n not in ans and d[n][1].strip()=='search needs': body.append(f'    (λ {d[n][0]}. search needs)')
    else: body.append('    '+n)
out+=[re.sub(r'=\s*tie\.close\s*\(tie\.spec','=\n    tie.close\n    (tie.spec',m.group(1))+'\n'+'\n'.join(body)+')']
open(f,'w').write('\n'.join(out)+'\n')
