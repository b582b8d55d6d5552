import re,glob,subprocess
base='crates/penne/proofs/'
L=open(base+'Laws.antt',encoding='utf-8').read().split('\n')
head=[l for l in L if l.startswith('use ')]
hl=max(i for i,l in enumerate(L) if l.startswith('use '))
def find(s): return next(i for i,l in enumerate(L) if l.startswith(s))
a=hl+1
b=find('-- the count of a reply is that of the columns')
c=find('-- the split of words, before the first')
d=find('-- The promise of an entry whose check passed, of what its reader')
parts=[('Checks','-- What the checks tell, and what holds where they passed.',L[a:b]),
('Promises',"-- How an entry's promise follows from its check and from the rules.",L[b:c]),
('Splitting','-- The words that an entry with columns splits, one after the other.',L[c:d]),
('Entries','-- The promise of each entry, with columns and with words, by whether its check passed.',L[d:])]
names={}
defre=re.compile(r"^\s*(?:unfoldable )?(?:abbrev )?(pub )?(?:record )?([a-zA-Z][\w'-]*) (?::|\()")
texts={}
for n,comment,body in parts:
    texts[n]='\n'.join(body).strip('\n')+'\n'
    for l in body:
        m=re.match(r"^\s*((?:abbrev |unfoldable |pub |record )*)([a-z][\w'-]*|Entered)(?: :| \()",l)
        if m and (l.rstrip().endswith(':') or ' : ' in l):
            names.setdefault(m.group(2),n)
uses={n:{} for n in texts}
word=lambda x: re.compile(r"(?<![\w·'\-.])"+re.escape(x)+r"(?![\w·'\-])")
order=[p[0] for p in parts]
for n in order:
    for x,home in names.items():
        if home!=n and order.index(home)<order.index(n) and word(x).search(re.sub(r'--.*','',texts[n])):
            # skip local binders by requiring top-level names known
            uses[n].setdefault(home,set()).add(x)
print(uses)
need=set(x for n in uses for s in uses[n].values() for x in s)
for x in need:
    home=names[x]
    t=texts[home]
    t2=re.sub(r"(?m)^(\s*)(?!pub )((?:abbrev |record )?)"+re.escape(x)+r"( :| \()",lambda m: m.group(0) if 'pub' in m.group(0) else m.group(1)+(m.group(2)+'pub ' if m.group(2).startswith('abbrev') else 'pub '+m.group(2))+x+m.group(3),t,count=1)
    texts[home]=t2
for n,comment,_ in parts:
    more=[f"use Rattle·penne·proofs.proofs.{h}.{{{', '.join(sorted(s))}}}" for h,s in uses[n].items()]
    open(base+n+'.antt','w',encoding='utf-8').write('\n'.join([comment]+head+more)+'\n\n'+texts[n])
import os
os.remove(base+'Laws.antt')
open(base+'Lib.antt','w').write(''.join(f'pub mod {n}\n' for n in order)+'pub mod Words\npub mod Stars\n')
# imports of Laws
for f in glob.glob('crates/**/*.antt',recursive=True):
    t=open(f,encoding='utf-8').read()
    def rep(m):
        pre=m.group(1); by={}
        for x in [y.strip() for y in m.group(2).split(',')]:
            by.setdefault(names[x.split(' as ')[0]],[]).append(x)
        return '\n'.join(f"use {pre}proofs.{h}.{{{', '.join(by[h])}}}" for h in order if h in by)
    t2=re.sub(r"use (Rattle·penne(?:·proofs)?\.)proofs\.Laws\.\{([^}]*)\}",rep,t)
    if t2!=t: open(f,'w',encoding='utf-8').write(t2)
