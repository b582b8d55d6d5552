import re,glob,os
d=glob.glob('/work/main/crates/expressions/proofs/+*')[0]
src=open(d+'/Proof.antt').read()
cyc=os.path.basename(d)
pre='Rattle·expressions·proofs.proofs.'
members='addition advance comma-list deref expression field group item multiplication primary reference singular step unary'.split()
uses={}  # alias -> line
plain=[]
body=[]
# join multi-line uses
lines=src.split('\n')
i=0
decl=[]
while i<len(lines):
    l=lines[i]
    if l.startswith('use '):
        while l.count('{')>l.count('}'):
            i+=1; l+=' '+lines[i].strip()
        m=re.match(r'use (\S+) as (\S+)$',l)
        if m: uses[m.group(2)]=l
        else: plain.append(l)
    else: decl.append(l)
    i+=1
names={}
for l in plain:
    m=re.match(r'use (\S+)\.\{(.*)\}$',l)
    for n in m.group(2).split(','):
        n=n.strip()
        if n: names[n]=m.group(1)
text='\n'.join(decl)
blocks=[b.strip('\n') for b in re.split(r'\n\n+',text) if b.strip()]
shared=[];per={m:[] for m in members};spec=None
for b in blocks:
    if b.startswith('pub +'): spec=b; continue
    n=re.sub(r'^abbrev ','',b).split(' :')[0]
    if n.startswith('μ-') or n.endswith('-at') or n.endswith('-below'):
        shared.append(b); continue
    ms=[m for m in members if n.startswith(m+'-')]
    m=max(ms,key=len)
    per[m].append((n,b))
# split spec args
def camel(m): return ''.join(w.capitalize() for w in m.split('-'))
out={}
def mkuses(text):
    r=[]
    bymod={}
    for n,mod in names.items():
        if re.search(r'(?<![\w·.\-+])'+re.escape(n)+r'(?![\w\-])',text):
            bymod.setdefault(mod,[]).append(n)
    for op,n in (('_<_',' < '),('_+_',' + '),('_*_',' * '),('_-_',' - '),('_≡_',' ≡ ')):
        if n in text:
            bymod.setdefault(names[op],[]).append(op)
    for mod in bymod: r.append('use %s.{%s}'%(mod,', '.join(dict.fromkeys(bymod[mod]))))
    for a in uses:
        if re.search(r'(?<![\w·.\-+])'+re.escape(a)+r'\.[A-Za-z]',text): r.append(uses[a])
    return r
st='\n\n'.join('abbrev pub '+b[len('abbrev '):] for b in shared)
os.makedirs(d+'/Proof',exist_ok=True)
open(d+'/Proof/Shared.antt','w').write('-- How far each reader is from the end of the nesting, and what it takes for granted.\n'+'\n'.join(mkuses(st))+'\n\n'+st+'\n')
sharednames=re.findall(r'abbrev pub (\S+) :',st)
for m in members:
    calls=None;tail=None
    defs=[];answers={}
    loops=''
    for n,b in per[m]:
        short=n[len(m)+1:]
        if b.startswith('abbrev'):
            b2=b.replace(n,short); defs.append(b2); loops=' Inv-loop μ-loop'; continue
        g=re.match(r'(?s)\S+ :\s+\(t : ℕ\) →\s+(\S+)\s+(\(.*?\))\s+\(%s-at t\)\s+%s\.Post(.*?)\n\S+ (t c(?: κs)?) =\s*(.*)$'%(m,m),b)
        if not g: print('??',m,n,b[:200]); continue
        need,cl,_,args,ans=g.groups()
        cl=re.sub(r'\s+',' ',cl).replace('( ','(').replace(', )',')')
        calls=cl
        la=args[2:]
        if ans.strip()=='search needs': answers[short]='(λ %s. search needs)'%la
        else:
            answers[short]='(%s t)'%short
            defs.append('%s : (t : ℕ) → %s (calls t) (%s-at t) %s.Post%s\n%s %s = %s'%(short,need,m,m,loops,short,args,ans))
    g=re.search(r'(?s)λ t\. %s-lts\.spec(.*?)(?=\(?λ t\.|\Z)'%m,spec)
    order=re.findall(r'\(%s-(\S+) t\)'%m,g.group(1))
    order=[o for o in order if o in answers]
    s='pub spec : {M : Type 1} (t : ℕ) → %s-lts.Closed (calls t) (%s-at t) %s.Post M\n'%(m,m,m)
    s+='spec t =\n    %s-lts.spec (calls t) (%s-at t) %s.Post%s\n    '%(m,m,m,loops)+'\n    '.join(answers[o] for o in order)+'\n'
    if len(order)!=len(answers): print('order',m,len(order),len(answers),set(answers)-set(order))
    txt='abbrev calls : ℕ → %s-lts.Claims\ncalls t = %s\n\n'%(m,calls)+'\n\n'.join(defs)+'\n\n'+s
    us=mkuses(txt)
    sh=[n for n in sharednames if re.search(r'(?<![\w\-])'+re.escape(n)+r'(?![\w\-])',txt)]
    us.append('use %s%s.Proof.Shared.{%s}'%(pre,cyc,', '.join(sh)))
    open(d+'/Proof/%s.antt'%camel(m),'w').write('\n'.join(us)+'\n\n'+txt)
main='mod Shared\n'+''.join('mod %s\n'%camel(m) for m in members)
main+='use %s%s.{statement}\nuse %s%s.Tie.{close}\n'%(pre,cyc,pre,cyc)
main+='use %s%s.Proof.Shared.{%s}\n'%(pre,cyc,', '.join('μ-'+m for m in members))
for m in members: main+='use %s%s.Proof.%s as %s\n'%(pre,cyc,camel(m),m)
sn=spec.split(' :')[0][4:].strip()
main+='\npub %s : {M : Type 1} → statement M\n%s =\n    close\n    %s\n    %s\n'%(sn,sn,' '.join('μ-'+m for m in members),' '.join(m+'.spec' for m in members))
open(d+'/Proof.new','w').write(main)
