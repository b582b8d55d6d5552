import re,sys,os
# mkproofs CRATE GEN ANSWERS.py : writes proofs/FN/Proof.antt from the needs in GEN and the answers given
crate,gen,ans=sys.argv[1:4]
ns={}
exec(open(ans).read(),ns)
A=ns['answers']; U=ns['uses']
G='%s/Rattle·%s·proofs/proofs/'%(gen,crate)
for fn,a in A.items():
    tie=open(G+fn+'/Tie.antt').read()
    i=tie.index('pub spec :')
    needs=re.findall(r'\(answer : Need-([a-z0-9-]+)',tie[i:])
    if not needs: needs=re.findall(r'Need-([a-z0-9-]+)',tie[i:])
    loop='Inv-loop μ-loop' if 'inv' in a else ''
    out=[];args=[]
    inv=a.get('inv')
    if inv: out.append(inv.strip('\n'))
    for n in needs:
        par='c κs' if n.endswith('-requires') or re.search(r'-requires-\d+$',n) else 'c'
        if n in a:
            t='tie.Need-%s'%n+(' '+loop if loop else '')
            v=a[n]
            sep=' ' if not v.startswith('\n') else ''
            out.append('%s : %s\n%s %s =%s%s'%(n,t,n,par,sep,v)); args.append(n)
        else: args.append('(λ %s. search needs)'%par)
    dfn=fn.replace('_','-')
    body='\n\n'.join(out)
    spec='pub %s-spec : {M : Type 1} → statement M\n%s-spec =\n    tie.close\n    (tie.spec%s\n    %s)\n'%(dfn,dfn,('\n    Inv-loop\n    μ-loop' if loop else ''),'\n    '.join(args))
    text=body+('\n\n' if body else '')+spec
    us=[]
    bymod={}
    for n,mod in U.items():
        if re.search(r"(?<![\w·.\-])"+re.escape(n)+r"(?![\w\-])",text): bymod.setdefault(mod,[]).append(n)
    for op,s in (('_≡_',' ≡ '),('_-_',' - '),('_≤_',' ≤ ')):
        if s in text: bymod.setdefault({'_≡_':'mathlib.Core.Path','_-_':'Prim.Native.Nat','_≤_':'Prim.Native.Nat'}[op],[]).insert(0,op)
    for mod in bymod: 
        if mod.startswith('use '): us.append(mod)
        else: us.append('use %s.{%s}'%(mod,', '.join(bymod[mod])))
    us.append('use borrow.Author.Needs.{needs}')
    us.append('use Rattle·%s·proofs.proofs.%s.Statement.{statement}'%(crate,fn))
    us.append('use Rattle·%s·proofs.proofs.%s.Tie as tie'%(crate,fn))
    d='crates/%s/proofs/%s'%(crate,fn); os.makedirs(d,exist_ok=True)
    open(d+'/Proof.antt','w').write('\n'.join(us)+'\n\n'+text)
