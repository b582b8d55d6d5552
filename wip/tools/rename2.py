import re,glob,os,sys
R=(sys.argv[1] if len(sys.argv)>1 else '/work/main')+'/crates/expressions/'
ren={'parse_addition':'addition','parse_multiplication':'multiplication','parse_singular_expression':'singular','parse_unary_expression':'unary','parse_primary_expression':'primary','parse_reference':'reference','parse_deref_steps_list':'deref_steps','parse_rest_of_list':'rest_of_list'}
dash=lambda n:n.replace('_','-')
s=open(R+'src/lib.rt').read()
for o,n in ren.items(): s=re.sub(r'(?<![\w.:])%s\('%o,n+'(',s)
open(R+'src/lib.rt','w').write(s)
old=glob.glob(R+'proofs/+*')[0]; oldname=os.path.basename(old)
names=sorted([ren.get(n,n) for n in oldname.strip('+').split('+')])
newname=''.join('+'+n for n in names); print(len(newname),newname)
new=R+'proofs/'+newname
if old!=new: os.rename(old,new)
for p in glob.glob(new+'/Proof/*.antt')+[new+'/Proof.antt']:
    s=open(p).read().replace(oldname,newname)
    for o,n in ren.items():
        s=s.replace('·proofs.proofs.%s.Reads'%o,'·proofs.proofs.%s.Reads'%n).replace('·proofs.proofs.%s.Kinds'%o,'·proofs.proofs.%s.Kinds'%n)
        s=re.sub(r'\.Lts-%s as'%o,'.Lts-%s as'%n,s)
        o2,n2=dash(o),dash(n)
        s=re.sub(r'(?<![\w-])Need-%s-requires'%o2,'Need-%s-requires'%n2,s)
        s=re.sub(r'(?<![\w-])%s-requires'%o2,'%s-requires'%n2,s)
        s=re.sub(r' \.%s \.ensures'%o2,' .%s .ensures'%n2,s)
    open(p,'w').write(s)
al={'addition':'addition','multiplication':'multiplication','singular':'singular','unary':'unary','primary':'primary','reference':'reference','deref_steps':'deref-steps','rest_of_list':'rest-of-list','parse_expression':'expression'}
order=[al.get(n,n) for n in names]
camel=lambda m:''.join(w.capitalize() for w in m.split('-'))
pre='Rattle·expressions·proofs.proofs.'
def wrap(items,ind=4,w=116):
    out=[];cur=''
    for i in items:
        if len(cur)+len(i)+1+ind>w: out.append(' '*ind+cur); cur=i
        else: cur=(cur+' '+i) if cur else i
    out.append(' '*ind+cur); return '\n'.join(out)
main='mod Shared\n'+''.join('mod %s\n'%camel(m) for m in sorted(order))
main+='use %s%s.{statement}\nuse %s%s.Tie.{close}\nuse %s%s.Proof.Shared as shared\n'%(pre,newname,pre,newname,pre,newname)
for m in order: main+='use %s%s.Proof.%s as %s\n'%(pre,newname,camel(m),m)
sn=dash(newname)+'-spec'
main+='\npub %s :\n    {M : Type 1} → statement M\n%s =\n    close\n%s\n%s\n'%(sn,sn,wrap(['shared.μ-'+m for m in order]),wrap([m+'.spec' for m in order]))
open(new+'/Proof.antt','w').write(main)
