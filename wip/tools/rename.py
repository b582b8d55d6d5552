import re,glob,os,shutil
ren={'expression':'parse_expression','addition':'parse_addition','multiplication':'parse_multiplication','singular':'parse_singular_expression','unary':'parse_unary_expression','primary':'parse_primary_expression','reference':'parse_reference','deref':'parse_deref_steps_list','comma_list':'parse_rest_of_list'}
keep=['advance','field','group','item','step']
dash=lambda n:n.replace('_','-')
R='/work/main/crates/expressions/'
s=open(R+'src/lib.rt').read()
for o,n in ren.items(): s=re.sub(r'(?<![\w.:])%s\('%o,n+'(',s)
open(R+'src/lib.rt','w').write(s)
old=glob.glob(R+'proofs/+*')[0]
oldname=os.path.basename(old)
names=sorted(list(ren.values())+keep)
newname=''.join('+'+n for n in names)
print(len(newname.encode()))
new=R+'proofs/'+newname
if old!=new: os.rename(old,new)
inv={dash(o):dash(n) for o,n in ren.items()}
files={'Deref':'DerefSteps','CommaList':'RestOfList'}
for o,n in files.items():
    p=new+'/Proof/%s.antt'%o
    if os.path.exists(p): os.rename(p,new+'/Proof/%s.antt'%n)
alias={'comma-list':'rest-of-list','deref':'deref-steps'}
for p in glob.glob(new+'/Proof/*.antt')+[new+'/Proof.antt']:
    s=open(p).read()
    s=s.replace(oldname,newname)
    for o,n in ren.items():
        s=s.replace('·proofs.proofs.%s.Reads'%o,'·proofs.proofs.%s.Reads'%n).replace('·proofs.proofs.%s.Kinds'%o,'·proofs.proofs.%s.Kinds'%n)
        s=re.sub(r'\.Lts-%s as'%o,'.Lts-%s as'%n,s)
    for o,n in inv.items():
        s=re.sub(r'(?<![\w-])Need-%s-requires'%o,'Need-%s-requires'%n,s)
        s=re.sub(r'(?<![\w-])%s-requires'%o,'%s-requires'%n,s)
        s=re.sub(r' \.%s \.ensures'%o,' .%s .ensures'%n,s)
    for o,n in alias.items():
        s=re.sub(r'(?<![\w.+-])%s(?=(-at|-below|-lts|-kinds)?(?![\w-]))'%o,n,s)
        s=re.sub(r'(?<![\w+-])μ-%s(?![\w-])'%o,'μ-'+n,s)
    for o,n in files.items(): s=re.sub(r'Proof\.%s as'%o,'Proof.%s as'%n,s); s=re.sub(r'(?m)^mod %s$'%o,'mod '+n,s)
    open(p,'w').write(s)
al={n:(dash(o) if dash(o) not in alias else alias[dash(o)]) for o,n in ren.items()}
al.update({k:k for k in keep})
order=[al[n] for n in names]
camel=lambda m:''.join(w.capitalize() for w in m.split('-'))
pre='Rattle·expressions·proofs.proofs.'
def wrap(items,ind=4,w=116):
    out=[];cur=''
    for i in items:
        if len(cur)+len(i)+1+ind>w: out.append(' '*ind+cur); cur=i
        else: cur=(cur+' '+i) if cur else i
    out.append(' '*ind+cur)
    return '\n'.join(out)
main='mod Shared\n'+''.join('mod %s\n'%camel(m) for m in sorted(order))
main+='use %s%s.{statement}\nuse %s%s.Tie.{close}\n'%(pre,newname,pre,newname)
main+='use %s%s.Proof.Shared as shared\n'%(pre,newname)
for m in order: main+='use %s%s.Proof.%s as %s\n'%(pre,newname,camel(m),m)
sn=dash(newname)+'-spec'
main+='\npub %s :\n    {M : Type 1} → statement M\n%s =\n    close\n%s\n%s\n'%(sn,sn,wrap(['shared.μ-'+m for m in order]),wrap([m+'.spec' for m in order]))
open(new+'/Proof.antt','w').write(main)
# Shared
level={'expression':0,'advance':1,'group':1,'step':1,'field':1,'item':2,'deref-steps':2,'rest-of-list':3,'reference':3,'primary':4,'unary':5,'singular':6,'multiplication':7,'addition':8}
fn={v:k for k,v in al.items()}
sh='''-- How far each reader is from the end of the nesting: nine times what is unused, and its level among those that call each
-- other with as much unused. And what each takes for granted, where the measure is t, and where it is below t.
use Prim.Native.Nat.{ℕ, _<_, _+_, _*_}
use mathlib.Core.List.{List}
use borrow.Fn.Kinds.{PK, In}
use borrow.Fn.PlainCycle.{Measures, is, falls, and}
'''
for m in order:
    sh+='use %s%s.Reads as %s\nuse %s%s.Kinds as %s-kinds\n'%(pre,fn[m],m,pre,fn[m],m)
sh+='''
abbrev at : {ps : List (PK 4)} → Measures 4 ps ℕ → In 4 ps → ℕ → In 4 ps
at {ps} μ P t = and 4 ps (is 4 ps μ t) P

abbrev below : {ps : List (PK 4)} → Measures 4 ps ℕ → In 4 ps → ℕ → In 4 ps
below {ps} μ P t = and 4 ps (falls 4 ps _<_ μ t) P
'''
for m in order:
    sh+='''
abbrev pub μ-%s : Measures 4 %s-kinds.ps ℕ
μ-%s κs a = a .1 .1 .1 .1 .1 .1 .0 * 9 + %d

abbrev pub %s-at : ℕ → In 4 %s-kinds.ps
%s-at = at μ-%s %s.Pre

abbrev pub %s-below : ℕ → In 4 %s-kinds.ps
%s-below = below μ-%s %s.Pre
'''%(m,m,m,level[m],m,m,m,m,m,m,m,m,m,m)
open(new+'/Proof/Shared.antt','w').write(sh)
