"""cycle.py OLDGEN NEWGEN FILE MEMBER..: members' proof files after a change of the generated needs: paths and spec lists anew."""
import glob,os,re,sys
def lts(gen,fn):
    f=[p for p in glob.glob(gen+"/**/*.antt",recursive=True) if p.endswith(f"/Lts-{fn}.antt")]
    return f[0]
def load(path):
    before,field,need,order={}, {}, {}, []
    rec=pending=None
    ks={}
    for l in open(path):
        m=re.match(r"\s+pub record (\S+) : Type 0 where",l)
        if m: rec=m.group(1); continue
        if rec and not rec.endswith("·own"):
            m=re.match(r"\s+pub before : (\S+)",l)
            if m: before[rec]=m.group(1); continue
            m=re.match(r"\s+pub (\S+) : (\S+·own)",l)
            if m: field[rec]=m.group(1); continue
        m=re.match(r"\s+Need-(\S+) =(.*)",l)
        if m:
            pending,l=m.group(1),m.group(2); order.append(pending)
        if pending:
            m=re.search(r"\(c : (\S+)\)",l)
            if m:
                need[pending]=m.group(1)
                ks[pending]='κs' in l
                last=pending; pending=None
    return before,field,need,order
def chain(L,n):
    before,field,need,_=L
    at,d,out=need[n],0,[]
    while at in before:
        out.append(field.get(at,"?")); at=before[at]
    return out # out[d] is the field at depth d; past the end: args, fits, good, pre
def occ(ch,d):
    f=ch[d]; return (f,ch[:d].count(f))
def find(ch,f,k):
    for d,x in enumerate(ch):
        if x==f:
            if k==0: return d
            k-=1
    return None
def main():
    og,ng,root=sys.argv[1:4]
    for mem in sys.argv[4:]:
        fn,fname=mem.split('=')
        O,N=load(lts(og,fn)),load(lts(ng,fn))
        p=f"{root}/{fname}.antt"; s=open(p).read()
        parts=re.split(r"(?m)^(?=\S+ :)",s)
        res=[]
        for q in parts:
            m=re.match(r"(\S+) :",q); n=m.group(1) if m else None
            if n in O[2]:
                if n not in N[2]:
                    print(fname,"need gone:",n); res.append(q); continue
                oc,nc=chain(O,n),chain(N,n)
                ends={"args","fits","good","pre"}
                def newd(d,fld):
                    if fld in ends and d==len(oc): return len(nc)
                    if d<len(oc) and oc[d]==fld:
                        f,k=occ(oc,d); r=find(nc,f,k)
                        if r is None: print(fname,n,"no",f,k,"in new")
                        return r
                    return None
                # variables
                od={'c':0}; 
                for v,base,bs in re.findall(r"let (c[₁-₉]+) = (c[₁-₉]*)((?: \.before)+) in",q):
                    od[v]=od[base]+bs.count('before')
                uses=[(v,bs.count('before'),f) for v,bs,f in re.findall(r"(?<![\w.'-])(c[₁-₉]*)((?: \.before)*) \.(?!before)([A-Za-z0-9'-]+)",q)]
                nd={'c':0}
                for v in od:
                    if v=='c': continue
                    c=[newd(od[v]+b,f)-b if newd(od[v]+b,f) is not None else None for (w,b,f) in uses if w==v]
                    c0=[newd(od[v]+b,f) for (w,b,f) in uses if w==v and b==0]
                    c0=[x for x in c0 if x is not None]; c=[x for x in c if x is not None]
                    if c0: nd[v]=c0[0]
                    elif c: nd[v]=c[0]
                    else:
                        nd[v]=None; print(fname,n,"no anchor for",v)
                def lets(m):
                    v,base,bs=m.group(1),m.group(2),m.group(3)
                    if nd[v] is None or nd[base] is None: return m.group(0)
                    return f"let {v} = {base}"+" .before"*(nd[v]-nd[base])+" in"
                def use(m):
                    v,bs,f=m.group(1),m.group(2),m.group(3)
                    if v not in od: return m.group(0)
                    d=newd(od[v]+bs.count('before'),f)
                    if d is None or nd[v] is None:
                        print(fname,n,"left:",m.group(0)); return m.group(0)
                    return v+" .before"*(d-nd[v])+" ."+f
                # uses first, lets by placeholder
                q2=re.sub(r"let (c[₁-₉]+) = (c[₁-₉]*)((?: \.before)+) in",lambda m:"\0"+lets(m)+"\1",q)
                segs=re.split("(\0[^\1]*\1)",q2)
                segs=[x[1:-1] if x.startswith("\0") else re.sub(r"(?<![\w.'-])(c[₁-₉]*)((?: \.before)*) \.(?!before)([A-Za-z0-9'-]+)",use,x) for x in segs]
                q="".join(segs)
            res.append(q)
        t="".join(res)
        # the spec's list
        named={m for m in re.findall(r"(?m)^(\S+) : \(t : ℕ\) →",t)}
        i=t.rindex("\nspec t =")
        head=t[:i]; tail=t[i:]
        lines=tail.split("\n")
        first=[]
        for l in lines[1:]:
            if re.match(r"\s+\(λ c|\s+\((\S+) t\)$",l): break
            first.append(l)
        out=[]
        old=load(lts(ng,fn))
        kk={}
        # κs needs: those whose old answer was (λ c κs
        for n in N[3]:
            if n in named: out.append(f"    ({n} t)")
            else: out.append("    (λ c κs. search needs)" if n.endswith("requires") or re.search(r"requires-\d+$",n) else "    (λ c. search needs)")
        t=head+"\n"+"\n".join(first)+"\n"+"\n".join(out)+"\n"
        open(p,'w').write(t)
main()
