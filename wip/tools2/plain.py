"""plain.py OLDGEN NEWGEN CRATE FN..: a function's Proof.antt after a change of the generated needs: paths and the spec's list anew."""
import sys,re,os
sys.argv_save=sys.argv[:]
src=open('/tmp/w/cycle.py').read().replace("\nmain()\n","\n")
exec(src)
def lts2(gen,crate,fn): return f"{gen}/Rattle·{crate}·proofs/proofs/{fn}/Lts.antt"
og,ng,crate=sys.argv[1:4]
for fn in sys.argv[4:]:
    p=f"crates/{crate}/proofs/{fn}/Proof.antt"
    s=open(p).read()
    N=load(lts2(ng,crate,fn))
    O=load(lts2(og,crate,fn)) if os.path.exists(lts2(og,crate,fn)) else None
    if O:
        parts=re.split(r"(?m)^(?=\S+ :)",s); res=[]
        for q in parts:
            m=re.match(r"(\S+) :",q); n=m.group(1) if m else None
            if n in O[2] and n in N[2] and '.before' in q:
                oc,nc=chain(O,n),chain(N,n)
                ends={"args","fits","good","pre"}
                def newd(d,fld):
                    if fld in ends and d==len(oc): return len(nc)
                    if d<len(oc) and oc[d]==fld:
                        f,k=occ(oc,d); return find(nc,f,k)
                    return None
                od={'c':0}
                for v,base,bs in re.findall(r"let (c[₁-₉]+) = (c[₁-₉]*)((?: \.before)+) in",q): od[v]=od[base]+bs.count('before')
                pat=r"(?<![\w.'-])(c[₁-₉]*)((?: \.before)*) \.(?!before)([A-Za-z0-9'-]+)"
                uses=[(v,bs.count('before'),f) for v,bs,f in re.findall(pat,q)]
                nd={'c':0}
                for v in od:
                    if v=='c': continue
                    c0=[newd(od[v]+b,f) for (w,b,f) in uses if w==v and b==0]; c0=[x for x in c0 if x is not None]
                    c=[newd(od[v]+b,f)-b for (w,b,f) in uses if w==v and newd(od[v]+b,f) is not None]
                    nd[v]=c0[0] if c0 else (c[0] if c else None)
                    if nd[v] is None: print(fn,n,"no anchor",v)
                def lets(m):
                    v,base=m.group(1),m.group(2)
                    if nd[v] is None or nd[base] is None: return m.group(0)
                    return f"let {v} = {base}"+" .before"*(nd[v]-nd[base])+" in"
                def use(m):
                    v,bs,f=m.group(1),m.group(2),m.group(3)
                    if v not in od: return m.group(0)
                    d=newd(od[v]+bs.count('before'),f)
                    if d is None or nd[v] is None: print(fn,n,"left:",m.group(0)); return m.group(0)
                    return v+" .before"*(d-nd[v])+" ."+f
                q2=re.sub(r"let (c[₁-₉]+) = (c[₁-₉]*)((?: \.before)+) in",lambda m:"\0"+lets(m)+"\1",q)
                segs=re.split("(\0[^\1]*\1)",q2)
                q="".join(x[1:-1] if x.startswith("\0") else re.sub(pat,use,x) for x in segs)
            res.append(q)
        s="".join(res)
    named=set(re.findall(r"(?m)^(\S+) : tie\.Need-",s))
    gone=[n for n in named if n not in N[2]]
    for n in gone:
        print(fn,"gone",n); s=re.sub(r"(?m)^"+re.escape(n)+r" : tie\.Need-(?:.|\n)*?\n\n","",s); named.discard(n)
    i=s.index("tie.spec")
    invs=re.findall(r"(?m)^abbrev (\S+) : tie\.(?:InvT|MeasureT)",s)
    out=[f"    {x}" for x in invs]
    for n in N[3]:
        if n in named: out.append(f"    {n}")
        else: out.append("    (λ c κs. search needs)" if re.search(r"requires(-\d+)?$",n) else "    (λ c. search needs)")
    head=s[:i]
    # head ends with '(' before tie.spec
    head=re.sub(r"tie\.close\s*\($","tie.close\n    (",head)
    s=head+"tie.spec\n"+"\n".join(out)+")\n"
    open(p,'w').write(s)
