import sys,re,shutil,os
src,dst,fns=sys.argv[1],sys.argv[2],sys.argv[3:]
shutil.rmtree(dst,ignore_errors=True); shutil.copytree(src,dst)
for c in os.listdir(dst+'/crates'):
    p=f'{dst}/crates/{c}/src/lib.rt'
    if not os.path.exists(p): continue
    s=open(p).read(); parts=re.split(r'(?m)^(?=(?:pub )?fn )',s); out=[]
    for f in parts:
        m=re.match(r'(?:pub )?fn (\w+)',f)
        if m and m.group(1) in fns:
            mm=re.search(r'\n    let next = past_any\(kinds, (?:TokenId\(at\)|cursor)\);\n',f)
            assert mm,m.group(1)
            f=f.replace(mm.group(0),'\n',1)
            # the refusal arm keeps the bounded one
            f=re.sub(r'\bcursor: next\b','cursor: past_any(kinds, cursor)',f)
            f=re.sub(r'(?<![\w.])next(?![\w(])','past(kinds, cursor)',f)
        out.append(f)
    open(p,'w').write(''.join(out))
