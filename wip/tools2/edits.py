import glob,os,sys
bad=[]
for e in sorted(glob.glob('crates/*/must-fail/*.edit')):
    c=e.split('/')[1]
    f=None;old=None
    for l in open(e).read().split('\n'):
        if l.startswith('file: '): f=l[6:].strip()
        elif l.startswith('old: '):
            old=l[5:]
            p=f'crates/{c}/{f}'
            if not os.path.exists(p): bad.append((e,'no file',f)); continue
            n=open(p).read().split('\n')
            k=open(p).read().count(old)
            if k!=1: bad.append((e,k,old))
for b in bad: print(*b)
print(len(bad))
