# mf.py CRATE..: tries each edit of these crates alone, in a copy, by rt check of the crate
import subprocess,sys,os,glob,re
for crate in sys.argv[1:]:
    for e in sorted(glob.glob(f'crates/{crate}/must-fail/*.edit')):
        ops=[];f=None;old=None
        for l in open(e).read().split('\n'):
            if l.startswith('file: '): f=l[6:].strip()
            elif l.startswith('old: '): old=l[5:]
            elif l.startswith('new: '): ops.append((f,old,l[5:]))
        saved={}
        for f,o,n in ops:
            p=f'crates/{crate}/{f}'
            t=open(p).read(); saved.setdefault(p,t)
            open(p,'w').write(t.replace(o,n))
        r=subprocess.run(['rt','dev',crate],capture_output=True,text=True)
        for p,t in saved.items(): open(p,'w').write(t)
        out=r.stdout+r.stderr
        m=re.search(r'(\S+): error: (.{0,100})',out)
        print(os.path.basename(e),'REFUSED' if r.returncode else 'NOT REFUSED', m.group(0)[:160] if m else '',flush=True)
