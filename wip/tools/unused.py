import re,glob,sys
files=[f for pat in sys.argv[1:] for f in glob.glob(pat,recursive=True)]
tot=0
for f in files:
    s=open(f).read()
    lines=s.split('\n')
    # collect use groups (single line or multi-line)
    body='\n'.join(l for l in lines if not l.startswith('use ') )
    body=re.sub(r'--.*','',body)
    out=[];i=0;ch=False
    while i<len(lines):
        l=lines[i]
        m=re.match(r'(pub |unfoldable )?use (\S+)\.\{(.*)\}$',l)
        if m and not m.group(1):
            keep=[]
            for n in [x.strip() for x in m.group(3).split(',') if x.strip()]:
                nm=n.split(' as ')[-1].strip()
                if '_' in nm and nm!='_':
                    parts=[p for p in nm.split('_') if p]
                    used=all(p in body for p in parts) or (nm=='_>>=_' and re.search(r'\bdo\b',body) is not None)
                else:
                    used=re.search(r"(?<![\w·'\-])"+re.escape(nm)+r"(?![\w·'\-])",body) is not None
                if used: keep.append(n)
                else: ch=True;tot+=1
            if keep: out.append(f"use {m.group(2)}.{{{', '.join(keep)}}}")
        else:
            m2=re.match(r'use (\S+) as (\S+)$',l)
            if m2 and re.search(r"(?<![\w·'\-])"+re.escape(m2.group(2))+r"(?![\w·'\-])",body) is None:
                ch=True;tot+=1
            else: out.append(l)
        i+=1
    if ch: open(f,'w').write('\n'.join(out))
print('removed',tot)
