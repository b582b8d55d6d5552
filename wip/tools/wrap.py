import sys,re
# wrap lines over 120 characters at the last space before 118, continuation indented as the line (at least 4)
for p in sys.argv[1:]:
    out=[]
    for l in open(p).read().split('\n'):
        if l.startswith('use ') and len(l)>120:
            m=re.match(r'(use \S+\.\{)(.*)\}$',l)
            if m and len(m.group(1))<80:
                names=m.group(2).split(', '); cur=[]
                for n in names:
                    if cur and len(m.group(1)+', '.join(cur+[n])+'}')>120: out.append(m.group(1)+', '.join(cur)+'}'); cur=[n]
                    else: cur.append(n)
                out.append(m.group(1)+', '.join(cur)+'}'); continue
            out.append(l); continue
        while len(l)>120 and not l.lstrip().startswith('--'):
            ind=max(4,len(l)-len(l.lstrip()))
            pos=-1
            for m in re.finditer(r' (?=\()| → | \. |, | in (?=let)| then | = (?=let)|(?<=\)) |(?<=:) ',l[:119]):
                if m.start()>ind+30: pos=m.end()
            if pos<0:
                pos=l.rfind(' ',0,118)+1
            out.append(l[:pos].rstrip()); l=' '*ind+l[pos:].lstrip()
        out.append(l)
    open(p,'w').write('\n'.join(out))
