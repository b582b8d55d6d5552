import re,sys
old=open(sys.argv[1]).read(); p=sys.argv[2]; s=open(p).read()
def block(t,name):
    m=re.search(r'(^abbrev '+re.escape(name)+r' :.*?)(?=\n\n)',t,re.S|re.M)
    return m.group(1) if m else None
for m in re.findall(r'^abbrev (\S+) : tie\.(?:InvT|MeasureT)',s,re.M):
    b=block(s,m); o=block(old,m)
    if b and o and b.rstrip().endswith('?'): s=s.replace(b,o)
s=re.sub(r'^(\S+ c(?: κs)?) = \?$',r'\1 = search needs',s,flags=re.M)
open(p,'w').write(s)
