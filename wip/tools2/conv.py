import re,sys
def bal(s,i):
    # s[i]=='(' ; return index of the matching ')'
    d=0
    for j in range(i,len(s)):
        if s[j]=='(':d+=1
        elif s[j]==')':
            d-=1
            if d==0:return j
    raise Exception('unbalanced')
def via(s):
    out='';i=0
    while True:
        k=s.find('grow _ _ ',i)
        if k<0: return out+s[i:]
        out+=s[i:k]
        j=k+len('grow _ _ ')
        if s[j]=='(':
            e=bal(s,j)
            inner=s[j+1:e]
            if inner.lstrip().startswith('\n') or 'λ' in inner or inner.startswith('\n'):
                out+='('+inner.strip()+')'
            else: out+=inner
            i=e+1
        else:
            m=re.match(r'[\w-]+',s[j:])
            out+=m.group(0); i=j+m.end()
        assert s[i:i+2]==' λ',repr(s[k:i+20])
        out+=' via'
def main(f):
    s=open(f).read()
    s=via(s)
    s=re.sub(r'\b(node|leaf) _ _ _ _ _ _ ',r'\1-sim M ',s)
    s=re.sub(r'\blink _ _ _ _ _ ',r'link-sim M ',s)
    s=re.sub(r'\bclose _ _ ',r'close-sim M ',s)
    s=re.sub(r'\bitem _ _ ',r'item-sim M ',s)
    open(f,'w').write(s)
for f in sys.argv[1:]: main(f)
