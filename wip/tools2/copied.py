"""copied.py N [RANGE]: runs of N equal words that the repository's text (added since RANGE) shares with the papers."""
import re, subprocess, sys, glob
n=int(sys.argv[1]); rng=sys.argv[2] if len(sys.argv)>2 else None
words=lambda s: re.findall(r"[A-Za-z0-9']+", s.lower())
papers=set()
for p in glob.glob('/work/shared/docs/*.md')+glob.glob('/work/shared/design/*.md'):
    w=words(open(p).read())
    papers|={tuple(w[i:i+n]) for i in range(len(w)-n+1)}
files=subprocess.run(['git','diff','--name-only',rng] if rng else ['git','ls-files'],capture_output=True,text=True).stdout.split()
for f in files:
    if f.endswith(('stdin','stdout')) or f.startswith('oracle/src/delta'): continue
    try: text=open(f).read()
    except Exception: continue
    # comments and text
    if f.endswith('.antt'): text='\n'.join(l[l.index('--')+2:] if '--' in l else '|' for l in text.split('\n'))
    if f.endswith(('.rt','.rs','.h','.c')): text='\n'.join(l[l.index('//')+2:] if '//' in l else '|' for l in text.split('\n'))
    for block in text.split('|'):
        w=words(block); i=0
        while i<len(w)-n+1:
            if tuple(w[i:i+n]) in papers:
                j=i+n
                while j<len(w) and tuple(w[j-n+1:j+1]) in papers: j+=1
                print(f,':',' '.join(w[i:j])); i=j
            else: i+=1
