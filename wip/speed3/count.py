import subprocess,sys,re,json,os
from concurrent.futures import ThreadPoolExecutor
S='/tmp/s3/sp/'
def one(v,row,side,n):
    r=subprocess.run(['nice','valgrind','--tool=callgrind','--callgrind-out-file=/dev/null',S+v+'/bencher','--count',str(row),side,str(n)],capture_output=True,text=True)
    m=re.search(r'Collected : (\d+)',r.stderr)
    if not m: print(v,row,side,r.stderr[-500:]); return 0
    return int(m.group(1))
def table(v,rows,sides):
    names=subprocess.run([S+v+'/bencher','--names'],capture_output=True,text=True).stdout.splitlines()
    names=[l.split('\t') for l in names]
    f=S+v+'/counts.json'
    T=json.load(open(f)) if os.path.exists(f) else {}
    rows=rows or range(len(names))
    jobs=[(r,s,n) for r in rows for s in sides for n in (1,3)]
    with ThreadPoolExecutor(2) as p: res=dict(zip(jobs,p.map(lambda j: one(v,*j),jobs)))
    for r in rows:
        for s in sides: T[names[r][0]+'|'+s]=(res[r,s,3]-res[r,s,1])//(2*int(names[r][1]))
    json.dump(T,open(f,'w'))
if __name__=='__main__':
    v=sys.argv[1]; rows=[int(x) for x in sys.argv[2].split(',')] if len(sys.argv)>2 and sys.argv[2]!='all' else None
    sides=sys.argv[3].split(',') if len(sys.argv)>3 else ['ours','words']
    f=S+v+'/counts.json'
    if os.path.exists(f): os.remove(f)
    table(v,rows,sides)
