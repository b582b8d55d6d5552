"""hot.py VARIANT ROW MIN: executed instructions of the library for one parse of ROW (index), with counts"""
import subprocess,re,sys
v,row,lim=sys.argv[1],sys.argv[2],int(sys.argv[3])
side=sys.argv[4] if len(sys.argv)>4 else 'ours'
exe=f'/tmp/sp/{v}/bencher'
def run(n):
    out=f'/tmp/sp/cg.{n}'
    subprocess.run(['valgrind','--tool=callgrind','--dump-instr=yes','--compress-pos=no','--callgrind-out-file='+out,exe,'--count',row,side,str(n)],capture_output=True)
    counts={}; skip=False; fn=''
    for l in open(out):
        if l.startswith('calls='): skip=True; continue
        m=re.match(r'(0x[0-9a-f]+) \S+ (\d+)$',l)
        if m:
            if skip: skip=False; continue
            a=int(m.group(1),16); counts[a]=counts.get(a,0)+int(m.group(2))
    return counts
c1,c2=run(1),run(2)
c={a:c2[a]-c1.get(a,0) for a in c2 if c2[a]-c1.get(a,0)>0}
dis=subprocess.run(['objdump','-d','--no-show-raw-insn','-M','intel',exe],capture_output=True,text=True).stdout
fn='';lines=[]
for l in dis.split('\n'):
    m=re.match(r'([0-9a-f]+) <(.*)>:',l)
    if m: fn=m.group(2); continue
    m=re.match(r'\s*([0-9a-f]+):\s*(.*)',l)
    if m: lines.append((int(m.group(1),16),fn,m.group(2)))
addrs={a for a,_,_ in lines}
best=max((0,0x108000,0x109000,0x400000,0x4000000),key=lambda o:sum((a-o) in addrs for a in c))
tot=0;prev=None
for a,f,ins in lines:
    n=c.get(a+best,0)
    if n>=lim:
        if prev is not None and prev!=a: print('   --')
        print('%7d %x %s %s'%(n,a,f[-26:],re.sub(r'<.*?(\+0x[0-9a-f]+)?>',r'\1',ins)))
        tot+=n
    i=addrs
    prev=None
    k=[a]
print('total',tot,'all',sum(c.values()))
