"""stall.py V: stack slots that are stored by narrower pieces and loaded wider, per function"""
import subprocess,re,sys
v=sys.argv[1]
dis=subprocess.run(['objdump','-d','--no-show-raw-insn','-M','intel',f'/tmp/sp/{v}/lib/p.o'],capture_output=True,text=True).stdout
W={'BYTE':1,'WORD':2,'DWORD':4,'QWORD':8,'XMMWORD':16}
fn=None; st={}; ld={}
def report():
    if fn is None: return
    for (o,w),a in sorted(ld.items()):
        hits=[(so,sw,len(x)) for (so,sw),x in st.items() if so<o+w and so+sw>o and not (so<=o and so+sw>=o+w)]
        if hits: print(fn,'load',hex(o),w,'at',a[:3],'stores',[(hex(x),y,z) for x,y,z in hits])
for l in dis.split('\n'):
    m=re.match(r'[0-9a-f]+ <(.*)>:',l)
    if m: report(); fn=m.group(1); st={}; ld={}; continue
    m=re.match(r'\s*([0-9a-f]+):\s+(\S+)\s+(.*)',l)
    if not m: continue
    ad,op,args=m.groups()
    mm=re.search(r'(BYTE|WORD|DWORD|QWORD|XMMWORD) PTR \[rsp(?:\+(0x[0-9a-f]+))?\]',args)
    if not mm: continue
    o=int(mm.group(2) or '0',16); w=W[mm.group(1)]
    parts=args.split(',')
    if op.startswith('mov') and 'PTR' in parts[0]: st.setdefault((o,w),[]).append(ad)
    else: ld.setdefault((o,w),[]).append(ad)
report()
