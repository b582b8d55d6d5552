#!/bin/bash
# pl2.sh V..: placements with words
for v in "$@"; do cp /work/i2/target/staticlib/libpenne_c.a /tmp/sp/$v/lib/; cd /work/i2; PENNE_C_LIB_DIR=/tmp/sp/$v/lib CARGO_TARGET_DIR=/tmp/bt_v tools/bench --only-placements > /tmp/sp/$v.txt 2>&1; done
cd /tmp/sp; paste -d'|' <(sed -n '/^| row/,$p' $1.txt | cut -d'|' -f2) $(for v in "$@"; do echo "<(sed -n '/^| row/,\$p' $v.txt | cut -d'|' -f6)"; done | tr '\n' ' ') 2>/dev/null
python3 - "$@" <<'P'
import sys
T={}
for v in sys.argv[1:]:
    for l in open('/tmp/sp/%s.txt'%v):
        c=[x.strip() for x in l.split('|')]
        if len(c)>7 and c[1] not in('row','---'): T.setdefault(c[1],[]).append(c[5])
print(sys.argv[1:])
for k in T: print('%-28s'%k,*T[k])
P
