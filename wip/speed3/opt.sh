#!/bin/bash
# opt.sh DIR: from the captured -O3 module make lib and optimized IR
set -e
D=$1
TC=/opt/rattle/on/x86_64/toolchain/bin/clang
FL="--target=x86_64-unknown-linux-gnu -march=x86-64 -ffunction-sections -fdata-sections -mllvm -trap-unreachable -mllvm -no-trap-after-noreturn --no-default-config -no-canonical-prefixes -fintegrated-cc1 -fno-crash-diagnostics"
if [ -d /tmp/s3/kit/cap ]; then f=$(grep -l -- " -O3 " /tmp/s3/kit/cap/*/args); d=$(dirname $f)
$TC -x ir $d/module.bc -S -emit-llvm -O0 -Xclang -disable-llvm-passes -o $D/in.ll; fi
python3 - $D/in.ll <<'P'
import re,sys
s=open(sys.argv[1]).read()
if '@penne_parse_type(' not in s:
    s=re.sub(r'define [^\n]*@main\([^\n]*\n.*?\n}\n', '', s, flags=re.S)
    s=re.sub(r'define [^\n]*@"tryit::[^\n]*\n.*?\n}\n', '', s, flags=re.S)
    s=s.replace('\nattributes #0', '\n'+open('/tmp/s3/sp/wrappers.ll').read()+'\nattributes #0',1)
open(sys.argv[1],'w').write(s)
P
$TC $FL -c -x ir $D/in.ll -o $D/lib/p.o -fPIC -O3 $X
$TC $FL -S -emit-llvm -x ir $D/in.ll -o $D/out.ll -fPIC -O3 $X
rm -f $D/lib/libpenne_c.a; /opt/rattle/on/x86_64/toolchain/bin/llvm-ar rcs $D/lib/libpenne_c.a $D/lib/p.o
