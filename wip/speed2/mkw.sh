#!/bin/bash
# mkw.sh DIR: the entries with words, unproved, into DIR/lib/libpenne_words_c.a (penne_pack and the others from /tmp/lib_new)
set -e
D=$1
mkdir -p $D/crates/tryit/src $D/lib
cat > $D/crates/tryit/src/main.rt <<'R'
fn main() {
    let k = [0u8; 4];
    let t = [0u8; 4];
    let mut nl = [0u32; 16];
    let mut r = [0u32; 6];
    penne_words_c::penne_words_parse_expression(&k, &t, 0, &mut nl, 0, &mut r);
    penne_words_c::penne_words_parse_type(&k, &t, 0, &mut nl, 0, &mut r);
    penne_words_c::penne_words_parse_constant_declaration(&k, &t, 0, &mut nl, 0, 0, 0, &mut r);
    penne_words_c::penne_words_parse_struct_declaration(&k, &t, 0, &mut nl, 0, 0, 0, &mut r);
    penne_words_c::penne_words_parse_word_declaration(&k, &t, 0, &mut nl, 0, 0, 0, 47, &mut r);
}
R
cat > $D/crates.txt <<'R'
rules:
codes: rules
tokens: rules codes
nodes: rules codes
types: rules codes tokens nodes
operators: rules codes tokens nodes
references: rules codes tokens nodes
lists: rules codes tokens nodes references
openings: rules codes tokens references lists
literals: rules codes tokens nodes
casts: rules codes tokens nodes types references
expressions: rules codes tokens nodes types operators references lists openings literals casts
declarations: rules codes tokens nodes types references expressions
checks: rules codes
penne: rules codes types expressions declarations checks
packing: rules codes
replies: rules codes packing
penne_words_c: rules codes penne packing replies
tryit: rules codes penne penne_words_c packing replies
R
cd $D
rm -rf /tmp/kit/cap
RATTLE_HOME=/tmp/kit rt try tryit > try.log 2>&1 || { tail -20 try.log; exit 1; }
TC=/opt/rattle/on/x86_64/toolchain/bin/clang
FL="--target=x86_64-unknown-linux-gnu -march=x86-64 -ffunction-sections -fdata-sections -mllvm -trap-unreachable -mllvm -no-trap-after-noreturn --no-default-config -no-canonical-prefixes -fintegrated-cc1 -fno-crash-diagnostics"
f=$(grep -l -- " -O3 " /tmp/kit/cap/*/args); d=$(dirname $f)
$TC -x ir $d/module.bc -S -emit-llvm -O0 -Xclang -disable-llvm-passes -o $D/in.ll
python3 - $D/in.ll <<'P'
import re,sys
s=open(sys.argv[1]).read()
s=re.sub(r'define [^\n]*@main\([^\n]*\n.*?\n}\n', '', s, flags=re.S)
s=re.sub(r'define [^\n]*@"tryit::[^\n]*\n.*?\n}\n', '', s, flags=re.S)
s=s.replace('\nattributes #0', '\n'+open('/tmp/sp/wrappersw.ll').read()+'\nattributes #0',1)
open(sys.argv[1],'w').write(s)
P
$TC $FL -c -x ir $D/in.ll -o $D/lib/pw.o -fPIC -O3
rm -f $D/lib/libpenne_words_c.a; /opt/rattle/on/x86_64/toolchain/bin/llvm-ar rcs $D/lib/libpenne_words_c.a $D/lib/pw.o
