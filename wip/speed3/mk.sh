#!/bin/bash
# mk.sh DIR: DIR/crates has sources (copied from a checkout); compiles the five C entries at -O3 to DIR/lib/libpenne_c.a
set -e
D=$1
mkdir -p $D/crates/tryit/src $D/lib
cat > $D/crates/tryit/src/main.rt <<'R'
fn main() {
    let k = [0u8; 4];
    let t = [0u8; 4];
    let mut nk = [0u8; 16];
    let mut nl = [0u32; 16];
    let mut r = [0u32; 6];
    penne_c::penne_parse_expression(&k, &t, 0, &mut nk, &mut nl, 0, &mut r);
    penne_c::penne_parse_type(&k, &t, 0, &mut nk, &mut nl, 0, &mut r);
    penne_c::penne_parse_constant_declaration(&k, &t, 0, &mut nk, &mut nl, 0, 0, 0, &mut r);
    penne_c::penne_parse_struct_declaration(&k, &t, 0, &mut nk, &mut nl, 0, 0, 0, &mut r);
    penne_c::penne_parse_word_declaration(&k, &t, 0, &mut nk, &mut nl, 0, 0, 0, 47, &mut r);
}
R
cat > $D/crates.txt <<'R'
rules:
codes: rules
tokens: rules codes
nodes: rules codes
types: rules codes tokens nodes
operators: rules codes tokens nodes
references: rules codes tokens nodes
lists: rules codes tokens nodes references
openings: rules codes tokens references lists
literals: rules codes tokens nodes
casts: rules codes tokens nodes types references
expressions: rules codes tokens nodes types operators references lists openings literals casts
declarations: rules codes tokens nodes types references expressions
kinds:
checks: rules codes kinds
penne: rules codes tokens types expressions declarations checks
packing: rules codes
replies: rules codes packing
penne_c: rules codes penne packing replies
tryit: rules codes penne penne_c packing replies
R
cd $D
rm -rf /tmp/s3/kit/cap
RATTLE_HOME=/tmp/s3/kit rt try tryit > try.log 2>&1 || { tail -20 try.log; exit 1; }
