#!/bin/bash
# cntw.sh V..: instruction counts of words: rows 1 (struct of 10,000), 11, 12 (struct, word 10), 15, 16 (100)
cd /tmp/sp
for v in "$@"; do
cp /work/i7/target/staticlib/libpenne_c.a $v/lib/
(cd /work/i7/tools/bencher; PENNE_C_LIB_DIR=/tmp/sp/$v/lib CARGO_TARGET_DIR=/tmp/sp/cargow cargo build --release --offline --quiet 2>&1 | head -3; cp /tmp/sp/cargow/release/bencher /tmp/sp/$v/bencher)
echo -n "$v "
for r in 1 11 12 15 16; do for n in 1 3; do valgrind --tool=callgrind --callgrind-out-file=/dev/null $v/bencher --count $r words $n 2>&1 | grep -o "Collected : .*" | cut -d: -f2 > c.$v.$n; done; echo -n "$r:$(( ($(cat c.$v.3) - $(cat c.$v.1))/2 )) "; done; echo
done
