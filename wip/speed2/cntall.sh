#!/bin/bash
# cntall.sh V..: instruction counts with words of all rows
cd /tmp/sp
for v in "$@"; do
cp /work/i2/target/staticlib/libpenne_c.a $v/lib/
(cd /work/i2/tools/bencher; PENNE_C_LIB_DIR=/tmp/sp/$v/lib CARGO_TARGET_DIR=/tmp/sp/cargow cargo build --release --offline --quiet 2>&1 | head -3; cp /tmp/sp/cargow/release/bencher /tmp/sp/$v/bencher)
echo -n "$v "
for r in 0 1 2 3 4 5 6 8 9 10 11 12 13 14 15 16; do for n in 1 3; do valgrind --tool=callgrind --callgrind-out-file=/dev/null $v/bencher --count $r words $n 2>&1 | grep -o "Collected : .*" | cut -d: -f2 > c.$v.$n; done; echo -n "$r:$(( ($(cat c.$v.3) - $(cat c.$v.1))/2 )) "; done; echo
done
