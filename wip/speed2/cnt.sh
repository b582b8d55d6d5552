#!/bin/bash
# cnt.sh V rows..: instruction counts (ours) and frame
cd /tmp/sp; v=$1; shift
for r in "$@"; do for n in 1 3; do valgrind --tool=callgrind --callgrind-out-file=/dev/null $v/bencher --count $r ours $n 2>&1 | grep -o "Collected : .*" | cut -d: -f2 > /tmp/sp/c.$v.$n & done; wait; echo -n "$r:$(( ($(cat c.$v.3) - $(cat c.$v.1))/2 )) "; done; echo
