#!/bin/bash
cd /tmp/sp
for name in "$@"; do ./mk.sh /tmp/sp/$name && ./opt.sh /tmp/sp/$name || continue; (cd bn/tools/bencher; PENNE_C_LIB_DIR=/tmp/sp/$name/lib CARGO_TARGET_DIR=/tmp/sp/cargo cargo build --release --offline --quiet; cp /tmp/sp/cargo/release/bencher /tmp/sp/$name/bencher); echo "$name $(./cnt.sh $name 0 2 3 5 7 8) frame $(objdump -d --no-show-raw-insn $name/lib/p.o | awk '/^[0-9a-f]+ </{f=$2} /sub .*,%rsp/{print f,$NF}' | grep 'expressions::' | tr '\n' ' ')"; $name/bencher --quick ${N:-61} | awk '{print $(NF-4)"/"$(NF-2)}' | tr '\n' ' '; echo; done
