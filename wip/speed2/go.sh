#!/bin/bash
# go.sh NAME [SAMPLES]
cd /tmp/sp; ./mk.sh /tmp/sp/$1 && ./opt.sh /tmp/sp/$1 && ./b.sh $1 $2
objdump -d --no-show-raw-insn $1/lib/p.o | awk '/^[0-9a-f]+ </{f=$2} /sub .*,%rsp/{print f,$0}' | sed 's/ \+/ /g' | cut -c1-120
