#!/bin/bash
# Stops the helpers' checks while the benchmark runs.
names="rattle valgrind.bin compare cargo rustc"
trap 'for n in $names; do pkill -CONT -x $n; done' EXIT
# the names of valgrind's own tools are stopped too; those of this benchmark start later
for n in rattle compare cargo rustc valgrind.bin; do pkill -STOP -x $n; done
uptime
cd /work/j3b && tools/bench > /tmp/bench.new.txt 2>/tmp/bench.new.err
export PENNE_C_LIB_DIR=/work/base/target/staticlib CARGO_TARGET_DIR=/tmp/bt_base
tools/bench > /tmp/bench.base.txt 2>/tmp/bench.base.err
unset PENNE_C_LIB_DIR CARGO_TARGET_DIR
tools/bench --only-placements > /tmp/bench.new2.txt
uptime
