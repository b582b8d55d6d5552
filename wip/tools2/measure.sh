cd /work/words
export PENNE_C_LIB_DIR=/tmp/lib_base CARGO_TARGET_DIR=/tmp/bt_base
tools/bench --only-placements > /tmp/bench.base.txt
export PENNE_C_LIB_DIR=/tmp/lib_words CARGO_TARGET_DIR=/tmp/bt_words
tools/bench > /tmp/bench.words.txt
export PENNE_C_LIB_DIR=/tmp/lib_base CARGO_TARGET_DIR=/tmp/bt_base
tools/bench --only-placements > /tmp/bench.base2.txt
uptime
