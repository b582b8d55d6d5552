#!/bin/bash
# b.sh DIR [SAMPLES]: build the bencher with DIR/lib and run the goal rows
set -e
D=/tmp/sp/$1
cd /tmp/sp/bn/tools/bencher
PENNE_C_LIB_DIR=$D/lib CARGO_TARGET_DIR=/tmp/sp/cargo cargo build --release --offline --quiet
cp /tmp/sp/cargo/release/bencher $D/bencher
$D/bencher --quick ${2:-101}
$D/bencher --stack | grep -i "paren\|array\|call" | head -4
