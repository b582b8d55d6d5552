#!/bin/bash
# cb.sh V: build the bencher with V's libraries
cd /work/j3b/tools/bencher; PENNE_C_LIB_DIR=/tmp/s3/sp/$1/lib CARGO_TARGET_DIR=/tmp/s3/cargo nice cargo build --release --offline --quiet 2>&1 | head -30; cp /tmp/s3/cargo/release/bencher /tmp/s3/sp/$1/bencher
