#!/bin/bash
# fromwork.sh NAME [CHECKOUT]
D=/tmp/sp/$1; rm -rf $D; mkdir -p $D/crates; for c in rules codes tokens nodes types operators references lists openings literals casts expressions declarations penne packing replies penne_c; do mkdir -p $D/crates/$c; cp -r ${2:-/work/words}/crates/$c/src $D/crates/$c/; done
