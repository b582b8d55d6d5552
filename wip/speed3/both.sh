#!/bin/bash
# both.sh V [CHECKOUT]: sources of CHECKOUT as variant V, compiled for words and columns (own directories V and V.c)
set -e
cd /tmp/s3/sp
if [ -n "$2" ]; then bash fromw.sh $1 $2; mkdir -p $1/crates/penne_c; cp -r $2/crates/penne_c/src $1/crates/penne_c/; fi
./mkw2.sh /tmp/s3/sp/$1
cp $1/in.ll $1/inw.ll
./mk.sh /tmp/s3/sp/$1 && ./opt.sh /tmp/s3/sp/$1
ls -la $1/lib
