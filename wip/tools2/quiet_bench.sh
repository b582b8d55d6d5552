#!/bin/bash
trap 'pkill -CONT -x rattle' EXIT
pkill -STOP -x rattle
for d in j3 n13 gate2; do cd /work/$d; echo "== $d"; date; timeout 200 tools/bench --only-placements --samples 301 --placements 6; done
date
