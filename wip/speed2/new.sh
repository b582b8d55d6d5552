#!/bin/bash
# new.sh NAME FROM: a variant from another
rm -rf /tmp/sp/$1; mkdir -p /tmp/sp/$1; cp -r /tmp/sp/$2/crates /tmp/sp/$1/crates
