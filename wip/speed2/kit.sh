#!/bin/bash
# kit.sh: makes /tmp/kit, the shadow kit, and /tmp/sp with these scripts
mkdir -p /tmp/sp && cp "$(dirname "$0")"/* /tmp/sp/ && chmod +x /tmp/sp/*.sh
rm -rf /tmp/kit && mkdir -p /tmp/kit/on/x86_64/toolchain/bin
for f in /opt/rattle/*; do [ $(basename $f) = on ] || ln -s $f /tmp/kit/; done
for f in /opt/rattle/on/*; do [ $(basename $f) = x86_64 ] || ln -s $f /tmp/kit/on/; done
for f in /opt/rattle/on/x86_64/*; do [ $(basename $f) = toolchain ] || ln -s $f /tmp/kit/on/x86_64/; done
for f in /opt/rattle/on/x86_64/toolchain/*; do [ $(basename $f) = bin ] || ln -s $f /tmp/kit/on/x86_64/toolchain/; done
for f in /opt/rattle/on/x86_64/toolchain/bin/*; do [ $(basename $f) = clang ] || ln -s $f /tmp/kit/on/x86_64/toolchain/bin/; done
cp /tmp/sp/clang-wrapper /tmp/kit/on/x86_64/toolchain/bin/clang; chmod +x /tmp/kit/on/x86_64/toolchain/bin/clang
