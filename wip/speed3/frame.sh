#!/bin/bash
TC=/opt/rattle/on/x86_64/toolchain/bin/clang
FL="--target=x86_64-unknown-linux-gnu -march=x86-64 -ffunction-sections -fdata-sections -mllvm -trap-unreachable -mllvm -no-trap-after-noreturn --no-default-config -no-canonical-prefixes -fintegrated-cc1 -fno-crash-diagnostics"
$TC $FL -c -x ir $1/in.ll -o /tmp/s3/sp/x.o -fPIC -O3 -Xclang -fmerge-functions -mllvm -mergefunc-use-aliases -Rpass-analysis=stack-frame-layout 2>&1 | awk -v f="$2" '/^remark.*Function:|^Function/ {p=index($0,f)>0} /Function: /{p=index($0,f)>0} p'
