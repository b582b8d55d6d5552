# bb.sh V..: compile, build the bencher, instruction counts of ours (rows 0 2 3 5 8 9 11 13 15)
cd /tmp/sp
for v in "$@"; do
./mk.sh /tmp/sp/$v && ./opt.sh /tmp/sp/$v || continue
cp /work/words/target/staticlib/libpenne_words_c.a $v/lib/
(cd /work/words/tools/bencher; PENNE_C_LIB_DIR=/tmp/sp/$v/lib CARGO_TARGET_DIR=/tmp/sp/cargo cargo build --release --offline --quiet 2>&1 | head; cp /tmp/sp/cargo/release/bencher /tmp/sp/$v/bencher)
echo "$v $(./cnt.sh $v 0 1 2 3 5 8 9 11 13 15) frame $(objdump -d --no-show-raw-insn $v/lib/p.o | awk '/^[0-9a-f]+ </{f=$2} /sub .*,%rsp/{print f,$NF}' | grep 'expressions::' | tr '\n' ' ')"
done
