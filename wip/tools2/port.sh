#!/bin/bash
# port.sh NAME FN.. : old answers into newly offered proofs
name=$1; shift
cd /work/words
for fn in "$@"; do mv crates/$name/proofs/$fn/Proof.antt /tmp/w/old.$name.$fn; done
python3 /work/shared/tools/start-proofs $name > /tmp/w/sp.log 2>&1
grep wrote /tmp/w/sp.log
for fn in "$@"; do
  p=crates/$name/proofs/$fn/Proof.antt
  if [ -f $p ]; then cp $p /tmp/w/new.$name.$fn; python3 /work/shared/design/words-core/merge.py /tmp/w/old.$name.$fn $p; python3 /tmp/w/fillrest.py /tmp/w/old.$name.$fn $p; python3 /work/shared/tools/inline $p; echo "$fn holes left: $(grep -c '= ?' $p)"; else echo "not offered: $fn"; cp /tmp/w/old.$name.$fn $p; fi
done
