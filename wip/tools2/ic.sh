# instructions of rows by sides: ic.sh BENCHER SIDES..
b=$1; shift
n=$($b --names | wc -l)
for r in $(seq 0 $((n-1))); do
  name=$($b --names | sed -n "$((r+1))p" | cut -f1); rows=$($b --names | sed -n "$((r+1))p" | cut -f2)
  out="$name"
  for s in "$@"; do
    a=$(valgrind --tool=callgrind --callgrind-out-file=/dev/null $b --count $r $s 1 2>&1 | sed -n 's/.*Collected : //p')
    c=$(valgrind --tool=callgrind --callgrind-out-file=/dev/null $b --count $r $s 3 2>&1 | sed -n 's/.*Collected : //p')
    out="$out | $s $(( (c-a)/(2*rows) ))"
  done
  echo "$out"
done
