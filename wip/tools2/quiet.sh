#!/bin/bash
# quiet.sh COMMAND..: stops the must-fail tries (which hold one slot of rtq) and takes the other slot
M=$(pgrep -f "python3 /work/main/wip/tools2/mf.py")
exec 8>/tmp/rtq.slot1 9>/tmp/rtq.slot2
want=2; [ -n "$M" ] && want=1
got=0; a=0; b=0
for i in $(seq 1 2400); do
  [ $a = 0 ] && flock -n 8 && { a=1; got=$((got+1)); }
  [ $got -lt $want ] && [ $b = 0 ] && flock -n 9 && { b=1; got=$((got+1)); }
  [ $got -ge $want ] && break
  sleep 0.3
done
[ -n "$M" ] && { pkill -STOP -f "python3 /work/main/wip/tools2/mf.py"; pkill -STOP -f "rattle check.*/work/mfc/"; }
sleep 1
echo "got $got of $want"; uptime; ps aux --sort=-%cpu | awk '$3>5 && $8 !~ /T/' | head -5 | cut -c1-120
"$@" 8>&- 9>&-
[ -n "$M" ] && { pkill -CONT -f "rattle check.*/work/mfc/"; pkill -CONT -f "python3 /work/main/wip/tools2/mf.py"; }
