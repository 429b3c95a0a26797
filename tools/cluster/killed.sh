#!/bin/bash
# killed.sh DIR PROGRAM NAME: splits the check of the row NAME, kills a process that works on one of its parts at ten random moments, and
# then works on all of them by GNU parallel. Ends with status 0 where the report is that of a check by one worker.
set -u
dir=$1 program=$2 name=$3
here=$(dirname "$0")
wanted=$("$program" --jobs 1 "$name")
"$program" --split "$dir" 8 "$name"
for kill in 1 2 3 4 5 6 7 8 9 10; do
  part=$(shuf -n 1 "$dir/open")
  [ -n "$part" ] || break
  "$program" --part "$dir/$part" > /dev/null &
  worker=$!
  sleep "0.$((RANDOM % 10))$((RANDOM % 10))"
  kill -9 "$worker" 2> /dev/null && echo "killed at part $part"
  wait "$worker" 2> /dev/null
  [ $((kill % 3)) -eq 0 ] && "$program" --gather "$dir"
done
found=$("$here/parallel.sh" "$dir" "$program" | tail -1)
echo "wanted $wanted, found $found"
[ "$found" = "$wanted" ]
