#!/bin/bash
# parallel.sh DIR PROGRAM [HOST..]: has GNU parallel work on the parts of a check in DIR until none is open, a minute each at a time, by
# as many processes as there are processors here, or on each HOST. All have DIR and PROGRAM under the same names. Ends with PROGRAM's status.
set -u
dir=$1 program=$2
shift 2
where=()
for host in "$@"; do
  where+=(--sshlogin "$host" --workdir "$PWD")
done
while true; do
  parallel "${where[@]}" "$program" --part "$dir/{}" --max-duration "${SECONDS_EACH:-60}" :::: "$dir/open" > /dev/null
  "$program" --gather "$dir"
  status=$?
  [ "$status" -eq 3 ] || exit "$status"
done
