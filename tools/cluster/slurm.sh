#!/bin/bash
# slurm.sh DIR PROGRAM [OPTION..]: has Slurm work on the parts of a check in DIR until none is open, a minute each at a time, as an array of
# jobs for each round. OPTIONs go to sbatch. All nodes have DIR and PROGRAM under the same names. Ends with PROGRAM's status.
set -u
dir=$1 program=$2
shift 2
while true; do
  count=$(wc -l < "$dir/open")
  if [ "$count" -gt 0 ]; then
    sbatch --wait --quiet --output /dev/null --array "1-$count" "$@" --wrap \
      "$program --part $dir/\$(sed -n \${SLURM_ARRAY_TASK_ID}p $dir/open) --max-duration ${SECONDS_EACH:-60}"
  fi
  "$program" --gather "$dir"
  status=$?
  [ "$status" -eq 3 ] || exit "$status"
done
