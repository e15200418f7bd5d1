#!/bin/bash
# run.sh ROWS EVENTS PROGRAM [HOT]: what `desk p events` of PROGRAM (a built cfdbench) takes over what gen.py makes, and what
# `run p` takes for the same changes as a script: of three runs each the least seconds and the peak memory, and the ratio of
# the seconds. Needs python3 and GNU time.
set -eu
rows=${1:?usage: run.sh ROWS EVENTS PROGRAM [HOT]}
events=${2:?usage: run.sh ROWS EVENTS PROGRAM [HOT]}
program=$(readlink -f "${3:?usage: run.sh ROWS EVENTS PROGRAM [HOT]}")
shift 3
here=$(dirname "$(readlink -f "$0")")
folder=${BENCH_DIR:-${TMPDIR:-/tmp}/cfdbench-desk}/$rows-$events${1:+-hot}
[[ -e $folder/script ]] || python3 "$here/gen.py" "$folder" "$rows" "$events" "$@"
cd "$folder"

# The least seconds and kilobytes of three runs; a run ends with 0 or 1.
least() {
  for _ in 1 2 3; do
    /usr/bin/time -q -f '%e %M' "$program" "$@" 2>&1 >out || [[ $? = 1 ]]
  done | sort -g | head -n 1
}

read -r desk_time desk_memory < <(least desk p events)
echo "desk: $desk_time s, $desk_memory KB"
read -r run_time run_memory < <(least run p)
echo "run: $run_time s, $run_memory KB"
awk -v d="$desk_time" -v r="$run_time" 'BEGIN { printf "desk takes %.2f times as long\n", d / r }'
