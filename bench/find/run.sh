#!/bin/bash
# run.sh PROGRAM [ROWS COLUMNS [WIDTH:SUPPORT..]]: the same dependencies by find.cpp and by PROGRAM (a built cfdbench), one
# after the other, with seconds and peak memory of both, by how much PROGRAM takes longer, and whether both write the same.
# COLUMNS is a number or `customers` (see gen.py). With PROGRAM alone, tables of many sizes. Needs g++, python3, GNU time.
set -eu
usage='usage: run.sh PROGRAM [ROWS COLUMNS [WIDTH:SUPPORT..]]'
program=$(readlink -f "${1:?$usage}")
shift
here=$(dirname "$(readlink -f "$0")")
work=${BENCH_DIR:-${TMPDIR:-/tmp}/cfdbench-find}
mkdir -p "$work"
[[ $work/find -nt $here/find.cpp ]] || g++ -O3 -std=c++17 -o "$work/find" "$here/find.cpp"

# timed NAME COMMAND..: its output is NAME.out, its seconds and kilobytes are in NAME.time.
timed() {
  local name=$1
  shift
  /usr/bin/time -q -f '%e %M' -o "$name.time" "$@" > "$name.out" || true
}

# The last words of both, which are the same but for a table in which too many are found: each tells that in its own words.
verdict() {
  if [[ $(tail -1 cpp.out) == 'too many' ]]; then
    echo "too many: $(tail -1 program.out)"
  elif cmp -s cpp.out program.out; then
    echo "the same: $(tail -1 cpp.out)"
  else
    echo DIFFERENT
  fi
}

measure() {
  local rows=$1 columns=$2 asked width support table=$work/$1-$2
  shift 2
  [[ $# -gt 0 ]] || set -- 1:1 1:10 1:1000 2:1 2:10 2:1000 3:1 3:10 3:1000
  [[ -e $table/t.csv ]] || python3 "$here/gen.py" "$table" "$rows" "$columns"
  cd "$table"
  for asked in "$@"; do
    width=${asked%:*} support=${asked#*:}
    timed cpp "$work/find" . "$width" "$support"
    timed program "$program" find p t "$width" "$support"
    echo "$(tail -1 cpp.time) $(tail -1 program.time)" | awk -v what="$rows x $columns, width $width, support $support" \
      '{ printf "%s: c++ %.2f s, %d MB; cfdbench %.2f s, %d MB; ", what, $1, $2 / 1000, $3, $4 / 1000
         if ($1 > 0) printf "%.1f times; ", $3 / $1 }'
    verdict
  done
}

if [[ $# -gt 0 ]]; then
  measure "$1" "${2:?$usage}" "${@:3}"
else
  for rows in 10000 100000 200000 500000; do measure "$rows" 20; done
  for rows in 10000 100000; do measure "$rows" 64 1:10 2:10 3:10; done
  measure 200000 customers 1:1000 2:1000 3:1000
fi
