#!/usr/bin/env bash
# disk_model.sh [DIRECTORY]: how long flushes of 256, 4,096 and 65,536 notes to a tape in files of this directory, or of
# that of temporary files, take beside a plain C program that writes as many octets, syncs, writes one octet, and syncs
# (bench/flushes.c, built by cc), the best of five runs of each, by turns (aim: under 1.2 for 256 notes).
#
# $BEFORE may name another checkout of this repository, in which the program of the benchmarks is built from this
# checkout's sources: copy bench/crates/tool_bench there first (or, into one that still has crates/tool_bench, the
# folder crates/tool_bench of a tree that `tools/lay-out bench FOLDER` has laid out). Its flushes are then timed by the
# same turns, and it is printed how long a flush takes beside one of that checkout's: whole (aim: at most 1.05), and
# each less what the plain program takes for as many octets (aims: at most 0.4, 0.3 and 0.1).
#
# A device that others use at the same time moves the ratios. It fails on none.
. "$(dirname "$(readlink -f "${BASH_SOURCE[0]}")")/lib.sh"
[ -z "${BEFORE-}" ] || built "$BEFORE"
build_benchmark tool_bench
run=$(mktemp -d -p "${1:-${TMPDIR:-/tmp}}")
trap 'rm -rf "$run"' EXIT
cc -O2 -o "$run/flushes" "$top/bench/flushes.c"

# flushed PROGRAM COUNT NOTES: times COUNT flushes of the program, and the same of the plain one for as many octets.
flushed() {
  "$1" disk_model flush "$run" "$2" "$3" >>"$run/$1"
  "$run/flushes" "$run/plain" "$2" $(($(stat -c %s "$run/bench~a") / $2)) >>"$run/$1.plain"
}

while read -r count notes aim; do
  rm -f "$run"/{bench,other}{,.plain}
  for ((turn = 0; turn < 5; turn++)); do
    flushed bench "$count" "$notes"
    [ -z "${BEFORE-}" ] || flushed other "$count" "$notes"
  done
  ours=$(best 1 cat "$run/bench") plain=$(best 1 cat "$run/bench.plain")
  ratio "FileDisk, $((ours / count / 1000)) us a flush of $notes notes, beside two syncs" "$ours" "$plain"
  if [ -n "${BEFORE-}" ]; then
    theirs=$(best 1 cat "$run/other") others=$(best 1 cat "$run/other.plain")
    ratio "the same beside the other checkout's, $((theirs / count / 1000)) us (aim 1.05)" "$ours" "$theirs"
    ratio "the same, each less two syncs (aim $aim)" "$(beyond "$ours" "$plain")" "$(beyond "$theirs" "$others")"
  fi
done <<'FLUSHES'
100 256 0.4
20 4096 0.3
4 65536 0.1
FLUSHES
