#!/usr/bin/env bash
# ends.sh [DEBTS [RUNS]]: what it costs to close a post at the end of a run, beside one that is only let go, with one
# peer that is owed DEBTS debts (1,000,000) over disks in memory (bench/crates/tool_latency). It prints
#   how long that takes, as a ratio to 0.1 s more than the other takes (aim: at most 1), the best of RUNS runs of each
#     (3), by turns, and
#   how many times the octets of memory at the most (aim: at most 1.1), as bench/allocations.c, which cc builds, counts
#     what is asked of malloc.
#
# Other programs that run at the same time move the time. It fails on none.
. "$(dirname "$(readlink -f "${BASH_SOURCE[0]}")")/lib.sh"
build_benchmark tool_latency
debts=${1:-1000000} runs=${2:-3}
program=$(program_of "$top" tool_latency)
run=$(mktemp -d)
trap 'rm -rf "$run"' EXIT
cc -O2 -shared -fPIC -o "$run/allocations.so" "$top/bench/allocations.c"

for ((turn = 0; turn < runs; turn++)); do
  for way in closed unclosed; do
    LD_PRELOAD=$run/allocations.so "$program" end "$way" "$debts" >>"$run/$way" 2>"$run/$way.memory"
  done
done
closed=$(best 1 cat "$run/closed") unclosed=$(best 1 cat "$run/unclosed")
took="closed in $((closed / 1000)) us, let go in $((unclosed / 1000))"
ratio "the end of a post of $debts debts, $took, beside 0.1 s more (aim 1)" "$closed" $((unclosed + 100000000))
ratio "the same, octets of memory (aim 1.1)" \
  "$(awk '{ print $7 }' "$run/closed.memory")" "$(awk '{ print $7 }' "$run/unclosed.memory")"
