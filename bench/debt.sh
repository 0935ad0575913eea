#!/usr/bin/env bash
# debt.sh [CHECKOUT]: what one debt costs on its way from its funnel line to the note of its final
# answer, over a tape in files of memory where the system has such (/dev/shm), so that no sync waits
# for a device. It prints
#   the time a debt, and how the time grows from 10,000 debts to 100,000 (aim: under 11), the best
#     of five runs each,
#   how often a debt has memory allocated, and how often some is to have another size,
#   where strace is there, how many system calls it makes, and
#   how many blocks of memory, and how many octets, are held of a debt that is owed.
# All but the time are what 51,200 debts take more than 25,600 do, for each; bench/allocations.c,
# which cc builds, counts what is asked of malloc.
#
# CHECKOUT is another checkout of this repository, of which the same is told beside: its program has
# to be built (bench/build tool_bench), and to know the word `debt` (ways.rt.in of tool_bench). If that
# program is missing, or older than its sources, nothing is measured, and the status is 70.
#
# Other programs that run at the same time move the time. It fails on none.
. "$(dirname "$(readlink -f "${BASH_SOURCE[0]}")")/lib.sh"
[ $# -eq 0 ] || built "$1"
build_benchmark tool_bench
run=$(mktemp -d)
memory=/dev/shm
[ -w "$memory" ] || memory=${TMPDIR:-/tmp}
tape=$(mktemp -d -p "$memory")
trap 'rm -rf "$run" "$tape"' EXIT
cc -O2 -shared -fPIC -o "$run/allocations.so" "$top/bench/allocations.c"

fewer=25600 more=51200

# counted PROGRAM WORD DEBTS: what a run asks of malloc.
counted() { LD_PRELOAD=$run/allocations.so "$1" debt "$2" "$tape" "$3" 2>&1 >"$run/printed"; }

# called PROGRAM DEBTS: how many system calls a run makes.
called() {
  strace -f -c -o "$run/calls" "$1" debt way "$tape" "$2" >"$run/printed"
  awk '$NF == "total" { print $4 }' "$run/calls"
}

# each FIELD LINE LINE: by how much a field of these two is more in the second, for each debt more.
each() {
  printf '%s\n%s\n' "$2" "$3" | awk -v field="$1" -v debts=$((more - fewer)) \
    'NR == 1 { least = $field } END { printf "%.2f", ($field - least) / debts }'
}

# measured PROGRAM: tells what a debt costs in this program, which is that of the commit.
measured() {
  local few many calls=''
  few=$(best 5 "$1" debt way "$tape" 10000) many=$(best 5 "$1" debt way "$tape" 100000)
  ratio "a debt, $((many / 99840)) ns, growth from 10,000 to 100,000 debts" "$many" "$few"
  few=$(counted "$1" way "$fewer") many=$(counted "$1" way "$more")
  if command -v strace >/dev/null; then
    calls=", $(each 1 "$(called "$1" "$fewer")" "$(called "$1" "$more")") system calls"
  fi
  echo "a debt, $(each 1 "$few" "$many") allocations, $(each 3 "$few" "$many") resizings$calls ($commit)"
  few=$(counted "$1" owed "$fewer") many=$(counted "$1" owed "$more")
  echo "a debt owed, $(each 5 "$few" "$many") blocks, $(each 7 "$few" "$many") octets ($commit)"
}

measured "$bench_program"
if [ $# -gt 0 ]; then
  commit=$(git -C "$1" rev-parse --short HEAD)
  measured "$(program_of "$1" tool_bench)"
fi
