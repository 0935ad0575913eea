#!/usr/bin/env bash
# latency.sh [FLUSHES [DIRECTORY]]: how long calls take that begin while their peer's tape is flushed
# (bench/crates/tool_latency). Over files of a new directory in this one, or in that of temporary files, a post of two
# peers is kept at work until FLUSHES flushes (40) have ended, on a disk on which a flush of a tape takes 5, 20 and 100
# ms longer, half of that in each of its two syncs (bench/slow_disk.c, built by cc). One worker takes a line each 100 us, one claims
# the debts of the first peer, whose texts its front holds, and finishes them, and one tries to claim debts of the second
# that only the tape has. Of the calls that begin beside such a flush it prints the time that 99 of 100 kept within, as a
# ratio to 1 ms (aim: at most 1). A `try_claim` is to be refused within that time, as `Busy`: it is printed how many were.
#
# $BEFORE may name another checkout of this repository, in which the program is built: it runs by turns with this one's,
# and its figures follow.
#
# Other programs that run at the same time move these. It fails on none.
. "$(dirname "$(readlink -f "${BASH_SOURCE[0]}")")/lib.sh"
[ -z "${BEFORE-}" ] || built "$BEFORE" tool_latency
build_benchmark tool_latency
flushes=${1:-40}
run=$(mktemp -d -p "${2:-${TMPDIR:-/tmp}}")
trap 'rm -rf "$run"' EXIT
cc -O2 -shared -fPIC -o "$run/slow_disk.so" "$top/bench/slow_disk.c"

# beside_flushes CHECKOUT MILLISECONDS WORDS: prints what the calls took in that checkout's program.
beside_flushes() {
  local program count call within busy
  program=$(program_of "$1" tool_latency)
  SYNC_MS=$(awk -v flush="$2" 'BEGIN { print flush / 2 }') LD_PRELOAD=$run/slow_disk.so \
    "$program" "$run" "$flushes" >"$run/told"
  busy=$(awk '$2 == "refused" { print $1 }' "$run/told")
  while read -r count call within _; do
    [ "$call" != refused ] || call='of these, refused as Busy'
    [ "$call" != try_claim ] || call="try_claim, $busy of them Busy"
    ratio "$3beside flushes of $2 ms more, $count $call: 99 of 100 within $((within / 1000)) us, beside 1 ms (aim 1)" \
      "$within" 1000000
  done <"$run/told"
}

for flush in 5 20 100; do
  beside_flushes "$top" "$flush" ''
  [ -z "${BEFORE-}" ] || beside_flushes "$BEFORE" "$flush" 'the other checkout: '
done
