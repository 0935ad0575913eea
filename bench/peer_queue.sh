#!/usr/bin/env bash
# How the time per debt grows from 10,000 debts to 100,000, all of them owed at once before the first is claimed, over a
# disk in memory; the clock runs in the calls of the station alone. It prints the time per debt at 100,000 as a ratio to
# that at 10,000, the best of three runs each:
#   run: each debt is owed, claimed and settled, with a flush every 1,000 notes, and
#   defer: each debt is owed, claimed, deferred, and claimed again once its moment has passed.
# The trees have at most 17 levels in place of 14: the steps alone would make a ratio of about 1.2. The aim is under 1.5.
# Then the same from 200,000 debts to 2,000,000 that are above the limit of a backlog and are all shed, by as many calls
# as it takes, each with a flush after it; the aim is under 1.5 too.
# Then the time in which 1,000,000 lines of the funnel and 100,000 of 1,000 backlog files are
# claimed, all of them owed and flushed before, as a ratio to that of as many lines of which the
# 100,000 are of one backlog file, the best of three runs each, by turns. The aim is under 1.3.
#
# Other programs that run at the same time move the ratio. It fails on none.
. "$(dirname "$(readlink -f "${BASH_SOURCE[0]}")")/lib.sh"
build_benchmark tool_bench
run=$(mktemp -d)
trap 'rm -rf "$run"' EXIT

for work in run defer; do
  few=$(best 3 bench peer_queue "$work" 10000)
  many=$(best 3 bench peer_queue "$work" 100000)
  ratio "Station, $work, $((few / 10000)) ns a debt of 10,000, $((many / 100000)) of 100,000, growth" "$many" $((few * 10))
done
few=$(best 3 bench peer_queue shed 200000)
many=$(best 3 bench peer_queue shed 2000000)
ratio "Station, shed, $((few / 200000)) ns a debt of 200,000, $((many / 2000000)) of 2,000,000, growth" "$many" $((few * 10))

for ((turn = 0; turn < 3; turn++)); do
  bench peer_queue claim 1 1000000 100000 >>"$run/one"
  bench peer_queue claim 1000 1000000 100000 >>"$run/many"
done
one=$(best 1 cat "$run/one") many=$(best 1 cat "$run/many")
ratio "Station, claim, $((one / 1100000)) ns a debt of one backlog file, $((many / 1100000)) of 1,000, growth" "$many" "$one"
