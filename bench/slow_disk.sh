#!/usr/bin/env bash
# slow_disk.sh [LINES [RUNS [PART ..]]]: how fast the lines of a funnel (20,000) are taken, and their articles delivered,
# if each sync of a file takes 5 ms longer (bench/slow_disk.c, built by cc); each is the best of RUNS runs (3). The
# parts are, all of them if none is named:
#   peers: with one peer and with four, each in memory (bench/sink.c) and with two connections, where each line names
#     all peers and its article has 1 KiB: how many lines a second are taken, from the start of the program to its last
#     `taken N` (aim: 50,000 with four), and how many of a whole run, to its end; with four also beside the disk as it
#     is, where the processors decide;
#   inn: with one peer, and where Debian's inn2 is installed, how many articles a second that peer gets, between its
#     first and its last, of 1, 4 and 32 KiB (of these a quarter as many) over 1, 2 and 4 connections, beside INN's
#     innfeed, which works off as many from a backlog file on the same disk (aim: at least 1.3). The two run by turns.
#     The second line of a cell has the middle runs of both: on a machine where rates differ by half from run to run,
#     the best of each says more of the machine than of the programs.
#
# $BEFORE may name another checkout of this repository, in which the program is built. It runs by turns with this one's,
# and for `peers` it is printed how many times its lines a second ours are (aim for whole runs: at least 2 with four
# peers).
#
# Other programs that run at the same time move these. It fails on none.
. "$(dirname "$(readlink -f "${BASH_SOURCE[0]}")")/lib.sh"
[ -z "${BEFORE-}" ] || built "$BEFORE" innfeed
build innfeed
lines=${1:-20000} runs=${2:-3} parts=("${@:3}")
[ ${#parts[@]} -gt 0 ] || parts=(peers inn)
run=$(mktemp -d)
trap 'kill $(jobs -p) 2>/dev/null || true; rm -rf "$run"' EXIT
cd "$run"
. "$top/bench/feeds.sh"
slow_disk

# per_second BEGAN ENDED: the lines a second between these microseconds.
per_second() { echo $((count * 1000000 / ($2 - $1))); }

# fed CHECKOUT PEERS NAME: one run; its lines a second go to NAME.taken and NAME.whole.
fed() {
  local began
  cleared
  listen "$2"
  settings 2 "${ports[@]}"
  rm -f taken
  began=$(now)
  env "${surroundings[@]}" "$1/crates/innfeed/out/innfeed" -c conf "funnel.$2" 2>log | note_taken "$count" ||
    { cat log >&2; exit 1; }
  per_second "$began" "$(now)" >>"$3.whole"
  per_second "$began" "$(<taken)" >>"$3.taken"
  hush
}

# beside KIND WORDS [AIM]: prints how many times the other checkout's best rate of that kind ours is.
beside() {
  local rate other
  rate=$(greatest "ours.$1")
  [ -n "${BEFORE-}" ] || { echo "syncs of 5 ms more, $2: $rate lines a second ($commit)"; return; }
  other=$(greatest "theirs.$1")
  ratio "syncs of 5 ms more, $2: $rate lines a second, beside the other checkout's $other${3-}" "$rate" "$other"
}

# with_peers: runs with one peer and with four.
with_peers() {
  local peers turn rate
  articles 1024 "$lines"
  for peers in 1 4; do
    rm -f ours.* theirs.*
    for ((turn = 0; turn < runs; turn++)); do
      fed "$top" "$peers" ours
      [ -z "${BEFORE-}" ] || fed "$BEFORE" "$peers" theirs
      [ "$peers" = 1 ] || (surroundings=() && fed "$top" "$peers" ours.fast)
    done
    if [ "$peers" = 1 ]; then
      beside taken 'one peer, taken'
      beside whole 'one peer, whole runs'
    else
      beside taken 'four peers, taken'
      beside whole 'four peers, whole runs' ' (aim 2)'
      ratio 'syncs of 5 ms more, four peers, taken, beside 50,000 lines a second' "$(greatest ours.taken)" 50000
      rate=$(greatest ours.fast.whole)
      ratio "syncs of 5 ms more, four peers, whole runs, beside $rate on the disk as it is" "$(greatest ours.whole)" "$rate"
    fi
  done
}

# beside_inn: runs of ours and of INN's, by turns.
beside_inn() {
  local size connections turn ours
  [ -x "$inn" ] || { echo "slow_disk.sh: nothing to compare with, since there is no $inn"; return; }
  for size in 1024 4096 32768; do
    articles "$size" $((size > 8192 ? lines / 4 : lines))
    for connections in 1 2 4; do
      rm -f ours inns
      for ((turn = 0; turn < runs; turn++)); do
        cleared
        listen
        settings "$connections" "${ports[@]}"
        timed env "${surroundings[@]}" "$top/crates/innfeed/out/innfeed" -c conf funnel.1
        rate >>ours
        from_inn "$connections" >>inns
      done
      ours=$(greatest ours)
      ratio "syncs of 5 ms more, $size octets, $connections connections: $ours a second, beside INN's $(greatest inns) (aim 1.3)" \
        "$ours" "$(greatest inns)"
      ours=$(middle ours)
      ratio "  by the middle of $runs runs: $ours a second, beside INN's $(middle inns) (aim 1.3)" "$ours" "$(middle inns)"
    done
  done
}

for part in "${parts[@]}"; do
  case $part in
    peers) with_peers ;;
    inn) beside_inn ;;
    *) echo "slow_disk.sh: no part $part" >&2; exit 64 ;;
  esac
done
