#!/usr/bin/env bash
# segments.sh [MANY [RUNS]]: how fast the segments of a funnel are worked off that wait after an outage, each of one line
# for a peer that is away: MANY of them (30,000), beside 1,000 (aim: 0.8 of that rate). The run follows and tidies the
# directory. A rate goes from the start of the program to the removal of the last segment but one, and is the best of
# RUNS runs (3), by turns.
#
# Most of the time goes into one sync and one removal a segment: other programs that use the disk move it. It fails on no
# ratio.
. "$(dirname "$(readlink -f "${BASH_SOURCE[0]}")")/lib.sh"
build innfeed
many=${1:-30000} runs=${2:-3} few=1000
run=$(mktemp -d)
trap 'kill $(jobs -p) 2>/dev/null || true; rm -rf "$run"' EXIT
cd "$run"
mkdir articles
# Nobody listens at the port of a socket that is bound alone.
python3 -c 'import signal, socket; one = socket.socket(); one.bind(("127.0.0.1", 0)); print(one.getsockname()[1], flush=True); signal.pause()' >dead.port &
until [ -s dead.port ]; do sleep 0.05; done
cat >innfeed.conf <<END
news-spool: articles
backlog-directory: backlog
status-file: status
ip-name: 127.0.0.1
peer dead { port-number: $(<dead.port) }
END

# worked_off COUNT: one run over so many segments; adds its segments a second to rates.COUNT.
worked_off() {
  local began
  rm -rf funnel backlog
  mkdir funnel backlog
  awk -v count="$1" 'BEGIN {
    for (n = 1; n <= count; n++) {
      file = sprintf("funnel/%020d", n)
      print n, "<" n "@bench>", "dead" > file
      close(file)
    }
  }'
  sync -f funnel
  began=$(now)
  "$top/crates/innfeed/out/innfeed" -c innfeed.conf --follow --tidy funnel >/dev/null 2>log &
  while [ -e "$(printf 'funnel/%020d' $(($1 - 1)))" ]; do
    kill -0 $! 2>/dev/null || { cat log >&2; exit 1; }
    sleep 0.005
  done
  now >ended
  touch backlog/~stop
  wait $! || { cat log >&2; exit 1; }
  echo $(($1 * 1000000 / ($(<ended) - began))) >>"rates.$1"
}

for ((turn = 0; turn < runs; turn++)); do
  worked_off "$few"
  worked_off "$many"
done
of_few=$(sort -n "rates.$few" | tail -n 1) of_many=$(sort -n "rates.$many" | tail -n 1)
awk -v a="$of_many" -v b="$of_few" -v many="$many" -v few="$few" -v commit="$commit" 'BEGIN {
  printf "waiting segments, a second: %d of %d, %d of %d: %.2f times (aim 0.8) (%s)\n", a, many, b, few, a / b, commit
}'
