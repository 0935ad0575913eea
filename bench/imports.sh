#!/usr/bin/env bash
# imports.sh [LINES [RUNS]]: what the lines of a backlog file cost beside those of a funnel, each in a
# whole run of the program whose only peer cannot be reached. It prints
#   how long a run takes that takes in LINES lines (1,000,000) from a backlog file, as a ratio to
#     one that reads as many from a funnel (aim: at most 1.3), the best of RUNS runs of each (3),
#     by turns, and
#   how many octets of memory a debt takes in the whole program, from either: the most memory of a
#     run with LINES lines, less that of a run with a tenth of them.
#
# $BEFORE may name another checkout of this repository, in which the program is built. It runs by the
# same turns, and it is printed how many times its time and its octets of memory a debt ours are (aim
# for the octets: at most 1.4).
#
# Other programs that run at the same time move the time. It fails on none.
. "$(dirname "$(readlink -f "${BASH_SOURCE[0]}")")/lib.sh"
[ -z "${BEFORE-}" ] || built "$BEFORE" innfeed
build innfeed
lines=${1:-1000000} runs=${2:-3}
run=$(mktemp -d)
trap 'kill $(jobs -p) 2>/dev/null || true; rm -rf "$run"' EXIT
cd "$run"
mkdir articles
cat >conf <<END
news-spool: "$run/articles"
backlog-directory: "$run/backlog"
status-file: "$run/status"
peer p { ip-name: 127.0.0.1 port-number: 1 }
END

# written COUNT: a funnel of COUNT lines, and a backlog file of the same debts.
written() {
  awk -v count="$1" 'BEGIN {
    for (n = 1; n <= count; n++) {
      print "a/" n, "<" n "@bench>" > "batch"
      print "a/" n, "<" n "@bench> p" > "funnel"
    }
  }'
}

# watched COMMAND ..: runs it over a new backlog directory, and prints `COUNT WHAT N nanoseconds` of
# its time and, last, the most memory that it had, in kibibytes.
watched() {
  local began memory=0 seen pid status=0
  began=$(date +%s%N)
  "$@" >told 2>&1 &
  pid=$!
  while seen=$(awk '$1 == "VmHWM:" { print $2 }' "/proc/$pid/status" 2>/dev/null) && [ -n "$seen" ]; do
    memory=$seen
    sleep 0.02
  done
  wait "$pid" || status=$?
  echo "1 run $(($(date +%s%N) - began)) nanoseconds $memory"
  [ "$status" = 0 ] || { echo "imports.sh: status $status: $(tail -n 1 told)" >&2; exit 1; }
}
# both CHECKOUT WORD: runs its program over a funnel, and over a backlog file, and adds what was watched to the files
# CHECKOUT.funnel.WORD and CHECKOUT.backlog.WORD.
both() {
  local checkout=$top
  [ "$1" = ours ] || checkout=$BEFORE
  rm -rf backlog && mkdir backlog
  watched "$checkout/crates/innfeed/out/innfeed" -c conf funnel >>"$1.funnel.$2"
  rm -rf backlog && mkdir backlog
  cp batch backlog/p
  watched "$checkout/crates/innfeed/out/innfeed" -c conf -x >>"$1.backlog.$2"
}

# a_debt NAME: octets of memory a debt, from the runs with the tenth and with all.
a_debt() {
  awk -v debts=$((lines - lines / 10)) 'FNR == 1 { files++ } { memory[files] = $5 }
    END { printf "%.0f", 1024 * (memory[2] - memory[1]) / debts }' "$1.few" "$1.many"
}

checkouts=(ours)
[ -z "${BEFORE-}" ] || checkouts+=(theirs)
written $((lines / 10))
for checkout in "${checkouts[@]}"; do both "$checkout" few; done
written "$lines"
for ((turn = 0; turn < runs; turn++)); do
  for checkout in "${checkouts[@]}"; do both "$checkout" many; done
done
funnel=$(best 1 cat ours.funnel.many) backlog=$(best 1 cat ours.backlog.many)
ratio "a backlog file of $lines lines, $((backlog / lines)) ns a line, beside a funnel's $((funnel / lines))" "$backlog" "$funnel"
echo "a debt in the whole program: $(a_debt ours.funnel) octets of memory from a funnel," \
  "$(a_debt ours.backlog) from a backlog file ($commit)"
[ -n "${BEFORE-}" ] || exit 0
for way in funnel backlog; do
  time=$(best 1 cat "ours.$way.many") other=$(best 1 cat "theirs.$way.many")
  ratio "a line of a $way, $((time / lines)) ns, beside the other checkout's $((other / lines))" "$time" "$other"
  ratio "memory of a debt of a $way, $(a_debt "ours.$way") octets, beside the other checkout's $(a_debt "theirs.$way") (aim 1.4)" \
    "$(a_debt "ours.$way")" "$(a_debt "theirs.$way")"
done
