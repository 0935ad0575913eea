#!/usr/bin/env bash
# How the time of a drill grows with its lines: 200,000 lines against 20,000, for two peers, with a flush after each
# 10,000 lines, and a stop and a restart at the end; the best of three runs each. Linear growth is 10. It fails on no ratio.
. "$(dirname "$(readlink -f "${BASH_SOURCE[0]}")")/lib.sh"
build innfeed
folder=$(mktemp -d)
trap 'rm -rf "$folder"' EXIT

# script LINES: a drill of LINES lines.
script() {
  awk -v lines="$1" 'BEGIN {
    print "peer one.example"; print "peer two.example"
    for (n = 1; n <= lines; n++) {
      printf "line %02x/%02x/%08d <%d.bench@news.example.org> one.example two.example\n", n % 256, int(n / 256) % 256, n, n
      if (n % 10000 == 0) print "flush"
    }
    print "stop"; print "restart"
  }'
}

# drill LINES: runs one, and tells the time.
drill() {
  local began
  began=$(date +%s%N)
  "$top/innfeed" <"$folder/$1" >"$folder/printed"
  echo "$1 lines $(($(date +%s%N) - began)) nanoseconds"
}

for lines in 20000 200000; do script "$lines" >"$folder/$lines"; done
few=$(best 3 drill 20000)
many=$(best 3 drill 200000)
ratio "drill, $((few / 1000000)) ms for 20,000 lines, $((many / 1000000)) ms for 200,000, growth" "$many" "$few"
