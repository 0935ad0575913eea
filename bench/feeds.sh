# What the scripts share that feed articles to a peer in memory (bench/sink.c, built by cc), by our innfeed and by INN's;
# each sources it after lib.sh, in a folder of its own, whose path is $run. $count is the number of articles, and $files
# that of the files that have them, by turns.

# INN's innfeed, where Debian's inn2 is installed.
inn=/usr/lib/news/bin/innfeed

# What stands in a feeder's environment besides.
surroundings=()

cc -O2 -o sink "$top/bench/sink.c"

# slow_disk: from here on each sync of a program that has `surroundings` takes 5 ms longer.
slow_disk() {
  cc -O2 -shared -fPIC -o slow_disk.so "$top/bench/slow_disk.c"
  surroundings=(SYNC_MS=5 LD_PRELOAD="$run/slow_disk.so")
}

# synced: microseconds that a write of one octet and its fdatasync take.
synced() {
  local began
  began=$(now)
  dd if=/dev/zero of=probe bs=1 count=100 oflag=dsync 2>/dev/null
  echo $((($(now) - began) / 100))
}

# note_taken NUMBER: reads what a run prints, and writes the microsecond of `taken NUMBER` into the file taken.
note_taken() {
  local word number
  while read -r word number; do [ "$word $number" != "taken $1" ] || now >taken; done
}

# inn_conf SPOOL: what INN's innfeed wants to be there, if this is innd's spool.
inn_conf() {
  mkdir -p inn
  printf 'method tradspool {\n newsgroups: *\n class: 0\n}\n' >inn/storage.conf
  cat >inn/inn.conf <<END
mta: "/bin/true %s"
organization: "bench"
pathhost: bench.example.com
domain: example.com
hismethod: hisv6
enableoverview: false
pathnews: /usr/lib/news
pathetc: "$run/inn"
pathdb: "$run/inn"
pathlog: "$run/inn"
pathrun: "$run/inn"
pathspool: "$1"
patharticles: "$1/articles"
END
}
inn_conf "$run"

# articles SIZE COUNT [FILES]: sets count and files; COUNT articles of about SIZE octets in FILES files (COUNT), a batch
# of them for INN's innfeed, and funnels of them for ours: for the peer p1, for p1 and p2, and for p1 to p4.
articles() {
  count=$2 files=${3:-$2}
  rm -rf articles && mkdir articles
  awk -v size="$1" -v count="$count" -v files="$files" 'BEGIN {
    line = "A line of an article, as long as most of them are, or so.\n"
    while (length(lines) < 8000) lines = lines line
    while (length(body) + length(lines) < size - 80) body = body lines
    while (length(body) < size - 80) body = body line
    for (n = 1; n <= files; n++) {
      file = "articles/" n
      printf "Subject: %d\nMessage-ID: <%d@bench>\n\n%s", n, n, body > file
      close(file)
    }
    for (n = 1; n <= count; n++) {
      file = (n - 1) % files + 1
      print file, "<" n "@bench>" > "batch"
      print file, "<" n "@bench>", "p1" > "funnel.1"
      print file, "<" n "@bench>", "p1 p2" > "funnel.2"
      print file, "<" n "@bench>", "p1 p2 p3 p4" > "funnel.4"
    }
  }'
}

# listen [PEERS]: PEERS peers (1), each of which answers after $late milliseconds (0); `sinks` has their processes, and
# `ports` their ports.
listen() {
  local peer
  sinks=() ports=()
  for ((peer = 1; peer <= ${1:-1}; peer++)); do
    rm -f "told.$peer"
    ./sink -p 0 -l "${late:-0}" >"told.$peer" &
    sinks+=($!)
    until [ -s "told.$peer" ]; do
      kill -0 "${sinks[-1]}" 2>/dev/null || { echo "${0##*/}: the peer does not start" >&2; exit 1; }
      sleep 0.02
    done
    ports+=("$(grep -o '[0-9]*$' "told.$peer")")
  done
}

# hush: ends the peers, and tells which one has not had each article.
hush() {
  local peer got
  kill "${sinks[@]}"
  wait "${sinks[@]}" || true
  for ((peer = 1; peer <= ${#sinks[@]}; peer++)); do
    got=$(sed -n 's/.*distinct=\([0-9]*\).*/\1/p' "told.$peer")
    [ "$got" = "$count" ] || echo "${0##*/}: the peer has ${got:-0} of $count articles" >&2
  done
  sinks=()
}

# rate: ends the peer, and prints the articles a second between its first and its last.
rate() {
  hush
  sed -n 's/.*art_per_s=\([0-9]*\).*/\1/p' told.1
}

# timed COMMAND ..: runs it, and keeps its processor seconds in the file times.
timed() {
  local TIMEFORMAT='%U %S'
  { time "$@" >told 2>&1 </dev/null; } 2>times || true
}

# The backlog directory.
backlog=$run/backlog

# cleared: an empty backlog directory.
cleared() { rm -rf "$backlog" && mkdir "$backlog"; }

# settings CONNECTIONS PORT ..: a configuration for ours, with a peer at each port, and with innd's spool $innd_spool, if
# that is set.
settings() {
  local connections=$1 peer=0 port
  shift
  {
    echo "news-spool: \"$run/articles\""
    [ -z "${innd_spool-}" ] || echo "innd-spool: \"$innd_spool\""
    echo "backlog-directory: \"$backlog\""
    echo "status-file: \"$run/status\""
    echo "max-queue-size: 20 max-connections: $connections"
    for port in "$@"; do echo "peer p$((peer += 1)) { ip-name: 127.0.0.1 port-number: $port }"; done
  } >conf
}

# from_inn CONNECTIONS [BATCH]: the rate of INN's innfeed, which works off a backlog file.
from_inn() {
  cleared
  cp "${2:-batch}" "$backlog/p1"
  listen
  cat >conf <<END
news-spool: "$run/articles"
backlog-directory: "$backlog"
pid-file: "$run/inn/pid"
log-file: "$run/inn/log"
status-file: "$run/inn/status"
dynamic-method: 0
initial-connections: $1
max-connections: $1
max-queue-size: 20
streaming: true
peer p1 {
  ip-name: 127.0.0.1
  port-number: ${ports[0]}
}
END
  timed env INNCONF="$run/inn/inn.conf" "${surroundings[@]}" "$inn" -c "$run/conf" -b "$backlog" -a "$run/articles" -x
  rate
}

# greatest FILE, least FILE, middle FILE: the greatest number in a file of numbers, the least, and the middle one (of
# two middle ones the lesser).
greatest() { sort -n "$1" | tail -n 1; }
least() { sort -n "$1" | head -n 1; }
middle() { sort -n "$1" | sed -n "$((($(wc -l <"$1") + 1) / 2))p"; }
