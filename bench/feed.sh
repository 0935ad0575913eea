#!/usr/bin/env bash
# feed.sh [ARTICLES [RUNS [PART ..]]]: how fast articles (20,000; of 32 KiB a quarter as many) get to a peer in memory
# (bench/sink.c, built by cc). The parts are, all of them if none is named:
#   rates: articles a second between the peer's first and its last, of 1, 4 and 32 KiB over 1, 2 and 4 connections, each
#     the best of RUNS runs (2): from a backlog (-x), and from a funnel with its durable flushes. Where Debian's inn2
#     is installed INN's innfeed works off the same articles from a backlog file in the same run, and the ratios are ours
#     to its; elsewhere the articles a second stand alone. Beside them the time of an fdatasync in the same minute;
#   before: the same without INN's, and of a twentieth as many of 1 MiB, if $BEFORE names another checkout of this
#     repository, in which the program is built: both run by turns, and it is printed how many times its articles a
#     second ours are (aim: nowhere below 0.95, of the best of five runs), and how many times its processor time an
#     article;
#   costs: from a backlog, the processor time an article, ours to INN's; and, where strace is there, the system calls an
#     article;
#   late: from a backlog, the part of the window that is used at a peer whose answers take 20 ms;
#   1MiB: the rates of a twentieth as many articles of 1 MiB over 1, 2, 4 and 64 connections, beside INN's, with the
#     processor time an article. A file of them serves for ten;
#   bare: from a backlog, rates and processor time an article, of 1, 4 and 32 KiB over 1, 2 and 4 connections, beside a
#     sender in C of one thread that notes nothing of what it sends (bench/bare.c, built by cc): one that opens the file
#     of each article, and one that has all of them in memory as they are sent;
#   together: from backlogs, 1, 2 and 4 peers that all get the same articles, of 1, 4 and 32 KiB over 2 connections each:
#     deliveries a second and the processor time of each, and, where strace is there, how often an article's file is
#     opened for 1,000 articles (aim: at most 2.1 times). If $BEFORE names another checkout, beside that one's by turns;
#   spool: the same as bare, if the articles are read where innd keeps them, a tradspool in wire format that is made here,
#     beside copies of them and, where it is installed, beside INN's innfeed over the same spool.
#
# $INNFEED names another program to measure.
#
# Other programs that run at the same time move these. It fails on none.
. "$(dirname "$(readlink -f "${BASH_SOURCE[0]}")")/lib.sh"
[ -z "${BEFORE-}" ] || built "$BEFORE" innfeed
choose_feeder
most=${1:-20000} runs=${2:-2} parts=("${@:3}")
[ ${#parts[@]} -gt 0 ] || parts=(rates before costs late 1MiB bare together spool)
run=$(mktemp -d)
trap 'kill $(jobs -p) 2>/dev/null || true; rm -rf "$run"' EXIT
cd "$run"
. "$top/bench/feeds.sh"

# from_funnel PROGRAM CONNECTIONS: its rate.
from_funnel() {
  cleared
  listen
  settings "$2" "${ports[@]}"
  timed "$1" -c conf funnel.1
  rate
}
# from_backlog PROGRAM CONNECTIONS [FUNNEL]: its rate, once all is owed to a peer that could not be reached.
from_backlog() {
  cleared
  settings "$2" 1
  "$1" -c conf "${3:-funnel.1}" >told 2>&1
  listen
  settings "$2" "${ports[@]}"
  timed ${trace:-} "$1" -c conf -x
  rate
}
# from_bare WORD CONNECTIONS: the rate of a bare sender.
from_bare() {
  listen
  ./bare "$1" "${ports[0]}" articles "$files" "$count" "$2" 20 >told
  awk '{ printf "%.6f 0\n", $3 / 1e9 }' told >times
  rate
}
# spent: microseconds of the last timed command an article.
spent() { awk -v count="$count" '{ printf "%.1f", ($1 + $2) * 1000000 / count }' times; }
# each_size COMMAND ..: runs it for articles of each size.
each_size() {
  for size in 1024 4096 32768; do
    articles "$size" $((size > 8192 ? most / 4 : most))
    "$@"
  done
}

# cell_rates: the rates of this size over each number of connections, beside INN's.
cell_rates() {
  local connections turn
  for connections in 1 2 4; do
    rm -f rates.*
    for ((turn = 0; turn < runs; turn++)); do
      from_backlog "$ours" "$connections" >>rates.backlog
      from_funnel "$ours" "$connections" >>rates.funnel
      if [ -x "$inn" ]; then from_inn "$connections"; else echo 0; fi >>rates.inn
    done
    awk -v size="$size" -v c="$connections" -v b="$(greatest rates.backlog)" -v f="$(greatest rates.funnel)" \
      -v i="$(greatest rates.inn)" -v s="$(synced)" -v commit="$commit" 'BEGIN {
      printf "%d octets, %d connections: from a backlog %d a second", size, c, b
      if (i > 0) printf " (%.2f times INN'"'"'s %d)", b / i, i
      printf ", from a funnel %d", f
      if (i > 0) printf " (%.2f times)", f / i
      printf ", a sync %d us (%s)\n", s, commit
    }'
  done
}

# compared UNIT AIM OURS THEIRS: prints a figure of this size, way and number of connections beside the other checkout's.
compared() {
  ratio "$size octets, $connections connections, from a $way: $3 $1, beside the other checkout's $4$2" "$3" "$4"
}

# cell_ratios: the rates of this size over each number of connections, beside the other checkout's.
cell_ratios() {
  local connections turn way
  for connections in 1 2 4; do
    rm -f ours.* theirs.*
    for ((turn = 0; turn < runs; turn++)); do
      for way in backlog funnel; do
        "from_$way" "$ours" "$connections" >>"ours.$way"
        echo "$(spent)" >>"ours.$way.spent"
        "from_$way" "$BEFORE/crates/innfeed/out/innfeed" "$connections" >>"theirs.$way"
        echo "$(spent)" >>"theirs.$way.spent"
      done
    done
    for way in backlog funnel; do
      compared 'a second' ' (aim 0.95)' "$(greatest "ours.$way")" "$(greatest "theirs.$way")"
      compared 'us of processor an article' '' "$(least "ours.$way.spent")" "$(least "theirs.$way.spent")"
    done
  done
}

# cell_costs: what an article of this size costs, beside INN's.
cell_costs() {
  local line
  from_backlog "$ours" 2 >rate.told
  line="$size octets, 2 connections: $(spent) us of processor an article"
  if [ -x "$inn" ]; then
    from_inn 2 >rate.told
    line+=", INN's $(spent)"
  fi
  if command -v strace >/dev/null; then
    trace='strace -f -c -o calls' from_backlog "$ours" 2 >rate.told
    line+="; $(awk -v count="$count" '$NF == "read" || $NF == "openat" || $NF == "close" || $NF == "fstat" || $NF == "statx" { files += $4 }
      $NF == "sendto" || $NF == "write" || $NF == "writev" || $NF == "recvfrom" || $NF == "epoll_wait" || $NF == "epoll_pwait" { sockets += $4 }
      $NF == "total" { all = $4 } END { printf "%.2f calls of files, %.2f of others that move octets, %.2f in all", files / count, sockets / count, all / count }' calls)"
  fi
  echo "$line ($commit)"
}

# window: with answers after 20 ms a window of 20 is the bound: with a CHECK before each article half of it goes to CHECKs.
window() {
  local connections
  articles 32768 $((most / 4))
  late=20
  for connections in 1 4; do
    awk -v c="$connections" -v r="$(from_backlog "$ours" "$connections")" -v commit="$commit" 'BEGIN {
      printf "20 ms, %d connections: %d a second, %.0f %% of the windows (%s)\n", c, r, r * 100 / (c * 20 / 0.02), commit
    }'
  done
  late=0
}

# measured NAME COMMAND ..: a run; its rate goes to the file NAME, and its processor time an article to NAME.spent.
measured() {
  "${@:2}" >>"$1"
  echo "$(spent)" >>"$1.spent"
}
# figures NAME: the best of both.
figures() { echo "$(greatest "$1") a second, $(least "$1.spent") us"; }
# beside NAME OTHER WORDS: how many times the figures of the other, which are those of WORDS, those of NAME are.
beside() {
  awk -v rate="$(greatest "$1")" -v spent="$(least "$1.spent")" -v other="$(greatest "$2")" \
    -v others="$(least "$2.spent")" -v words="$3" -v figures="$(figures "$2")" 'BEGIN {
    printf "%.2f times the rate and %.2f times the processor time of %s (%s)",
      rate / (other > 0 ? other : 1), spent / (others > 0 ? others : 1), words, figures
  }'
}

# large_articles: a twentieth as many articles of 1 MiB, ten of which are one file.
large_articles() {
  size=1048576
  articles "$size" $((most / 20 + 1)) $((most / 200 + 1))
}

# large: rates and processor time of articles of 1 MiB.
large() {
  local connections turn line
  large_articles
  for connections in 1 2 4 64; do
    rm -f ours.* inns ./*.spent
    for ((turn = 0; turn < runs; turn++)); do
      measured ours.backlog from_backlog "$ours" "$connections"
      measured ours.funnel from_funnel "$ours" "$connections"
      [ ! -x "$inn" ] || measured inns from_inn "$connections"
    done
    line="1 MiB, $connections connections: from a backlog $(figures ours.backlog)"
    [ ! -x "$inn" ] || line+=": $(beside ours.backlog inns "INN's")"
    line+="; from a funnel $(figures ours.funnel)"
    [ ! -x "$inn" ] || line+=": $(beside ours.funnel inns "INN's")"
    echo "$line ($commit)"
  done
}

# cell_bare: rates and processor time of this size over each number of connections, beside bare senders.
cell_bare() {
  local connections turn word line
  for connections in 1 2 4; do
    rm -f ours bare.files bare.memory ./*.spent
    for ((turn = 0; turn < runs; turn++)); do
      measured ours from_backlog "$ours" "$connections"
      for word in files memory; do measured "bare.$word" from_bare "$word" "$connections"; done
    done
    line="$size octets, $connections connections: from a backlog $(figures ours)"
    line+=": $(beside ours bare.files 'a bare sender from files')"
    echo "$line, $(beside ours bare.memory 'one from memory') ($commit)"
  done
}

# from_backlogs PROGRAM PEERS: the deliveries a second to so many peers, once all is owed to each.
from_backlogs() {
  local unreached
  cleared
  mapfile -t unreached < <(seq "$2" | sed 's/.*/1/')
  settings 2 "${unreached[@]}"
  "$1" -c conf "funnel.$2" >told 2>&1
  listen "$2"
  settings 2 "${ports[@]}"
  timed ${trace:-} "$1" -c conf -x
  hush
  sed -n 's/.*art_per_s=\([0-9]*\).*/\1/p' told.* | awk '{ sum += $1 } END { print sum }'
}

# opens PROGRAM PEERS: how often an article's file is opened.
opens() {
  trace='strace -f -e trace=openat -o calls' from_backlogs "$1" "$2" >/dev/null
  awk -v place="$run/articles/" -v count="$count" 'index($0, place) { n++ } END { printf "%.2f", n / count }' calls
}

# told_together NAME PEERS: what the runs of this name were.
told_together() {
  awk -v rate="$(greatest "$1")" -v spent="$(least "$1.spent")" -v peers="$2" \
    'BEGIN { printf "%d deliveries a second, %.2f us of processor each", rate, spent / peers }'
  if [ -f "$1.opens" ]; then printf ', an article is opened %s times' "$(<"$1.opens")"; fi
}

# cell_together: deliveries of this size to 1, 2 and 4 peers.
cell_together() {
  local peers turn line other=
  [ -z "${BEFORE-}" ] || other=$BEFORE/crates/innfeed/out/innfeed
  for peers in 1 2 4; do
    rm -f ours theirs ./*.spent ./*.opens
    for ((turn = 0; turn < runs; turn++)); do
      measured ours from_backlogs "$ours" "$peers"
      [ -z "$other" ] || measured theirs from_backlogs "$other" "$peers"
    done
    if [ "$size" = 1024 ] && command -v strace >/dev/null; then
      articles 1024 1000
      opens "$ours" "$peers" >ours.opens
      [ -z "$other" ] || opens "$other" "$peers" >theirs.opens
      articles 1024 "$most"
    fi
    line="$size octets, $peers peers over 2 connections each: $(told_together ours "$peers")"
    [ -z "$other" ] || line+="; the other checkout's: $(told_together theirs "$peers"), $(beside_other)"
    echo "$line ($commit)"
  done
}

# beside_other: how many times the other checkout's figures ours are.
beside_other() {
  awk -v rate="$(greatest ours)" -v spent="$(least ours.spent)" -v other="$(greatest theirs)" \
    -v others="$(least theirs.spent)" 'BEGIN {
    printf "%.2f times its rate, %.2f times its processor time", rate / (other > 0 ? other : 1), spent / (others > 0 ? others : 1)
  }'
}

# in_spool: the articles in a tradspool in wire format, a batch of their tokens for INN's innfeed and a funnel for ours.
in_spool() {
  rm -rf spool && mkdir -p spool/articles/misc/bench
  echo 'misc/bench 1' >spool/tradspool.map
  awk -v files="$files" 'BEGIN {
    for (n = 1; n <= files; n++) {
      text = "articles/" n
      file = "spool/articles/misc/bench/" n
      while ((getline line < text) > 0) {
        sub(/^[.]/, "..", line)
        printf "%s\r\n", line > file
      }
      printf ".\r\n" > file
      close(text)
      close(file)
      token = sprintf("@0500%08X%08X%08X%08X@", 1, 0, n, 0)
      print token, "<" n "@bench>" > "batch.spool"
      print token, "<" n "@bench>", "p1" > "funnel.spool"
    }
  }'
}

# cell_spool: rates and processor time of this size from innd's spool, beside copies and INN's.
cell_spool() {
  local connections turn line
  in_spool
  for connections in 1 2 4; do
    rm -f ours copies inns ./*.spent
    for ((turn = 0; turn < runs; turn++)); do
      innd_spool=$run/spool measured ours from_backlog "$ours" "$connections" funnel.spool
      measured copies from_backlog "$ours" "$connections"
      [ ! -x "$inn" ] || measured inns from_inn "$connections" batch.spool
    done
    line="$size octets, $connections connections: from innd's spool $(figures ours)"
    line+=": $(beside ours copies copies)"
    [ ! -x "$inn" ] || line+=", $(beside ours inns "INN's")"
    echo "$line ($commit)"
  done
}

# from_innd: the part of innd's spool, if the program reads one.
from_innd() {
  innd_spool=$run/spool settings 1 1
  "$ours" -C -c conf >told
  if grep -q innd-spool told; then # as a setting that is ignored
    echo "feed.sh: no part spool, since $ours does not know the setting innd-spool" >&2
    exit 1
  fi
  inn_conf "$run/spool"
  each_size cell_spool
  inn_conf "$run"
}

cc -O2 -o bare "$top/bench/bare.c"
for part in "${parts[@]}"; do
  case $part in
    rates) each_size cell_rates ;;
    before) [ -z "${BEFORE-}" ] || { each_size cell_ratios; large_articles; cell_ratios; } ;;
    costs) each_size cell_costs ;;
    late) window ;;
    1MiB) large ;;
    bare) each_size cell_bare ;;
    together) each_size cell_together ;;
    spool) from_innd ;;
    *) echo "feed.sh: no part $part" >&2; exit 64 ;;
  esac
done
