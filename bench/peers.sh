#!/usr/bin/env bash
# peers.sh [ARTICLES [RUNS [WORD ..]]]: what many peers cost: 2, 10, 100, 200 and 1,000 of them, all at one port in
# memory (bench/sink.c, built by cc), over two connections each. An article has 1 KiB. The peers' backlogs lie
#   disk: among the temporary files;
#   memory: in /dev/shm;
#   slow: as disk, where each sync of a file takes 5 ms longer (bench/slow_disk.c, built by cc);
# and of the funnels
#   all: each article goes to all peers;
#   one: each article goes to one of them, by turns;
#   each: there is one line for each peer, and no more.
# The first two make about ARTICLES deliveries (60,000). A part is a funnel at a place. WORDs choose from the places,
# the funnels and the numbers of peers; of these three all are measured of which none is named, and 2 peers always are.
# Where syncs take longer 1,000 peers get `each` alone, unless numbers are named: a run starts with four syncs for each
# peer, one after the other, and so takes minutes.
#
# Each run begins with tapes that owe nothing. By the best of RUNS runs, and by the middle one, it prints, and in
# brackets how many times that of 2 peers it is:
#   - the processor time of a delivery, by the feeder's process alone: of the whole run, its start included (aim: 1.15
#     times with 200 peers, with 1,000 1.3 times, or 1.5 if articles go to one of them), and without what a run takes
#     that has nothing to feed;
#   - the deliveries a second from the first to the last;
#   - the time from the start to the last `taken` (aim for `each` with 1,000 peers: 300 ms on a disk whose sync takes
#     0.2 ms, and 2 s where it takes 5 ms), and to the end;
#   - how many deliveries in a hundred came after a CHECK: each connection begins with them, so many peers get more.
# Of `each` it prints the times alone. Without RUNS there are three, or fewer, so that a part takes a minute: a further
# round over all numbers of peers begins only if it would end within that, were it as long as the one before. The first
# can take longer where other programs work the disk.
#
# $INNFEED names another program to measure. If $BEFORE names another checkout of this repository, in which the program
# is built, both run by turns, and how many times its figures ours are is printed, too.
#
# With 1,000 peers the system has to allow 4,100 open files (ulimit -Hn). Other programs that run at the same time move
# these. It fails on no figure: it ends with 1 if a line is not taken, or a delivery not made, or if debts are left.
. "$(dirname "$(readlink -f "${BASH_SOURCE[0]}")")/lib.sh"
total=${1:-60000} runs=${2:-} places=() kinds=() numbers=()
for word in "${@:3}"; do
  case $word in
    disk | memory | slow) places+=("$word") ;;
    all | one | each) kinds+=("$word") ;;
    '' | *[!0-9]* | 0* | 1)
      echo "peers.sh: $word is neither disk, memory, slow, all, one, each nor a number of peers from 2 on" >&2
      exit 64
      ;;
    *) numbers+=("$word") ;;
  esac
done
[ ${#places[@]} -gt 0 ] || places=(disk memory slow)
[ ${#kinds[@]} -gt 0 ] || kinds=(all one each)
named=${#numbers[@]}
[ "$named" -gt 0 ] || numbers=(10 100 200 1000)
mapfile -t numbers < <(printf '%s\n' 2 "${numbers[@]}" | sort -nu)
most=${numbers[-1]}

# What the system has to allow: of a feeder two open files for each peer and one for each connection, and some more.
[ "$most" -le 2000 ] || { echo 'peers.sh: bench/sink.c serves 2,000 peers at most' >&2; exit 64; }
allowed=$(ulimit -Sn) wanted=$((4 * most + 100))
if [ "$allowed" != unlimited ] && [ "$allowed" -lt "$wanted" ] && ! ulimit -Sn "$wanted" 2>/dev/null; then
  echo "peers.sh: $most peers want $wanted open files, and the limit is $(ulimit -Hn): raise it (ulimit -Hn)" >&2
  exit 70
fi
allowed=$(cat /proc/sys/net/core/somaxconn 2>/dev/null || echo 4096)
if [ "$allowed" -lt $((2 * most)) ]; then
  echo "peers.sh: only $allowed connections may wait, and not $((2 * most)): a run may fail (net.core.somaxconn)" >&2
fi
if [[ " ${places[*]} " == *' memory '* ]] && [ ! -w /dev/shm ]; then
  echo 'peers.sh: there is no /dev/shm to write to: name disk and slow alone' >&2
  exit 70
fi
[ -z "${BEFORE-}" ] || built "$BEFORE" innfeed
choose_feeder
declare -A programs=([ours]=$ours)
turns=(ours)
[ -z "${BEFORE-}" ] || { programs[theirs]=$BEFORE/crates/innfeed/out/innfeed turns=(ours theirs); }
run=$(mktemp -d)
memory=
trap 'kill $(jobs -p) 2>/dev/null || true; rm -rf "$run" ${memory:+"$memory"}' EXIT
cd "$run"
. "$top/bench/feeds.sh"
[[ " ${places[*]} " != *' memory '* ]] || memory=$(mktemp -d -p /dev/shm)

# lines KIND: the funnel, and sets count and deliveries.
lines() {
  case $1 in
    all) count=$((total / peers > 20 ? total / peers : 20)) deliveries=$((count * peers)) ;;
    one) count=$total deliveries=$total ;;
    each) count=$peers deliveries=$peers ;;
    none) count=0 deliveries=0 ;;
  esac
  awk -v kind="$1" -v peers="$peers" -v count="$count" -v files="$files" 'BEGIN {
    for (n = 1; n <= peers; n++) all = all " p" n
    for (n = 1; n <= count; n++) {
      print (n - 1) % files + 1, "<" n "@bench>" (kind == "all" ? all : " p" (n - 1) % peers + 1)
    }
  }' >funnel
}

# configure PORT: all peers at it.
configure() {
  settings 2
  awk -v peers="$peers" -v port="$1" 'BEGIN {
    for (n = 1; n <= peers; n++) print "peer p" n " { ip-name: 127.0.0.1 port-number: " port " }"
  }' >>conf
}

# failed WORDS: ends the script, and says what the run has told last.
failed() {
  echo "peers.sh: $who, $place, $peers peers, $kind: $1; the run's last words: $(tail -n 1 log 2>/dev/null)" >&2
  exit 1
}

# feed: one run. The file times has its processor seconds, and began, ended and taken its microseconds: the start, the
# end, the last line taken.
feed() {
  local TIMEFORMAT='%U %S'
  rm -f taken
  began=$(now)
  { time timeout --foreground -k 5 300 env "${surroundings[@]}" "${programs[$who]}" -c conf funnel 2>log </dev/null; } \
    2>times | note_taken "$count" && ended=$(now) || ended=badly
}

# spent: the processor microseconds of the last run.
spent() { awk '{ printf "%.0f", ($1 + $2) * 1e6 }' times; }

# owed: how many debts are left.
owed() { "${programs[$who]}" -c conf --owed | wc -l; }

# tapes: for each program and each number of peers those that a run with nothing to feed makes.
tapes() {
  local place='new tapes' kind=none peers who
  for peers in "${numbers[@]}"; do
    for who in "${turns[@]}"; do
      cleared
      configure 1
      lines none
      feed
      [ "$ended" != badly ] || failed 'innfeed failed'
      mv "$backlog" "tapes.$who.$peers"
    done
  done
}

# turn: one run of this program, with so many peers and this kind of funnel, from tapes that owe nothing. A line goes to
# the file figures: who, kind, peers; the processor microseconds of a delivery, the same without those of a run that has
# nothing to feed, deliveries a second, the milliseconds to the last `taken` and to the end, and how many deliveries in
# a hundred came after a CHECK.
turn() {
  local got checks rate
  lines "$kind"
  rm -rf "$backlog"
  cp -r "$run/tapes.$who.$peers" "$backlog"
  sync -f "$backlog"
  listen
  configure "${ports[0]}"
  feed
  kill "${sinks[@]}"
  wait "${sinks[@]}" || true
  read -r got rate checks < <(sed -nE 's/^accepted=(\S+) .* art_per_s=(\S+) .* c238=(\S+) .*/\1 \2 \3/p' told.1)
  [ "$ended" != badly ] || failed "innfeed failed, or took 5 minutes: $got of $deliveries deliveries, $(owed) are owed"
  if [ "$kind" = none ]; then
    idle[$who]=$(spent)
  else
    [ -s taken ] || failed "line $count was not taken"
    [ "$got $(owed)" = "$deliveries 0" ] || failed "$got of $deliveries deliveries, $(owed) are owed"
    awk -v words="$who $kind $peers" -v spent="$(spent)" -v idle="${idle[$who]}" -v count="$deliveries" \
      -v rate="$rate" -v taken=$(($(<taken) - began)) -v whole=$((ended - began)) -v checks="$checks" 'BEGIN {
      printf "%s %.2f %.2f %d %.1f %.1f %.0f\n", words, spent / count, (spent > idle ? spent - idle : 1) / count, rate,
        taken / 1000, whole / 1000, 100 * checks / count
    }' >>figures
  fi
}

# round FUNNEL: a run of each program with each number of peers; those of the processor time after one with nothing to
# feed.
round() {
  local peers kind who
  local -A idle=([ours]=0 [theirs]=0)
  for peers in "${numbers[@]}"; do
    [ "$place $1 $named" != "slow $1 0" ] || [ "$1" = each ] || [ "$peers" -lt 1000 ] || continue
    for who in "${turns[@]}"; do
      for kind in none "$1"; do
        [ "$kind $1" = 'none each' ] || turn
      done
    done
  done
}

# chosen WAY KIND: of each program and number of peers a line of the figures that are the best of its runs, or the
# middle ones.
chosen() {
  awk -v way="$1" -v kind="$2" '
    # Keeps the numbers of a key in order.
    function keep(key, value, at) {
      for (at = ++held[key]; at > 1 && kept[key, at - 1] + 0 > value + 0; at--) kept[key, at] = kept[key, at - 1]
      kept[key, at] = value
    }
    $2 == kind {
      if (!(($1 " " $3) in held)) keys[++last] = $1 " " $3
      held[$1 " " $3]++
      for (at = 4; at <= NF; at++) keep($1 " " $3 " " at, $at)
    }
    END {
      for (n = 1; n <= last; n++) {
        runs = held[keys[n]]
        line = keys[n]
        for (at = 4; at <= 9; at++) {
          place = way == "middle" ? int((runs + 1) / 2) : at == 6 ? runs : 1
          line = line " " kept[keys[n] " " at, place]
        }
        print line, runs
      }
    }' figures
}

# tell WAY KIND: prints a table of these figures.
tell() {
  chosen "$1" "$2" | awk -v way="$1" -v kind="$2" -v where="$where" -v title="${titles[$2]}" -v place="$place" \
    -v commit="$commit" '
    function times(value, other) { return sprintf("%.2f", value / (other > 0 ? other : 1)) }
    # The figure of this column, how many times that of 2 peers it is, and its aim in these words.
    function figure(at, aim) {
      if ($2 == 2) two[$1, at] = $at
      return $at ($2 == 2 ? "" : " (" times($at, two[$1, at]) (aim ? ", " aim : "") ")")
    }
    function row(label, processor, less, rate, taken, end, checks) {
      if (kind == "each") printf "  %-13s %-28s %s\n", label, taken, end
      else printf "  %-13s %-23s %-14s %-14s %-16s %-16s %s\n", label, processor, less, rate, taken, end, checks
    }
    NR == 1 {
      printf "%s, %s, the %s of %d runs (%s)\n", where, title, way, $9, commit
      row("peers", "us a delivery", "without start", "a second", "last taken, ms", "end, ms", "CHECKs, %")
    }
    {
      row($1 == "ours" ? $2 : "  before",
        figure(3, $2 == 200 ? "aim 1.15" : $2 != 1000 ? "" : kind == "all" ? "aim 1.30" : "aim 1.50"),
        figure(4), figure(5),
        figure(6, kind != "each" || $2 != 1000 || place == "memory" ? "" : "aim " (place == "slow" ? 2000 : 300) " ms"),
        figure(7), $8)
    }
    $1 == "ours" { for (at = 3; at <= 8; at++) ours[at] = $at }
    $1 == "theirs" {
      row("  ours to it", times(ours[3], $3), times(ours[4], $4), times(ours[5], $5), times(ours[6], $6),
        times(ours[7], $7), $8 > 0 ? times(ours[8], $8) : "-")
    }'
}

# part FUNNEL: its rounds at this place, and what they gave.
part() {
  local since=$SECONDS started number
  rm -f figures
  for ((number = 1; ; number++)); do
    started=$SECONDS
    round "$1"
    [ "$number" -lt "${runs:-3}" ] || break
    [ -n "$runs" ] || [ $((2 * SECONDS - started - since)) -le 60 ] || break
  done
  tell best "$1"
  [ "$number" -lt 3 ] || tell middle "$1"
}

declare -A titles=([all]='each article to all' [one]='each to one by turns' [each]='a line for each')
articles 1024 1000
tapes
for place in "${places[@]}"; do
  backlog=$run/backlog surroundings=() where='on the disk'
  case $place in
    memory) backlog=$memory/backlog where='in memory' ;;
    slow) slow_disk && where='with syncs of 5 ms more' ;;
  esac
  echo "$where: load $(cut -d ' ' -f 1-3 /proc/loadavg), $(nproc) processors, a sync of the disk takes $(synced) us"
  for kind in "${kinds[@]}"; do part "$kind"; done
done
