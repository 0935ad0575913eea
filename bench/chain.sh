#!/usr/bin/env bash
# chain.sh [ARTICLES [BURST [THIRD ..]]]: the whole way of an article from one innd to another, if Debian's inn2 and
# python3 are installed, by three ways side by side in one run, from one innd, each to an innd of its own:
#   spool   innd's file feed, examples/service/follow-innd, innfeed --follow --tidy, which reads innd's own spool;
#   copies  innd's file feed, examples/service/take-from-innd, innfeed --follow --tidy, which reads copies;
#   inns    INN's own innfeed, as a channel feed of the first innd.
# Two loads are measured:
#   - ARTICLES articles (500), ten a second, with a roll-over of follow-innd each 10 seconds, or $ROLL_OVER seconds: the
#     seconds from the moment the first innd accepts an article to the moment the other does, by the logs of both. What
#     comes within a roll-over waits for its end, and for the run's next look: at 10 seconds that is one article of 100
#     at least, at 3600, as in service, none of 500;
#   - BURST articles (10,000) at once, by one way after the other: when the first and when the last is there, counted
#     from the first that was accepted.
# Each alone, and beside one more peer that refuses connections, whose host drops packets (as root, who can make a
# network of its own), or that greets and never answers a command; with the words none, refuses, drops and silent it
# does these alone, and 0 for a number passes that load over. The aims stand beside the figures: ratios and seconds to
# look at, and no test. $INNFEED names another program to measure, $TAKE another take-from-innd, $FOLLOW another
# follow-innd, and $FILE_ARTICLES another file-articles. WAYS, such as WAYS='spool inns', names the ways to measure. If
# the program does not know innd-spool, or file-articles is not built, what needs it is passed over.
#
# What it gave is in docs/MEASURED.md, "From one innd to another".
. "$(dirname "$(readlink -f "${BASH_SOURCE[0]}")")/lib.sh"
bin=/usr/lib/news/bin articles=${1:-500} burst=${2:-10000} chosen=("${@:3}")
for program in "$bin/innd" "$bin/innfeed" /usr/bin/python3; do
  [ -x "$program" ] || { echo "chain.sh: nothing to measure, since there is no $program"; exit 0; }
done
case $(id -un) in
  root | news) ;;
  *) echo 'chain.sh: nothing to measure, since only root and the user news can run innd'; exit 0 ;;
esac
[ -n "${INNFEED:-}" ] || build innfeed
read -ra ways <<<"${WAYS:-spool copies inns}"
case " ${ways[*]} " in *' copies '*) [ -n "${FILE_ARTICLES:-}" ] || build file_articles ;; esac
# A network of its own, so that there can be a host that drops packets.
if [ -z "${CHAIN_NETWORK:-}" ] && unshare -n true 2>/dev/null; then
  CHAIN_NETWORK=own exec unshare -n "${BASH_SOURCE[0]}" "$articles" "$burst" "${chosen[@]}"
fi
innfeed=$(readlink -m "${INNFEED:-$top/crates/innfeed/out/innfeed}")
take=$(readlink -m "${TAKE:-$top/examples/service/take-from-innd}")
follow=$(readlink -m "${FOLLOW:-$top/examples/service/follow-innd}")
file_articles=$(readlink -m "${FILE_ARTICLES:-$top/crates/file_articles/out/file_articles}")
run=$(mktemp -d)
as=() # innd runs as the user news alone
[ "$(id -u)" != 0 ] || as=(setpriv --reuid=news --regid=news --clear-groups)

# for_innd NAME: sets `with`, the words before a command that make it one of this innd.
for_innd() { with=(env INNCONF="$run/$1/etc/inn.conf" PATH="$bin:$PATH" "${as[@]}"); }
# stop: ends all that this script has started; innd writes its log to the end. What has not ended after 10 seconds is
# killed.
running=() servers=()
stop() {
  local name
  for name in "${servers[@]}"; do
    for_innd "$name"
    "${with[@]}" ctlinnd -s -t 10 shutdown end >/dev/null 2>&1 || true
  done
  if [ ${#running[@]} -gt 0 ]; then
    kill "${running[@]}" 2>/dev/null || true
    for _ in $(seq 100); do
      kill -0 "${running[@]}" 2>/dev/null || break
      sleep 0.1
    done
    kill -KILL "${running[@]}" 2>/dev/null || true
    wait "${running[@]}" 2>/dev/null || true
  fi
  running=() servers=()
}
trap 'stop; rm -rf "$run"' EXIT
chmod 755 "$run"
cd "$run"
# The user news may not be let into this folder.
mkdir programs
cp "$innfeed" programs/innfeed
cp "$take" programs/take-from-innd
roll_over=${ROLL_OVER:-10}
grep -q 'SECONDS + 3600' "$follow" || { echo "chain.sh: $follow has no hour" >&2; exit 1; }
sed "s/SECONDS + 3600/SECONDS + $roll_over/" "$follow" >programs/follow-innd
chmod 755 programs/follow-innd
# leave_out WAY WHY: it is not measured.
leave_out() {
  local way left=()
  for way in "${ways[@]}"; do [ "$way" = "$1" ] || left+=("$way"); done
  [ ${#left[@]} -eq ${#ways[@]} ] || echo "$1: passed over, since $2"
  ways=("${left[@]}")
}
echo "innd-spool: $run" >programs/conf
programs/innfeed -c programs/conf --print-conf 2>/dev/null | grep -q '^innd-spool' ||
  leave_out spool 'the program does not know innd-spool'
if [ -x "$file_articles" ]; then
  cp "$file_articles" programs/file-articles
else
  leave_out copies "there is no $file_articles"
fi
unset FILE_ARTICLES # take-from-innd takes the one beside it
thirds=(none refuses silent)
if [ "${CHAIN_NETWORK:-}" = own ]; then
  ip link set lo up
  if ip link add drop0 type veth peer name drop1 2>/dev/null; then
    ip address add 192.0.2.1/24 dev drop0
    ip link set drop0 up && ip link set drop1 up
    ip neighbour add 192.0.2.2 lladdr 02:00:00:00:00:02 dev drop0 # no interface has this address
    thirds=(none refuses drops silent)
  fi
fi

[ ${#chosen[@]} -eq 0 ] || thirds=("${chosen[@]}")

# unused: a port of 127.0.0.1 that nobody listens on.
unused() { python3 -c 'import socket; one = socket.socket(); one.bind(("127.0.0.1", 0)); print(one.getsockname()[1])'; }

# server NAME PORT: the folders and the files of an innd.
server() {
  local home=$run/$1 file
  mkdir -p "$home"/{etc/filter,db,log,run,tmp,spool/articles,spool/incoming/bad,spool/outgoing,spool/archive,spool/overview}
  cat >"$home/etc/inn.conf" <<CONF
mta: "/bin/true %s"
organization: "bench"
pathhost: $1.chain.bench
domain: chain.bench
pathnews: /usr/lib/news
pathetc: "$home/etc"
pathfilter: "$home/etc/filter"
pathdb: "$home/db"
pathlog: "$home/log"
pathrun: "$home/run"
pathtmp: "$home/tmp"
pathspool: "$home/spool"
hismethod: hisv6
enableoverview: false
docancels: none
pgpverify: false
noreader: true
bindaddress: 127.0.0.1
port: $2
CONF
  printf 'method tradspool {\n newsgroups: *\n class: 0\n}\n' >"$home/etc/storage.conf"
  printf 'streaming: true\nmax-connections: 50\npeer here {\n hostname: "127.0.0.1"\n}\n' >"$home/etc/incoming.conf"
  for file in expire.ctl control.ctl readers.conf moderators localgroups innfeed.conf; do : >"$home/etc/$file"; done
  printf 'ME:*::\nnobody:!*:Tf:nobody\n' >"$home/etc/newsfeeds" # innd wants one entry at least
  printf '%s 0000000000 0000000001 %s\n' control n control.cancel n junk n misc.test y >"$home/db/active"
  : >"$home/db/active.times"
  : >"$home/db/newsgroups"
}
# start NAME: the innd takes articles once this is done.
start() {
  for_innd "$1"
  : >"$run/$1/db/history"
  chown -R news:news "$run/$1"
  (cd "$run/$1/db" && "${with[@]}" makedbz -i -o -s 100000 >said 2>&1) || { cat "$run/$1/db/said" >&2; exit 1; }
  "${with[@]}" innd -f -N -c 0 -i 0 >"$run/$1/said" 2>&1 &
  servers+=("$1")
  running+=($!)
  for _ in $(seq 200); do
    "${with[@]}" ctlinnd -s -t 5 mode >/dev/null 2>&1 && return
    sleep 0.05
  done
  echo "chain.sh: innd does not start: $(cat "$run/$1/said")" >&2
  exit 1
}
# there NAME: how many articles this innd has.
there() { find "$run/$1/spool/articles/misc" -type f -name '[0-9]*' 2>/dev/null | wc -l || true; }

# peers FEEDER PORT: the peers of a feeder's configuration: the innd at this port, and the third one.
peers() {
  echo "peer $1 { ip-name: 127.0.0.1 port-number: $2 }"
  case $third in
    refuses) echo "peer $1.third { ip-name: 127.0.0.1 port-number: $(unused) }" ;;
    silent) echo "peer $1.third { ip-name: 127.0.0.1 port-number: $(head -n 1 silent.port) }" ;;
    drops) echo "peer $1.third { ip-name: 192.0.2.2 port-number: 119 }" ;;
  esac
}
# sites FEEDER FUNNEL: their lines of newsfeeds(5).
sites() {
  echo "$1:*:Tm:$2"
  [ "$third" = none ] || echo "$1.third:*:Tm:$2"
}
# ours WAY PORT: the configuration of an innfeed of ours, and the entries of its peers in newsfeeds(5).
ours() {
  mkdir "$1.feed" "$1.feed/articles" "$1.feed/backlog" "$1.feed/funnel"
  { [ "$1" != spool ] || echo "innd-spool: $run/here/spool"
    echo "news-spool: $run/$1.feed/articles"
    echo "backlog-directory: $run/$1.feed/backlog"
    echo "status-file: $run/$1.feed/status"
    peers "$1" "$2"; } >"$1.feed/conf"
  echo "$1!:!*:Tf,Wnm*:$run/$1.feed/batch" >>here/etc/newsfeeds
  sites "$1" "$1!" >>here/etc/newsfeeds
}
# of_inn PORT: the same of INN's innfeed.
of_inn() {
  mkdir channel channel/backlog
  { echo "news-spool: $run/here/spool/articles"
    echo "backlog-directory: $run/channel/backlog"
    echo "pid-file: $run/channel/pid"
    echo "log-file: $run/channel/log"
    echo "status-file: $run/channel/status"
    peers inns "$1" | sed 's/[{}]/\n&\n/g; s/\(ip-name: [^ ]*\) /\1\n/'; } >channel/conf
  echo "channel!:!*:Tc,Wnm*:$bin/innfeed -c $run/channel/conf" >>here/etc/newsfeeds
  sites inns channel! >>here/etc/newsfeeds
}
# feed WAY: starts what stands between the innd `here` and that of this way of ours.
feed() {
  local batch=$run/$1.feed/batch funnel=$run/$1.feed/funnel
  if [ "$1" = spool ]; then
    "${with[@]}" programs/follow-innd --site "$1!" "$batch" "$funnel" >"$1.feed/said" 2>&1 &
  else
    "${with[@]}" programs/take-from-innd --follow --site "$1!" "$batch" "$run/$1.feed/articles" "$funnel" \
      >"$1.feed/said" 2>&1 &
    running+=($!)
    python3 "$top/bench/chain.py" watch "$funnel" >"$1.watched" &
  fi
  running+=($!)
  "${as[@]}" programs/innfeed -c "$1.feed/conf" --follow --tidy "$funnel" >"$1.feed/told" 2>&1 &
  running+=($!)
}
# begin WAY ..: an innd `here`, one for each way, and all that stands between.
begin() {
  local way port
  rm -rf here spool copies inns ./*.feed channel ./*.watched
  if [ "$third" = silent ]; then
    python3 "$top/bench/chain.py" silent >silent.port &
    running+=($!)
    until [ -s silent.port ]; do sleep 0.02; done
  fi
  here=$(unused)
  server here "$here"
  for way in "$@"; do
    port=$(unused)
    server "$way" "$port"
    start "$way"
    if [ "$way" = inns ]; then of_inn "$port"; else ours "$way" "$port"; fi
  done
  chown -R news:news "$run"
  start here
  for way in "$@"; do [ "$way" = inns ] || feed "$way"; done
  sleep 2
}
# complaints: what the programs of ours have printed besides how far they are.
complaints() {
  { cat ./*.feed/told | grep -Ev '^(taken|innfeed .* (starts|ends as asked):)'; cat ./*.feed/said; } 2>/dev/null |
    head -n 5 | sed 's/^/  printed: /' || true
}
# arrive SECONDS COUNT NAME ..: waits until these have COUNT articles, at most SECONDS seconds after the last.
arrive() {
  local name before=-1 now still=0
  while [ "$still" -lt "$1" ]; do
    now=0
    for name in "${@:3}"; do now=$((now + $(there "$name"))); done
    [ "$now" -lt $(($2 * ($# - 2))) ] || break
    if [ "$now" -eq "$before" ]; then still=$((still + 1)); else still=0; fi
    before=$now
    sleep 1
  done
}

declare -A words=([none]='alone' [refuses]='with a third peer that refuses connections'
  [drops]='with a third peer whose host drops packets' [silent]='with a third peer that is silent')
declare -A names=([spool]="from innd's spool" [copies]='by copies' [inns]="by INN's innfeed")
# Seconds: at the median, and for 99 of 100 or, by copies, at most; of the first and the last of a burst.
declare -A aims=([spool]='0.025 and 0.06' [copies]='1.5 and 3' [inns]='-')
declare -A burst_aims=([spool]='-' [copies]='2 and 12' [inns]='-')
declare -A alone=()
echo "load $(cut -d ' ' -f 1-3 /proc/loadavg), $(nproc) processors ($commit)"
for third in "${thirds[@]}"; do
  [ "$articles" -gt 0 ] || break
  begin "${ways[@]}"
  python3 "$top/bench/chain.py" offer "$here" "$articles" 0.1 4096
  arrive 20 "$articles" "${ways[@]}"
  complaints
  stop
  echo "$articles articles, ten a second, a roll-over each $roll_over s, ${words[$third]}:"
  for way in "${ways[@]}"; do
    watched=()
    [ "$way" != copies ] || watched=(copies.watched)
    read -r count middle most all latest handed <<<"$(
      python3 "$top/bench/chain.py" each here/log/news "$way/log/news" "${watched[@]}")"
    alone[$way]=${alone[$way]:-$middle}
    echo "  ${names[$way]}: $count there, after a median of $middle s, 95 % $most s, 99 % $all s, at most $latest s" \
      "(aims: ${aims[$way]}); $(awk -v a="${alone[$way]}" -v m="$middle" 'BEGIN { printf "%.2f", a ? m / a : 1 }')" \
      "times the median alone (aim: at most 1.1)${handed:+; $handed s of the median until they are in the funnel}"
  done
done
for third in "${thirds[@]}"; do
  [ "$burst" -gt 0 ] || break
  echo "$burst articles at once, ${words[$third]}:"
  for way in "${ways[@]}"; do
    begin "$way"
    python3 "$top/bench/chain.py" offer "$here" "$burst" 0 4096
    arrive 60 "$burst" "$way"
    complaints
    stop
    watched=()
    [ "$way" != copies ] || watched=(copies.watched)
    read -r count first last posted handed all <<<"$(
      python3 "$top/bench/chain.py" all here/log/news "$way/log/news" "${watched[@]}")"
    echo "  ${names[$way]} (accepted within $posted s): $count there," \
      "the first after $first s, the last after $last s (aims: ${burst_aims[$way]})${handed:+;} $(
        [ -z "$handed" ] || echo "in the funnel after $handed to $all s"
        [ "$count" -ge "$burst" ] || echo '; the others wait in a backlog')"
  done
done
echo "load $(cut -d ' ' -f 1-3 /proc/loadavg)"
