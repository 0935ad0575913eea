#!/usr/bin/env bash
# spool.sh [ARTICLES [RUNS]]: what reading an article (1,000 of 1 KiB) where innd keeps it costs: by the files of a
# tradspool in wire format, and as they are, and by a buffer of CNFS, which are all made here. It prints the system calls
# an article, if strace is there, and the time an article, of the best of RUNS runs (5) that read each article twenty
# times.
#
# If $BEFORE names another checkout of this repository, in which tool_spool is built (bench/build), that one's are
# printed beside them, and how many times its time ours is. It fails on none.
. "$(dirname "$(readlink -f "${BASH_SOURCE[0]}")")/lib.sh"
[ -z "${BEFORE-}" ] || built "$BEFORE" tool_spool
build_benchmark tool_spool
count=${1:-1000} runs=${2:-5}
folder=$(mktemp -d)
trap 'rm -rf "$folder"' EXIT
python3 "$top/bench/spool.py" "$folder" "$count"

# read_all PROGRAM FEED TIMES: reads each article that the feed has so many times.
read_all() { "$1" "$folder/spool" "$folder/cycbuff.conf" "$folder/$2" "$3"; }

# called PROGRAM FEED: the system calls an article, and which.
called() {
  local times
  for times in 1 2; do
    strace -f -c -U calls,name -o "$folder/calls.$times" "$1" "$folder/spool" "$folder/cycbuff.conf" "$folder/$2" "$times" >/dev/null
  done
  awk -v count="$count" '
    $1 !~ /^[0-9]+$/ { next }
    NR == FNR { once[$2] = $1; next }
    $2 == "total" { all = ($1 - once[$2]) / count; next }
    $1 > once[$2] { each = each sprintf(", %s %.2f", $2, ($1 - once[$2]) / count) }
    END { printf "%.2f system calls (%s)", all, substr(each, 3) }' "$folder/calls.1" "$folder/calls.2"
}

# took PROGRAM FEED: nanoseconds an article.
took() { echo $(($(best "$runs" processor 1 read_all "$1" "$2" 20) / (20 * count))); }

# told WORDS PROGRAM FEED: sets `took`.
told() {
  local calls=''
  ! command -v strace >/dev/null || calls="$(called "$2" "$3"), "
  spent=$(took "$2" "$3")
  echo "$1: $calls$spent ns of a processor an article"
}

ours=$(program_of "$top" tool_spool)
for feed in wire native cnfs; do
  read_all "$ours" "$feed" 1
  told "$feed ($commit)" "$ours" "$feed"
  if [ -n "${BEFORE-}" ]; then
    now=$spent
    told "$feed ($(git -C "$BEFORE" rev-parse --short HEAD))" "$(program_of "$BEFORE" tool_spool)" "$feed"
    ratio "$feed, time beside that" "$now" "$spent"
  fi
done
