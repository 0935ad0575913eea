#!/usr/bin/env bash
# follow.sh [LINES [GAP [SYNC_MS]]]: how long it takes from a line that is added to the last segment of a funnel that is
# followed until its article is offered: LINES lines (300), GAP milliseconds apart (100). Beside it, in the same run, a
# plain reader that looks at the file five times a second. Then the run is silent for 20 seconds (aim: 1 % of a
# processor). Meanwhile `innfeed -v --owed` tells four times a second up to which line lines are acknowledged, and so
# how long ago the oldest line was added that is not. With SYNC_MS each sync takes so many milliseconds longer
# (slow_disk.c, built by cc).
#
# follow.sh 10000 1.6 12 is a burst of some 600 lines a second, on a slow disk (aims: offered within 100 ms at the
# median, acknowledged at most 1 s later). Each line is synced before it is taken, so a slow disk moves the figures. It
# fails on no ratio.
. "$(dirname "$(readlink -f "${BASH_SOURCE[0]}")")/lib.sh"
[ -n "${INNFEED-}" ] || build innfeed
slow=
if [ -n "${3-}" ]; then
  slow=$(mktemp --suffix=.so)
  trap 'rm -f "$slow"' EXIT
  cc -O2 -shared -fPIC -o "$slow" "$top/bench/slow_disk.c"
fi
innfeed=${INNFEED:-$top/crates/innfeed/out/innfeed}
SYNC_MS=${3:-0} python3 "$top/bench/follow.py" "$innfeed" "${1:-300}" "${2:-100}" "$slow"
echo " ($commit)"
