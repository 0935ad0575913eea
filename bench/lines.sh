#!/usr/bin/env bash
# lines.sh [BATCHES]: how long a post takes to take a line of two peers (bench/crates/tool_lines), whose tapes lie in
# memory: the best of nine runs of 100 batches, of 4,096 lines each, or of BATCHES. The flushes between them are not
# counted. With valgrind it also prints how many instructions a line takes, which other programs do not move.
#
# $BEFORE may name another checkout of this repository, in which the program is built (bench/build tool_lines): it runs
# by turns with this one's, and the ratio is printed of their rates (aim: 0.97).
#
# Other programs that run at the same time move the times. It fails on none.
. "$(dirname "$(readlink -f "${BASH_SOURCE[0]}")")/lib.sh"
[ -z "${BEFORE-}" ] || built "$BEFORE" tool_lines
build_benchmark tool_lines
batches=${1:-100}
ours=$(program_of "$top" tool_lines)
other=
[ -z "${BEFORE-}" ] || other=$(program_of "$BEFORE" tool_lines)

# per_line PROGRAM: the nanoseconds of a line in one run, as a whole number of hundredths.
per_line() { "$1" "$batches" | awk '{ printf "%d\n", 100 * $3 / $1 }'; }

# instructions PROGRAM: how many a line takes, by what 12 batches take more than 4.
instructions() {
  local count fewer=
  for count in 4 12; do
    valgrind --tool=callgrind --callgrind-out-file=/dev/null "$1" "$count" 2>&1 >/dev/null |
      awk '/Collected/ { print $NF }'
  done | { read -r fewer; read -r more; echo $(((more - fewer) / (8 * 4096))); }
}

least_ours=0 least_other=0
for _ in 1 2 3 4 5 6 7 8 9; do
  time=$(per_line "$ours")
  [ "$least_ours" -ne 0 ] && [ "$least_ours" -le "$time" ] || least_ours=$time
  [ -n "$other" ] || continue
  time=$(per_line "$other")
  [ "$least_other" -ne 0 ] && [ "$least_other" -le "$time" ] || least_other=$time
done
echo "a line takes $((least_ours / 100)) ns ($commit)"
[ -z "$other" ] || ratio "the rate of lines, beside the other checkout's $((least_other / 100)) ns a line (aim 0.97)" \
  "$least_other" "$least_ours"
if command -v valgrind >/dev/null; then
  echo "with its share of the flushes, a line takes $(instructions "$ours") instructions ($commit)"
  [ -z "$other" ] || echo "and $(instructions "$other") in the other checkout"
fi
