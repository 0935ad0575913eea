# What the scripts in this folder share; each sources it.
set -eu -o pipefail
top=$(cd "$(dirname "$(readlink -f "${BASH_SOURCE[0]}")")/.." && pwd)
. "$top/tools/build.sh"

# The commit that is measured, with a + where the tree has been changed since.
commit=$(git -C "$top" rev-parse --short HEAD)$([ -z "$(git -C "$top" status --porcelain)" ] || echo +)

# tree_of CHECKOUT: the folder in which that checkout's programs of the benchmarks are built, among the crates that they
# stand on. It is outside the repository, where `rt ci` refuses their sources, and is kept for the next script.
tree_of() {
  local sum
  sum=$(readlink -f "$1" | cksum)
  echo "${XDG_CACHE_HOME:-${HOME:-/tmp}/.cache}/innfeed/bench-${sum%% *}"
}

# has_benchmark CHECKOUT NAME: whether the checkout has that program in bench/crates, and not in crates/, where it was
# once.
has_benchmark() { [ -d "$1/bench/crates/$2" ]; }

# program_of CHECKOUT NAME: the program of the benchmarks that was built of that checkout.
program_of() {
  local tree=$1
  ! has_benchmark "$1" "$2" || tree=$(tree_of "$1")
  echo "$tree/crates/$2/out/$2"
}

# build_benchmark NAME: builds and proves a program of bench/crates if it is stale. The libraries that the work tree has
# proved serve there too, if their text is the same, which rt compares.
build_benchmark() {
  local tree library crate
  tree=$(tree_of "$top")
  mkdir -p "$tree"
  "$top/tools/lay-out" bench "$tree"
  for library in "$top"/crates/*/out/rlib; do
    crate=${library#"$top/"} crate=$tree/${crate%/out/rlib}
    if [ -d "$library" ] && [ -d "$crate" ] && [ "$library" -nt "$crate/out/rlib" ]; then
      rm -rf "$crate/out/rlib"
      mkdir -p "$crate/out"
      cp -rl "$library" "$crate/out/rlib" 2>/dev/null || cp -r "$library" "$crate/out/"
    fi
  done
  (top=$tree && build "$1")
}

# choose_feeder: sets `ours`, the innfeed that is measured: the one that $INNFEED names, or else that of this checkout,
# which is built if it is stale.
choose_feeder() {
  ours=$top/crates/innfeed/out/innfeed
  [ -n "${INNFEED-}" ] || { build innfeed; return; }
  ours=$(readlink -m "$INNFEED") commit="of $INNFEED"
  [ -f "$ours" ] && [ -x "$ours" ] || { echo "${0##*/}: $ours, which \$INNFEED names, is no program" >&2; exit 70; }
}

bench_program=$(program_of "$top" tool_bench)
other_program=
[ -z "${BEFORE-}" ] || other_program=$(program_of "$BEFORE" tool_bench)

# bench NAME WORD ..: one run of a benchmark, which prints `COUNT WHAT N nanoseconds`.
bench() { "$bench_program" "$@"; }

# other NAME WORD ..: the same of the program of the checkout that $BEFORE names.
other() { "$other_program" "$@"; }

# built CHECKOUT [NAME]: ends the script with 70 if another checkout's program of this name, or that of the benchmarks,
# is missing, or older than its sources.
built() {
  local name=${2:-tool_bench} tree=$1 cure
  if has_benchmark "$1" "$name"; then
    tree=$(tree_of "$1")
    mkdir -p "$tree"
    "$1/tools/lay-out" bench "$tree" # so that what has been changed there since is newer
    cure="bench/build $name"
  else
    cure="rt run in crates/$name"
  fi
  if (top=$tree && stale "$name"); then
    echo "${0##*/}: $name of $1 is missing, or older than its sources: build it there by $cure" >&2
    exit 70
  fi
}

# processor TIMES COMMAND ..: the same of the processor time that one of TIMES runs takes, its start included.
processor() {
  local TIMEFORMAT='%3U %3S' times=$1 run
  shift
  { time for ((run = 0; run < times; run++)); do "$@" >/dev/null; done; } 2>&1 |
    awk -v times="$times" '{ printf "%d runs %.0f nanoseconds\n", times, 1e9 * ($1 + $2) / times }'
}

# best RUNS COMMAND ..: the least nanoseconds of RUNS runs of a command that prints as `bench` does.
best() {
  local runs=$1 run
  shift
  for ((run = 0; run < runs; run++)); do "$@"; done | awk 'NR == 1 || $3 < least { least = $3 } END { print least }'
}

# beyond OURS LESS: what ours takes more than that, in nanoseconds, and one at least.
beyond() { echo $(($1 > $2 ? $1 - $2 : 1)); }

# now: the microsecond that it is.
now() { echo "${EPOCHREALTIME/[.,]/}"; }

# ratio WORDS OURS OTHER: prints what is measured, how many times the other time ours is, and the commit.
ratio() {
  awk -v words="$1" -v ours="$2" -v other="$3" -v commit="$commit" \
    'BEGIN { printf "%s: %.2f (%s)\n", words, ours / (other > 0 ? other : 1), commit }'
}
