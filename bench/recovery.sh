#!/usr/bin/env bash
# recovery.sh [DIRECTORY [PART ..]]: what the calls of a tape cost, over disks in memory and over files of this directory,
# or of that of temporary files. The parts are, all of them if none is named:
#   growth: how the opening of a tape grows from 10,000 notes to 100,000 (aim: under 13) and from 100,000 to 1,000,000
#     (aim: under 11), over disks in memory, by processor time: the time of ten openings is that of a run with eleven
#     less that of a run with one, so that the building of the tape is in neither; how the time of asking whether a
#     rotation is due grows from 10,000 debts to 100,000 (aim: it doesn't, so a ratio of about 1); and how many disk
#     calls flushes make: one write, a sync, a write for each gate and a sync, so k + 3 for k records, of which each
#     holds a batch of as many notes as fit;
#   plain: how long a rotation of 100,000 debts takes beside a plain C program that writes as many octets and syncs
#     twice (bench/rewrites.c), the best of five runs of each, by turns (aim: under 2): one of what flushes have left,
#     in batches, and one of what a rotation has left;
#   memory: how many octets of memory a debt takes that is noted and flushed, between 51,200 debts and 1,000,000 (aim:
#     at most 64): the most memory of a run with the more debts, less that of a run with the fewer, 51,200 to a flush in
#     both; how many octets of the file a debt takes then; and how long the tape of 1,000,000 debts takes to be opened
#     from its file, of which the system has given up what it kept in memory (aim: under 2 seconds), and the most memory
#     that the program has then, less that for an empty tape, beside what the open tape holds (aim: at most 1.3).
#
# $BEFORE may name another checkout of this repository, in which the program of the benchmarks is built. Its tapes are
# then measured by the same turns, each program's as its own flushes have left them, and it is printed how long ours
# takes beside it:
#   openings: an opening of 1,000,000 notes over disks in memory and of 1,000,000 debts in files (aim: at most 0.7), and
#     how many octets a debt takes in its files;
#   rotations: a rotation of 100,000 debts of what flushes have left, in batches, and one of what a rotation has left,
#     the best of nine runs of each (aim: at most 1.05);
#   claims: a claim of 1,100,000, the best of five runs (aim: at most 1.05);
#   instructions: the processor's instructions of an opening, of these rotations, and of a debt that is owed, flushed and
#     claimed, as valgrind counts them where it is installed: nearly the same in each run, whatever else the machine does.
#
# Other programs that run at the same time move these. It fails on none.
. "$(dirname "$(readlink -f "${BASH_SOURCE[0]}")")/lib.sh"
[ -z "${BEFORE-}" ] || built "$BEFORE"
build_benchmark tool_bench
parts=("${@:2}")
[ ${#parts[@]} -gt 0 ] || parts=(growth plain memory openings rotations claims instructions)
run=$(mktemp -d -p "${1:-${TMPDIR:-/tmp}}")
trap 'rm -rf "$run"' EXIT

# ten_openings PROGRAM NOTES: the processor time of ten openings of a tape of NOTES notes.
ten_openings() { echo $(($(best 5 processor 1 "$1" recovery open "$2" 11) - $(best 5 processor 1 "$1" recovery open "$2" 1))); }

# asked DEBTS: the time of asking.
asked() { best 5 bench recovery due "$1" 10000000; }

# debts: how many the tape in the directory owes.
debts() { bench disk_model open "$run" | awk '{ print $1 }'; }

# kibibytes COMMAND ..: the most memory of a run.
kibibytes() { "$@" | awk '{ print $4 }'; }

# per DEBTS KIBIBYTES: octets a debt.
per() { awk -v debts="$1" -v memory="$2" 'BEGIN { printf "%.0f", 1024 * memory / debts }'; }

# on_disk DEBTS: octets of the tape's file for each of DEBTS debts.
on_disk() { awk -v octets="$(stat -c %s "$run/bench~a")" -v debts="$1" 'BEGIN { printf "%.2f", octets / debts }'; }

growth() {
  local few more most
  few=$(ten_openings bench 10000) more=$(ten_openings bench 100000) most=$(ten_openings bench 1000000)
  ratio "Tape::open, growth from 10,000 to 100,000 notes" "$more" "$few"
  ratio "Tape::open, growth from 100,000 to 1,000,000 notes" "$most" "$more"
  ratio "Tape::rotate_due, growth from 10,000 to 100,000 debts" "$(asked 100000)" "$(asked 10000)"
  bench recovery | grep flush
}

# The record of a debt of the benchmark takes 48 octets, that of a Base 54, the end gate 1.
plain() {
  local owed turn first ours plain
  cc -O2 -o "$run/rewrites" "$top/bench/rewrites.c"
  bench disk_model fill "$run" 100000 >"$run/filled"
  owed=$(debts)
  for ((turn = 0; turn < 5; turn++)); do
    bench disk_model fill "$run" 100000 >"$run/filled"
    bench disk_model rotate "$run" 1 >>"$run/first_rotations"
    bench disk_model rotate "$run" 10 >>"$run/rotations"
    "$run/rewrites" "$run/plain" 10 $((owed * 48 + 55)) >>"$run/rewritten"
  done
  first=$(best 1 cat "$run/first_rotations") ours=$(best 1 cat "$run/rotations") plain=$(best 1 cat "$run/rewritten")
  ratio "rotation of batches, $((first / 1000)) us of $owed debts, beside a plain write and two syncs" $((first * 10)) "$plain"
  ratio "rotation, $((ours / 10000)) us of $owed debts, beside a plain write and two syncs" "$ours" "$plain"
}

memory() {
  local few most owed held full time empty
  few=$(kibibytes bench disk_model fill "$run" 51200)
  most=$(kibibytes bench disk_model fill "$run" 1000000)
  owed=$(debts)
  held=$(per $((owed - 51200)) $((most - few)))
  echo "Tape, $held octets of memory a debt at $owed ($commit)"
  echo "Tape, $(on_disk "$owed") octets of its file a debt, of which token and message-id take 32 ($commit)"
  full=$(kibibytes bench disk_model memory "$run")
  time=$(best 3 bench disk_model open "$run")
  bench disk_model fill "$run" 0 >"$run/filled"
  empty=$(kibibytes bench disk_model memory "$run")
  awk -v time="$time" -v debts="$owed" -v memory=$((full - empty)) -v held="$held" -v commit="$commit" 'BEGIN {
    printf "Tape::open, %d debts from a file: %.2f s, %.0f octets a debt while it reads, %.2f times what it holds then (%s)\n",
      debts, time / 1e9, 1024 * memory / debts, 1024 * memory / debts / held, commit }'
}

# by_turns RUNS COMMAND: runs it with each program RUNS times, by turns. It adds its figures to the files
# PROGRAM.WHAT.
by_turns() {
  local turn
  for ((turn = 0; turn < $1; turn++)); do
    "$2" bench
    "$2" other
  done
}

# beside WHAT WORDS: how long ours took beside the other checkout's, of the best of each.
beside() {
  local ours others
  ours=$(best 1 cat "$run/bench.$1") others=$(best 1 cat "$run/other.$1")
  ratio "$2, $((ours / 1000)) us, beside the other checkout's $((others / 1000))" "$ours" "$others"
}

# opened PROGRAM: an opening of debts in files.
opened() {
  "$1" disk_model fill "$run" 1000000 >"$run/filled"
  "$1" disk_model open "$run" >>"$run/$1.opened"
}

openings() {
  local owed program
  ratio "Tape::open, 1,000,000 notes, beside the other checkout's (aim 0.7)" \
    "$(ten_openings bench 1000000)" "$(ten_openings other 1000000)"
  by_turns 5 opened
  beside opened 'opening of 1,000,000 debts from files (aim 0.7)'
  for program in bench other; do
    "$program" disk_model fill "$run" 1000000 >"$run/filled"
    owed=$(awk '{ print $1 }' "$run/filled")
    echo "a debt takes $(on_disk "$owed") octets of its file in the $program program ($commit)"
  done
}

# rotated PROGRAM: a first rotation, and ten more.
rotated() {
  "$1" disk_model fill "$run" 100000 >"$run/filled"
  "$1" disk_model rotate "$run" 1 >>"$run/$1.first"
  "$1" disk_model rotate "$run" 10 >>"$run/$1.later"
}

rotations() {
  by_turns 9 rotated
  beside first 'a rotation of 99,840 debts in batches (aim 1.05)'
  beside later 'ten more rotations of them (aim 1.05)'
}

# claimed PROGRAM: claims over disks in memory.
claimed() { "$1" peer_queue claim 1 1000000 100000 >>"$run/$1.claim"; }

claims() {
  by_turns 5 claimed
  beside claim '1,100,000 claims (aim 1.05)'
}

# executed PROGRAM WORD ..: how many instructions a run takes.
executed() {
  local program=$bench_program
  [ "$1" = bench ] || program=$other_program
  shift
  valgrind --tool=callgrind --callgrind-out-file=/dev/null "$program" "$@" 2>&1 >"$run/told" |
    awk '$2 == "Collected" { print $4 }'
}

# counted PROGRAM: sets opening, first and later.
counted() {
  local none
  "$1" disk_model fill "$run" 100000 >"$run/filled"
  opening=$(executed "$1" disk_model open "$run")
  first=$(($(executed "$1" disk_model rotate "$run" 1) - opening))
  none=$(executed "$1" disk_model open "$run")
  later=$((($(executed "$1" disk_model rotate "$run" 4) - none) / 4))
}

# counted_claims PROGRAM: what a debt takes that is owed, flushed and claimed.
counted_claims() {
  local one
  one=$(executed "$1" peer_queue claim 1 10000 1000)
  echo $((($(executed "$1" peer_queue claim 1 100000 10000) - one) / 99000))
}

instructions() {
  local opening first later ours claim
  command -v valgrind >/dev/null || { echo 'recovery.sh: no instructions, since there is no valgrind'; return; }
  counted bench
  ours=("$opening" "$first" "$later")
  counted other
  ratio "instructions of an opening of 99,840 debts, ${ours[0]}, beside the other checkout's $opening" "${ours[0]}" "$opening"
  ratio "instructions of a rotation of them in batches, ${ours[1]}, beside the other checkout's $first" "${ours[1]}" "$first"
  ratio "instructions of one more rotation, ${ours[2]}, beside the other checkout's $later" "${ours[2]}" "$later"
  ours=("$(counted_claims bench)") claim=$(counted_claims other)
  ratio "instructions of a debt, owed, flushed and claimed, ${ours[0]}, beside the other checkout's $claim" "${ours[0]}" "$claim"
}

for part in "${parts[@]}"; do
  case $part in
    growth | plain | memory) "$part" ;;
    openings | rotations | claims | instructions) [ -z "${BEFORE-}" ] || "$part" ;;
    *) echo "recovery.sh: no part $part" >&2; exit 64 ;;
  esac
done
