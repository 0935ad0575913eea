#!/usr/bin/env bash
# How the work of `Later` grows from 10,000 numbers to 100,000, for each pattern and each order of its numbers, by the
# processor time of whole runs: the start of the program and the putting in of the numbers are in it. Ten times the
# numbers make ten times the calls, of 17 levels of the tree at most in place of 14, so that the steps alone would make a
# ratio of about 12.
#
# rising: the numbers are put in from the least to the greatest, as a funnel counts them. The aim is a ratio of under 14.
#
# scattered: the same numbers, each put in far from the one before it, so that neighbours lie far apart in memory. The
# steps are the same, but with 100,000 numbers more of them wait for memory, since the tree outgrows the nearer caches. So
# the ratio is 14 to 26 by the machine, and is no measure of the steps.
#
# listed: all that are due are gone through in lists of 128 keys, beside a call for each key. The aim is a ratio of under
# a half.
#
# Other programs that run at the same time move each ratio by up to a half. It fails on none.
. "$(dirname "$(readlink -f "${BASH_SOURCE[0]}")")/lib.sh"
build_benchmark tool_bench

for order in rising scattered; do
  for pattern in together waiting again held; do
    few=$(best 5 processor 10 bench deferral "$pattern" "$order" 10000)
    many=$(best 5 processor 1 bench deferral "$pattern" "$order" 100000)
    ratio "Later, $pattern, $order, growth from 10,000 to 100,000 numbers" "$many" "$few"
  done
done

for order in rising scattered; do
  listed=$(best 5 processor 1 bench deferral listed "$order" 100000)
  stepped=$(best 5 processor 1 bench deferral stepped "$order" 100000)
  ratio "Later, $order, 100,000 keys in lists of 128, beside a call for each" "$listed" "$stepped"
done
