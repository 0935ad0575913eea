#!/usr/bin/env bash
# How long a world takes for funnel lines, the best of five runs each. The reading of the script and
# the making of the world are in no time. It prints
#   the growth from 10,000 lines to 100,000, each of which names all four peers, with a flush after
#     each 256 (aim: under 11),
#   the time of 100,000 of them beside that of the stations alone, which owe the same lines with as
#     many flushes (aim: under 1.5), and beside that with the reading of the lines, and
#   the time of 20,000 lines of which each names one peer in turn, with 20,000 peers beside 4 (aim:
#     about 1).
# Other programs that run at the same time move these. It fails on none.
. "$(dirname "$(readlink -f "${BASH_SOURCE[0]}")")/lib.sh"
build_benchmark tool_bench

few=$(best 5 bench world_core run 10000) many=$(best 5 bench world_core run 100000)
ratio "World::run, $((many / 100000)) ns a line to four peers, growth from 10,000 to 100,000 lines" \
  "$many" "$few"
owe=$(best 5 bench world_core owe 100000) read=$(best 5 bench world_core read 100000)
ratio "World::run, 100,000 lines, beside Station::owe alone" "$many" "$owe"
ratio "World::run, 100,000 lines, beside read_line and Station::owe" "$many" $((read + owe))
few=$(best 5 bench world_core named 20000 4) many=$(best 5 bench world_core named 20000 20000)
ratio "World::run, $((many / 20000)) ns a line to one of 20,000 peers, beside one of 4" "$many" "$few"
