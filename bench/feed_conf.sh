#!/usr/bin/env bash
# How the time to read a configuration grows from 1,000 peers to 10,000: the best of five readings of each. Linear growth
# is 10, and the aim is under 13. It fails on no ratio.
. "$(dirname "$(readlink -f "${BASH_SOURCE[0]}")")/lib.sh"
build_benchmark tool_bench

few=$(best 5 bench feed_conf read 1000)
many=$(best 5 bench feed_conf read 10000)
ratio "read_conf, growth from 1,000 to 10,000 peers" "$many" "$few"
