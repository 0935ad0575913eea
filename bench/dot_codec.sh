#!/usr/bin/env bash
# How long `to_block` takes over 64 MiB of article lines, in texts of at most 16 MiB, beside a plain copy of the same
# octets: the best of five runs of each. It fails on no ratio.
. "$(dirname "$(readlink -f "${BASH_SOURCE[0]}")")/lib.sh"
build_benchmark tool_bench

block=$(best 5 bench dot_codec block 64)
copy=$(best 5 bench dot_codec copy 64)
ratio "to_block over 64 MiB, beside a plain copy" "$block" "$copy"
