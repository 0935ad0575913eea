#!/usr/bin/env bash
# How long ReplyReader takes for a reply, beside a bare memchr walk over the line ends of the same pieces of 1,500 octets:
# the best of five runs over 1,000,000 replies. It fails on no ratio.
. "$(dirname "$(readlink -f "${BASH_SOURCE[0]}")")/lib.sh"
build_benchmark tool_bench

replies=$(best 5 bench reply_reader replies 1000000)
walk=$(best 5 bench reply_reader walk 1000000)
ratio "ReplyReader, $((replies / 1000000)) ns a reply, beside a bare memchr walk" "$replies" "$walk"
