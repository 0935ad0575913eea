#!/usr/bin/env bash
# How long `drive` takes to send articles through a link in memory, 20 of them under way, and to
# take in the replies, beside plain sends of the same blocks through such a link and receipts of the
# same replies; the best of five runs of each. The making of the blocks is in neither. It prints the
# ratio for articles of 1 KiB and of 32 KiB (aim at 32 KiB: under 1.5). It fails on none.
. "$(dirname "$(readlink -f "${BASH_SOURCE[0]}")")/lib.sh"
build_benchmark tool_bench

for octets in 1024 32768; do
  drive=$(best 5 bench event_loop drive 20000 "$octets")
  copy=$(best 5 bench event_loop copy 20000 "$octets")
  ratio "drive, 20,000 articles of $octets octets, beside plain sends" "$drive" "$copy"
done
