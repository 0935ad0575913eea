#!/usr/bin/env bash
# How long one connection in memory takes to send articles, 20 of them under way, to a peer that wants and takes each,
# beside one plain copy of the same blocks into a buffer that is used again; the best of three runs of each. It prints
#   the ratio for articles of 1 KiB and of 32 KiB out of so many texts in turn that no cache holds them
#     (128 MiB; aim at 32 KiB: under 4),
#   the same where one text is sent over and over, which both sides find in the processor's first cache, and
#   the growth from 10,000 to 100,000 articles of 1 KiB (aim: under 11).
# It fails on none.
. "$(dirname "$(readlink -f "${BASH_SOURCE[0]}")")/lib.sh"
build_benchmark tool_bench

cold=134217728
for octets in 1024 32768; do
  for texts in $((cold / octets)) 1; do
    conn=$(best 3 bench conn_core conn 100000 "$octets" "$texts")
    copy=$(best 3 bench conn_core copy 100000 "$octets" "$texts")
    ratio "Conn, 100,000 articles of $octets octets out of $texts texts, beside a plain copy" "$conn" "$copy"
  done
done
few=$(best 3 bench conn_core conn 10000 1024 1)
many=$(best 3 bench conn_core conn 100000 1024 1)
ratio "Conn, growth from 10,000 to 100,000 articles" "$many" "$few"
