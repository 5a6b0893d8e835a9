#!/bin/sh
# Times the programs send and receive on a stream of 120,000 packets, and prints microseconds a packet and multiples of the broadcast rate of
# 38.1 Mbit/s. Reading and writing of the stream is counted too.
set -e
cd "$(dirname "$0")/.."
scripts/build.sh send receive
mkdir -p target/bench
stream=target/bench/stream.ts
if [ ! -f "$stream" ]; then
    i=0
    while [ $i -lt 1000 ]; do
        cat crates/loopback/data/stream.ts
        i=$((i + 1))
    done > "$stream"
fi
packets=$(($(wc -c < "$stream") / 188))
printf '%-10s %4s %14s %16s\n' program m 'us a packet' 'broadcast rates'
row() {
    awk -v name="$1" -v m="$2" -v ns="$3" -v packets="$packets" 'BEGIN { us = ns / 1000 / packets; printf "%-10s %4d %14.2f %16.1f\n", name, m, us, 188 * 8 / us / 38.1 }'
}
for m in 4 5 6; do
    start=$(date +%s%N)
    crates/send/out/send $m < "$stream" > target/bench/symbols 2>/dev/null
    middle=$(date +%s%N)
    crates/receive/out/receive $m < target/bench/symbols > target/bench/received.ts 2>/dev/null
    end=$(date +%s%N)
    row send $m $((middle - start))
    row receive $m $((end - middle))
done
