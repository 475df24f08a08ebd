#!/usr/bin/env bash
# Times puts with their stamps over the regions of a store (cell_region), with rows made beforehand, and beside it a hash map of lists in
# plain Rust (puts.rs): 1,000,000 points of 1,000 series in order of time, with 2 tags and with 8, the fastest of five rounds. Then puts of
# one point into each of 25,000 and of 100,000 rows, in order, the other way round and by jumps: none may take more a row for more rows
# than a search of more rows does. Last, with valgrind, how often memory was taken and how much of it was held at the peak, a point, without
# what the rows' keys take. The programs run by turns, so that other work on the machine meets all of them.
#
#     bench/drivers/puts.sh
set -euo pipefail
. "$(dirname "$0")/driver.sh"

prepare puts row_key qual_codec cell_model cell_region
run puts 0
ours=$folder/crates/puts_bench/out/puts_bench

for tags in 2 8; do
    echo "$tags tags:"
    for _ in 1 2 3; do
        "$ours" points "$tags"
        "$folder/plain" "$tags"
    done
done
for count in 25000 100000; do
    echo "$count rows:"
    for order in sorted reversed scattered; do
        "$ours" rows "$order" "$count"
    done
done
# memory WORD TAGS: how often a run took memory, and the bytes that it held at the peak.
memory() {
    valgrind --tool=memcheck "$ours" "$@" 2>&1 >/dev/null | sed -n 's/,//g; s/.*total heap usage: \([0-9]*\) allocs.*/\1/p'
    valgrind --tool=dhat --dhat-out-file=/dev/null "$ours" "$@" 2>&1 >/dev/null | sed -n 's/,//g; s/.*At t-gmax: \([0-9]*\) bytes.*/\1/p'
}
for tags in 2 8; do
    { read -r taken && read -r peak; } < <(memory once "$tags")
    { read -r keys_taken && read -r keys_peak; } < <(memory keys "$tags")
    echo "$tags tags: memory was taken $(((taken - keys_taken) / 1000)) times for 1000 points, and a point took $(((peak - keys_peak) / 100000)) tenths of a byte"
done
