#!/usr/bin/env bash
# Times callers on threads that put points of known series, by their texts, into one `Site` (cell_store, with uid_table and point_put
# over it), and then the same with one lock round one map in plain Rust (site.rs): 1, 2 and 4 threads, each with 1,000,000 points of
# 100 series, first each with a metric of its own, whose rows lie in a region of their own, and then all with one metric. Each line has
# picoseconds a point by the clock and of all processors, of the run that was fastest by the clock; the two programs run by turns, on
# the processors that PROCESSORS names.
#
#     bench/drivers/site.sh [RUNS] [PROCESSORS]
set -euo pipefail
. "$(dirname "$0")/driver.sh"

runs=${1:-5}
processors=${2:-0,1}
prepare site anyhow row_key tsd_base tsd_hooks cell_model cell_laws cell_region cell_store uid_table point_put lone_store
(cd "$folder/crates/site_bench" && rt run -- own 1 >"$folder/told")
ours=$folder/crates/site_bench/out/site_bench

for metrics in own one; do
    for threads in 1 2 4; do
        for program in "$ours" "$folder/plain"; do
            : >"$folder/$(basename "$program").runs"
        done
        for _ in $(seq "$runs"); do
            for program in "$ours" "$folder/plain"; do
                taskset -c "$processors" "$program" "$metrics" "$threads" >>"$folder/$(basename "$program").runs"
            done
        done
        for program in "$ours" "$folder/plain"; do
            sort -t: -k2n "$folder/$(basename "$program").runs" | head -n 1
        done
    done
done
