#!/usr/bin/env bash
# Times `aggregate` of lerp_aggregate, and then the same work in plain Rust: 1,000 series of 1,000 points each, all at the
# same times. Each prints microseconds, of the fastest of ten rounds.
#
#     bench/drivers/aggregate.sh
set -euo pipefail
. "$(dirname "$0")/driver.sh"

prepare aggregate tsd_base lerp_aggregate

echo 'aggregate:'
run aggregate 4
echo 'plain Rust:'
"$folder/plain"
