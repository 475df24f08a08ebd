#!/usr/bin/env bash
# Times `Spans::add` of span_merge, and then the same work in plain Rust: rows of 1,000 series that come hour by hour in order,
# each of 60 points, over 100 hours. Each prints picoseconds a point, of the fastest of ten rounds.
#
#     bench/drivers/spans.sh
set -euo pipefail
. "$(dirname "$0")/driver.sh"

prepare spans tsd_base span_merge row_key

echo 'span_merge:'
run spans 1
echo 'plain Rust:'
"$folder/plain"
