#!/usr/bin/env bash
# Times `down` of downsample, and then the same work in plain Rust: 1,000 series of 1,000 points each, 10 seconds apart.
# Each prints microseconds, of the fastest of ten rounds, and how many points were made.
#
#     bench/drivers/down.sh
set -euo pipefail
. "$(dirname "$0")/driver.sh"

prepare down tsd_base downsample

echo 'down:'
run down 4
echo 'plain Rust:'
"$folder/plain"
