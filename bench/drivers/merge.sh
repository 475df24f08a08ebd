#!/usr/bin/env bash
# Times `merge_cells` of qual_codec, and then the same work in plain Rust: 3,600 cells of one item in seconds, 100,000 cells of one
# item in milliseconds, and a cell of 3,600,000 items with one more of its middle. Each prints picoseconds an item, of the fastest of
# ten rounds.
#
#     bench/drivers/merge.sh
set -euo pipefail
. "$(dirname "$0")/driver.sh"

prepare merge qual_codec

echo 'merge_cells:'
run merge 3
echo 'plain Rust:'
"$folder/plain"
