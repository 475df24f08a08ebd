#!/usr/bin/env bash
# Times `read_cell` of qual_codec, and then the same work in plain Rust: a cell of 3,600 items in seconds, and one of
# 100,000 items in milliseconds. Each prints picoseconds an item, of the fastest of ten rounds.
#
#     bench/drivers/cells.sh
set -euo pipefail
. "$(dirname "$0")/driver.sh"

prepare cells qual_codec

echo 'read_cell:'
run cells 2
echo 'plain Rust:'
"$folder/plain"
