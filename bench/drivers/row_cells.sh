#!/usr/bin/env bash
# Times puts with their stamps, and reads of copies, of the cells of rows of packed_cells: 1,000,000 points of values of 1 and 2
# bytes, in order of time, in 3,000 rows of 360 or 280 cells. It prints nanoseconds a point, of the fastest of seven rounds.
#
#     bench/drivers/row_cells.sh
set -euo pipefail
. "$(dirname "$0")/driver.sh"

prepare row_cells packed_cells
run row_cells 1
