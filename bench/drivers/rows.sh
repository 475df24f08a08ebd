#!/usr/bin/env bash
# Times `row_points` and `timed_points` of row_scan: over one cell of 3,600,000 points in milliseconds, one of 3,600 points in seconds, and
# 3,600 cells of one point each. Each prints picoseconds a point, of the fastest of five rounds.
#
#     bench/drivers/rows.sh
set -euo pipefail
. "$(dirname "$0")/driver.sh"

prepare rows list_lemmas tsd_base qual_codec cell_model row_scan
run rows 6
