#!/usr/bin/env bash
# Times `drain` of compactor over `Solo` and `MapBody`, and then the same work in plain Rust: 100,000 rows of 60 cells, of one point in
# seconds each, and one row of 360,000 and one of 3,600,000 cells, of one point in milliseconds each. Each prints picoseconds a point,
# of the fastest of three rounds, and of one for the long rows.
#
#     bench/drivers/drain.sh
set -euo pipefail
. "$(dirname "$0")/driver.sh"

prepare drain cell_laws row_key tsd_base tsd_hooks tsd_io cell_model map_body cell_solo uid_table point_put compactor

echo 'drain:'
run drain 3
echo 'plain Rust:'
"$folder/plain"
