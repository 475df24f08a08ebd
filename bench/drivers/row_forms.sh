#!/usr/bin/env bash
# Compares the model of rows in forms.py with packed_cells: the cells of a file of put lines go into rows, and of the heap at its peak massif
# tells what the rows' cells took. The driver is built without its proof.
#
#     bench/drivers/row_forms.sh FILE [OPTIONS OF forms.py tell]
set -euo pipefail
. "$(dirname "$0")/driver.sh"

file=$(realpath "$1")
shift
prepare row_forms packed_cells
cp -r "$top/bench" "$folder/bench"
python3 "$folder/bench/unproved.py" row_forms_bench "$folder/program"
python3 "$top/bench/forms.py" tell --records "$folder/cells" "$@" "$file" | head -n 1
valgrind --tool=massif --massif-out-file="$folder/massif" --peak-inaccuracy=0 --threshold=0.01 "$folder/program" <"$folder/cells" 2>"$folder/said"
awk -F= '/^heap_tree=peak/ { print "of packed_cells, by massif:"; told = 1 } /^#/ { told = 0 } told' "$folder/massif" | grep -E '^  n[0-9]+: .*(packed_cells|below)|peak|by massif'
