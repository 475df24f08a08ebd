#!/usr/bin/env bash
# Tells how much memory the list of steps of `Solo` (cell_solo) has: 1,000,000 `put` lines of 1,000 series by turns, with values of one
# byte, go through one session of `tsd stdio`, and of the heap at its peak massif tells what the list took where it grew. It prints the
# bytes a put, the room that the lists have for growth and the value's byte included, and those of the whole heap.
#
#     bench/turns.sh PROGRAM
#
# PROGRAM is the built `tsd_main`.
set -euo pipefail

if [ $# -lt 1 ]; then
    echo "usage: $0 PROGRAM" >&2
    exit 1
fi
here=$(cd "$(dirname "$0")" && pwd)
folder=$(mktemp -d)
trap 'rm -rf "$folder"' EXIT

python3 "$here/generate.py" 1000 1000 | awk '{ $3 = $3 % 100; print "put " $0 }' >"$folder/puts"
echo exit >>"$folder/puts"
valgrind --tool=massif --massif-out-file="$folder/massif" "$1" stdio --auto-metric <"$folder/puts" >"$folder/replies" 2>"$folder/errors"
awk -F= '
/^mem_heap_B=/ { heap = $2; list = 0 }
/Turns::make_room|Places::add|Places::reserve/ { if (heap >= most) { split($0, parts, /[: ]+/); for (i in parts) if (parts[i] ~ /^[0-9]+$/ && parts[i] + 0 > 1000) { list += parts[i]; break } } }
/^heap_tree=(detailed|peak)/ { if (heap > most) most = heap }
list > 0 { told = list; whole = heap }
END { printf "%.1f bytes a put in the list of steps, %.1f in all\n", told / 1e6, whole / 1e6 }' "$folder/massif"
