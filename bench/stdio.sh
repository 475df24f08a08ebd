#!/usr/bin/env bash
# Times `tsd stdio --auto-metric` over 1,000,000 `put` lines and an `exit`, beside the same lines through `tsd batch` and through
# plain.rs, and prints a Markdown table.
#
#     bench/stdio.sh PROGRAM [RUNS]
#
# PROGRAM is the built `tsd_main`. They run by turns, and the fastest of RUNS runs counts (3 if left out). All data goes into a temporary folder.
set -euo pipefail

if [ $# -lt 1 ]; then
    echo "usage: $0 PROGRAM [RUNS]" >&2
    exit 1
fi
here=$(cd "$(dirname "$0")" && pwd)
program=$(realpath "$1")
runs=${2:-3}
folder=$(mktemp -d)
trap 'rm -rf "$folder"' EXIT

rustc --edition 2024 -O -o "$folder/plain" "$here/plain.rs"
source "$here/measure.sh"

session_once() {
    measure_once stdio "$folder/puts" "$folder/replies" "$program" stdio --auto-metric
    measure_once batch "$folder/lines" "$folder/reply" "$program" batch 1356998400 1356998400 zimsum:sys.cpu.user
    measure_once plain "$folder/puts" "$folder/plain_replies" "$folder/plain" stdio
}

echo '| series | points each | stdio, lines/s | batch, lines/s | plain, lines/s | time, stdio / batch | time, stdio / plain | stdio, peak MB | batch, peak MB | plain, peak MB |'
echo '|---|---|---|---|---|---|---|---|---|---|'
for set in "1000 1000" "100000 10"; do
    read -r series points <<<"$set"
    python3 "$here/generate.py" "$series" "$points" >"$folder/lines"
    sed 's/^/put /' "$folder/lines" >"$folder/puts"
    echo exit >>"$folder/puts"
    by_turns session_once
    if [ -s "$folder/replies" ]; then
        echo "$0: a put was refused" >&2
        exit 1
    fi
    awk -v series="$series" -v points="$points" -v ours="${micros[stdio]}" -v batch="${micros[batch]}" \
        -v plain="${micros[plain]}" -v our_peak="${peak[stdio]}" -v batch_peak="${peak[batch]}" -v plain_peak="${peak[plain]}" 'BEGIN {
        lines = series * points
        printf "| %d | %d | %.0f | %.0f | %.0f | %.2f | %.2f | %.1f | %.1f | %.1f |\n", series, points,
            lines * 1e6 / ours, lines * 1e6 / batch, lines * 1e6 / plain, ours / batch, ours / plain,
            our_peak / 1024, batch_peak / 1024, plain_peak / 1024
    }'
done
