#!/usr/bin/env bash
# Times `tsd stdio --auto-metric` over 1,000,000 points in requests `POST /api/put`, beside plain.rs, and prints a Markdown table.
#
#     bench/http.sh PROGRAM [RUNS]
#
# PROGRAM is the built `tsd_main`. They run by turns, and the fastest of RUNS runs counts (3 if left out). All data goes into a temporary folder.
set -euo pipefail

if [ $# -lt 1 ]; then
    echo "usage: $0 PROGRAM [RUNS]" >&2
    exit 1
fi
here=$(cd "$(dirname "$0")" && pwd)
program=$(realpath "$1")
runs=${2:-3}
folder=$(mktemp -d)
trap 'rm -rf "$folder"' EXIT

rustc --edition 2024 -O -o "$folder/plain" "$here/plain.rs"
source "$here/measure.sh"

bodies_once() {
    measure_once stdio "$folder/requests" "$folder/replies" "$program" stdio --auto-metric
    measure_once plain "$folder/requests" "$folder/plain_replies" "$folder/plain" http
}

echo '| series | points | points of a body | stdio, points/s | plain, points/s | time, stdio / plain | stdio, peak MB | plain, peak MB |'
echo '|---|---|---|---|---|---|---|---|'
for set in "1000 1000 50" "1000 1000 1000" "1000 100 100000"; do
    read -r series points body <<<"$set"
    python3 "$here/generate.py" "$series" "$points" --bodies "$body" >"$folder/requests"
    by_turns bodies_once
    if grep -qv '^HTTP/1.1 204 No Content.$\|^.$' "$folder/replies"; then
        echo "$0: a point was refused" >&2
        exit 1
    fi
    cmp "$folder/replies" "$folder/plain_replies"
    awk -v series="$series" -v points="$points" -v body="$body" -v ours="${micros[stdio]}" -v plain="${micros[plain]}" -v our_peak="${peak[stdio]}" -v plain_peak="${peak[plain]}" 'BEGIN {
        count = series * points
        printf "| %d | %d | %d | %.0f | %.0f | %.2f | %.1f | %.1f |\n", series, count, body,
            count * 1e6 / ours, count * 1e6 / plain, ours / plain, our_peak / 1024, plain_peak / 1024
    }'
done
