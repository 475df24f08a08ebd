#!/usr/bin/env bash
# Times `tsd batch` against plain.rs, the same job in plain Rust, and prints a Markdown table.
#
#     bench/run.sh PROGRAM [RUNS]
#
# PROGRAM is the built `tsd_main`. The programs read each data set by turns, RUNS times (3 if left out), and the fastest
# run of each counts. Their outputs have to be equal, byte for byte. All data goes into a temporary folder.
set -euo pipefail

if [ $# -lt 1 ]; then
    echo "usage: $0 PROGRAM [RUNS]" >&2
    exit 1
fi
here=$(cd "$(dirname "$0")" && pwd)
program=$(realpath "$1")
runs=${2:-3}
folder=$(mktemp -d)
trap 'rm -rf "$folder"' EXIT

rustc --edition 2024 -O -o "$folder/plain" "$here/plain.rs"

# Series, points of each, tags, order of the lines, query.
sets=("1000 100 2 time zimsum:sys.cpu.user" "1000 1000 2 time zimsum:sys.cpu.user" "1000 1000 2 time sum:sys.cpu.user"
    "1000 1000 2 time sum:1m-avg:sys.cpu.user" "1000 1000 2 time sum:1m-avg:sys.cpu.user{host=*}"
    "1000 1000 2 time sum:sys.cpu.user{host=web0007}" "100000 10 2 time zimsum:sys.cpu.user"
    "100000 10 2 time sum:sys.cpu.user" "1000 1000 8 time zimsum:sys.cpu.user" "1000 1000 2 random zimsum:sys.cpu.user")

source "$here/measure.sh"

batch_once() {
    measure_once plain "$folder/lines" "$folder/plain.json" "$folder/plain" batch 1356998400 "$last" "$query"
    measure_once tsd "$folder/lines" "$folder/tsd.json" "$program" batch 1356998400 "$last" "$query"
}

echo '| series | points each | tags | order | query | lines | tsd, lines/s | plain, lines/s | time, tsd / plain | tsd, peak MB | plain, peak MB | memory, tsd / plain |'
echo '|---|---|---|---|---|---|---|---|---|---|---|---|'
for set in "${sets[@]}"; do
    read -r series points tags order query <<<"$set"
    shuffle=()
    if [ "$order" = random ]; then
        shuffle=(--shuffle)
    fi
    python3 "$here/generate.py" "$series" "$points" --tags "$tags" "${shuffle[@]}" >"$folder/lines"
    last=$((1356998400 + (points - 1) * 10))
    by_turns batch_once
    if ! cmp "$folder/tsd.json" "$folder/plain.json"; then
        echo "$0: the outputs differ at $series series of $points points with $tags tags" >&2
        exit 1
    fi
    awk -v series="$series" -v points="$points" -v tags="$tags" -v order="$order" -v query="$query" -v ours="${micros[tsd]}" \
        -v theirs="${micros[plain]}" -v our_peak="${peak[tsd]}" -v their_peak="${peak[plain]}" 'BEGIN {
        lines = series * points
        printf "| %d | %d | %d | %s | `%s` | %d | %.0f | %.0f | %.2f | %.1f | %.1f | %.2f |\n", series, points, tags, order, query, lines,
            lines * 1e6 / ours, lines * 1e6 / theirs, ours / theirs,
            our_peak / 1024, their_peak / 1024, our_peak / their_peak
    }'
done
