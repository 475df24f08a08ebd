# To be sourced, with `runs` and `folder` set: how long commands take, by turns, and their peak memory.

declare -A micros peak

# The peak memory of a command, in KiB, goes into the file $folder/peak. What Python measures is never below its own.
with_peak() {
    if [ -x /usr/bin/time ]; then
        /usr/bin/time -f %M -o "$folder/peak" "$@"
    else
        python3 -c 'import resource, subprocess, sys
status = subprocess.call(sys.argv[2:])
print(resource.getrusage(resource.RUSAGE_CHILDREN).ru_maxrss, file=open(sys.argv[1], "w"))
sys.exit(status)' "$folder/peak" "$@"
    fi
}

# measure_once NAME INPUT OUTPUT COMMAND..: runs the command once. `micros` of the name is of its fastest run so far, and `peak` the
# greatest, in KiB.
measure_once() {
    local name=$1 input=$2 output=$3 begin end
    shift 3
    begin=${EPOCHREALTIME/[.,]/}
    with_peak "$@" <"$input" >"$output"
    end=${EPOCHREALTIME/[.,]/}
    if [ -z "${micros[$name]:-}" ] || [ $((end - begin)) -lt "${micros[$name]}" ]; then
        micros[$name]=$((end - begin))
    fi
    if [ -z "${peak[$name]:-}" ] || [ "$(cat "$folder/peak")" -gt "${peak[$name]}" ]; then
        peak[$name]=$(cat "$folder/peak")
    fi
}

# by_turns FUNCTION: calls a function that measures each program once, as often as there are runs, from new figures.
by_turns() {
    local run
    micros=() peak=()
    for ((run = 0; run < runs; run++)); do
        "$1"
    done
}
