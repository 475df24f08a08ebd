# Sourced by the scripts beside it: a driver over copies of crates of this repository, in a temporary folder.

here=$(cd "$(dirname "${BASH_SOURCE[0]}")" && pwd)
top=$(cd "$here/../.." && pwd)
folder=$(mktemp -d)
trap 'rm -rf "$folder"' EXIT

# lines_of CRATE..: the lines of crates.txt of these crates and of all below them, from bottom to top.
lines_of() {
    tac "$top/crates.txt" | awk -v crates="$*" '
        BEGIN { split(crates, names, " "); for (i in names) wanted[names[i]] = 1 }
        /^#/ || !NF { next }
        {
            split($0, parts, ":")
            name = $1
            sub(/:$/, "", name)
            if (!(name in wanted)) next
            print
            split(parts[2], names, " ")
            for (i in names) wanted[names[i]] = 1
        }' | tac
}

# prepare NAME CRATE..: copies these crates and all below them, and puts over them the driver NAME, which uses them. Its source is NAME.rt.txt,
# or all that lies in the folder NAME. The same work in plain Rust, NAME.rs, is built where it is there.
prepare() {
    local name=$1 line
    shift
    mkdir -p "$folder/crates/${name}_bench/src"
    cp "$top/HANDLES" "$folder"
    lines_of "$@" >"$folder/crates.txt"
    while read -r line; do
        cp -r "$top/crates/${line%%[ :]*}" "$folder/crates"
    done <"$folder/crates.txt"
    echo "${name}_bench: $*" >>"$folder/crates.txt"
    if [ -d "$here/$name" ]; then
        cp -r "$here/$name/." "$folder/crates/${name}_bench"
        find "$folder/crates/${name}_bench" -name '*.txt' | while read -r file; do mv "$file" "${file%.txt}"; done
    else
        cp "$here/$name.rt.txt" "$folder/crates/${name}_bench/src/main.rt"
    fi
    if [ -f "$here/$name.rs" ]; then
        rustc --edition 2024 -O -o "$folder/plain" "$here/$name.rs"
    fi
}

# run NAME LINES: proves, builds and runs the driver, and shows the last lines of its output.
run() {
    (cd "$folder/crates/$1_bench" && rt run | tail -n "$2")
}
