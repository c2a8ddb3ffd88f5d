#!/usr/bin/env bash
# Counts the instructions of each call that bench.c times, on both sides, by valgrind's callgrind, and prints them as rows for plot.py.
# It takes the archive's path, which is that of the library's build where none is given. Where valgrind is not there it says so and ends
# with status 3.
set -u -o pipefail
export LC_ALL=C
archive=$(realpath "${1:-$(dirname "$0")/../../target/staticlib/libscaltrovina.a}") || exit 2
cd "$(dirname "$0")/../.." || exit 2
if ! command -v valgrind >/dev/null; then
    echo 'count.sh: install valgrind, which counts the instructions' >&2
    exit 3
fi
work=$(mktemp -d) || exit 2
trap 'rm -rf "$work"' EXIT
"${CC:-cc}" -std=c99 -O3 -Iinclude -o "$work/bench" tests/bench/bench.c tests/bench/twin.c "$archive" || exit 1

# The instructions of one call and of all that it calls. Functions of the C library are bound before, so that binding is not counted.
instructions() { # FUNCTION ROW TABLE
    LD_BIND_NOW=1 valgrind --tool=callgrind --toggle-collect="$1" --callgrind-out-file=/dev/null \
        "$work/bench" --once --only "$2" --table "$3" 2>&1 >/dev/null | awk '$2 == "Collected" { print $4 }'
}

"$work/bench" --once >"$work/rows" || exit 1
echo 'call,table,library_instructions,twin_instructions,ratio'
while IFS=, read -r row table call; do
    of_library=$(instructions "scal_$call" "$row" "$table") && of_twin=$(instructions "twin_$call" "$row" "$table") || exit 1
    if [ -z "$of_library" ] || [ -z "$of_twin" ]; then
        echo "count.sh: callgrind counted nothing for $row on the table '$table'" >&2
        exit 1
    fi
    echo "$row,$table,$of_library,$of_twin,$(awk -v a="$of_library" -v b="$of_twin" 'BEGIN { printf "%.2f", a / b }')"
done <"$work/rows"
