#!/usr/bin/env bash
# What the gate runs behind the proofs: builds the archive, sees that the header, the example and an installed copy fit it, and compares it
# with its twin in C and with the second program, whose own tests it runs. Each check is one line, 'ok - ..' or 'not ok - ..'; what a failed
# one said goes to standard error. The last line is the tally 'N passed, M failed'.
set -u -o pipefail
export LC_ALL=C
cd "$(dirname "$0")/.." || exit 2
work=$(mktemp -d) || exit 2
trap 'rm -rf "$work"' EXIT

archive=target/staticlib/libscaltrovina.a
prefix="$work/a & b|c\\d"
strict=(-Wall -Wextra -Wpedantic -Werror)
passed=0
failed=0

check() { # WHAT COMMAND..
    local what=$1
    shift
    if "$@" >"$work/said" 2>&1; then
        echo "ok - $what"
        passed=$((passed + 1))
    else
        echo "not ok - $what"
        cat "$work/said" >&2
        failed=$((failed + 1))
    fi
}

# Begins a command whose check stands further below.
declare -A begun
begin() { # NAME COMMAND..
    local name=$1
    shift
    "$@" >"$work/$name.said" 2>&1 &
    begun[$name]=$!
}

ended() { # NAME
    local status=0
    wait "${begun[$1]}" || status=$?
    cat "$work/$1.said"
    return "$status"
}

# An archive of an earlier run proves nothing, so it goes first.
archive_is_built() {
    rm -f "$archive"
    rt all check --jobs "$(nproc)" && (cd crates/scaltrovina && rt lib) && mkdir -p "${archive%/*}" && cp crates/scaltrovina/out/libscaltrovina.a "$archive"
}

header_stands_alone() { # COMPILER STANDARD SUFFIX
    echo '#include <scaltrovina.h>' >"$work/header.$3" || return 1
    "$1" "-std=$2" "${strict[@]}" -Iinclude -c -o "$work/header.o" "$work/header.$3"
}

names_have_their_numbers() {
    "${CC:-cc}" -std=c99 "${strict[@]}" -Iinclude -o "$work/fields" tests/fields.c "$archive" && "$work/fields"
}

example_says_its_text() {
    make -s --no-print-directory example >"$work/line.out" && diff examples/line.out "$work/line.out"
}

# The three files that are installed, and no other.
installed() { # FOLDER
    (cd "$1" && find . -type f | sort) >"$work/installed" &&
        printf './%s\n' include/scaltrovina.h lib/libscaltrovina.a lib/pkgconfig/scaltrovina.pc | diff - "$work/installed"
}

prefix_is_filled() {
    make -s install PREFIX="$prefix" DESTDIR= && installed "$prefix"
}

stage_is_filled() {
    make -s install PREFIX=/usr DESTDIR="$work/stage" && installed "$work/stage/usr" &&
        grep -x 'prefix=/usr' "$work/stage/usr/lib/pkgconfig/scaltrovina.pc"
}

package() { # ARGUMENT..
    PKG_CONFIG_PATH='' PKG_CONFIG_LIBDIR="$prefix/lib/pkgconfig" pkg-config "$@" scaltrovina
}

write_program() { # FILE
    cat >"$1" <<'END'
#include <scaltrovina.h>
#include <stdio.h>

int main(void)
{
    static uint8_t table[SCAL_TABLE_LENGTH];

    if (scal_table_length() != sizeof table || scal_open(table, sizeof table, SCAL_TENANT_MAX, SCAL_LINE_MAX) != SCAL_ACCEPTED)
        return 1;
    puts(SCAL_VERSION_STRING);
    return 0;
}
END
}

# A program outside the repository, with the flags of the installed package as a shell reads them, says the package's version.
program_runs() { # COMPILER STANDARD SUFFIX
    local flags version said
    flags=$(package --cflags --libs --static) && version=$(package --modversion) && [ -n "$version" ] || return 1
    eval "flags=($flags)" && write_program "$work/program.$3" || return 1
    (cd "$work" && "$1" "-std=$2" "${strict[@]}" -o program "program.$3" "${flags[@]}") && said=$("$work/program") || return 1
    [ "$said" = "$version" ] || { echo "the program says '$said', the package '$version'"; return 1; }
}

# The global symbols of the archive are the calls of the header, functions all of them.
header_is_defined() {
    nm -g --defined-only "$archive" >"$work/symbols" || return 1
    awk 'NF == 3 { print $2, $3 }' "$work/symbols" | sort >"$work/defined" || return 1
    sed -nE 's/^uint64_t (scal_[a-z_]+)\(.*/T \1/p' include/scaltrovina.h | sort | diff - "$work/defined"
}

# What no member of the archive defines is one of three functions of the C library.
rest_is_defined() {
    nm -g --defined-only "$archive" >"$work/symbols" && nm -u "$archive" >"$work/wanted" || return 1
    { awk 'NF == 3 { print $3 }' "$work/symbols" && printf '%s\n' memcpy memmove memset; } | sort -u >"$work/defined" || return 1
    awk 'NF == 2 { print $2 }' "$work/wanted" | sort -u | comm -23 - "$work/defined" >"$work/undefined" || return 1
    cat "$work/undefined"
    [ ! -s "$work/undefined" ]
}

# The comparison of bench.c, without its times.
twin_agrees() {
    "${CC:-cc}" -std=c99 "${strict[@]}" -O3 -Iinclude -o "$work/bench" tests/bench/bench.c tests/bench/twin.c "$archive" &&
        "$work/bench" --rounds 0
}

# Rust's installer puts cargo into a folder that a plain PATH may not have.
PATH=$PATH:${CARGO_HOME:-${HOME:-}/.cargo}/bin

rust() { # COMMAND FOLDER ARGUMENT..
    local command=$1 folder=$2
    shift 2
    CARGO_TARGET_DIR="$PWD/target/cargo" cargo "$command" --offline -q --manifest-path "$folder/Cargo.toml" "$@"
}

# What the comparison says is shown below its line, agreed or not.
programs_agree() {
    rust run tests/compare --release >"$work/compared"
}

begin reference rust test reference
check 'the archive is proved and built' archive_is_built
begin twin twin_agrees
check 'the header stands alone in C99' header_stands_alone "${CC:-cc}" c99 c
for standard in c++11 c++14 c++17 c++20; do
    check "the header stands alone in ${standard^}" header_stands_alone "${CXX:-c++}" "$standard" cc
done
check 'the header has the exported functions and their bounds' env PYTHONDONTWRITEBYTECODE=1 python3 tests/prototypes.py
check 'the archive defines the calls of the header and nothing else' header_is_defined
check 'the archive needs memcpy, memmove and memset at most' rest_is_defined
check 'the fields and enumerations of the header have their numbers' names_have_their_numbers
check 'the example is built in strict C99 and says what examples/line.out has' example_says_its_text
check 'an empty prefix with a blank, &, | and \ in its name is filled by make install' prefix_is_filled
check 'a staged install keeps its prefix' stage_is_filled
check 'a C program runs with the flags of pkg-config' program_runs "${CC:-cc}" c99 c
check 'a C++ program runs with the flags of pkg-config' program_runs "${CXX:-c++}" c++11 cc
check 'the library and the second program agree' programs_agree
sed 's/^/    /' "$work/compared"
check 'the twin in C answers as the library does' ended twin
check 'the second program passes its own tests' ended reference
echo "$passed passed, $failed failed"
[ "$failed" -eq 0 ]
