# What every test of tests/NAME/run begins with; it reads this file by `.` first. A test needs the
# kit's rt, bash and the usual tools, and what is missing beyond them it says. Its last line is
# 'N passed, M failed', and its exit status is 0 if none failed (finish).
# shellcheck shell=bash disable=SC2034 # what is set here the tests use
set -u
here=$(cd "$(dirname "$0")" && pwd -P)
root=$(cd "$here/../.." && pwd -P)
room=$(mktemp -d) || exit 2
trap 'rm -rf "$room"' EXIT
passed=0 failed=0

pass() { passed=$((passed + 1)); }
fail() { # WORDS..: what failed
    failed=$((failed + 1))
    printf 'FAILED %s\n' "$*"
}
report() { # NAME STATUS
    if [ "$2" -eq 0 ]; then pass; else fail "$1"; fi
}
# Whether a call wrote to $room/out and $room/err what these two files have; if not, where it begins
# to differ.
as_wanted() { # NAME OUT ERR
    if cmp -s "$room/out" "$2" && cmp -s "$room/err" "$3"; then pass; else
        fail "$1"
        diff "$2" "$room/out" | head -n 5
        diff "$3" "$room/err" | head -n 5
    fi
}
# What a program that counts by itself wrote to $room/out: its lines, and its last one added.
add_counts() {
    local p f
    grep -v ' passed, ' "$room/out"
    read -r p _ f _ < <(tail -n 1 "$room/out")
    passed=$((passed + ${p:-0})) failed=$((failed + ${f:-1}))
}
finish() {
    printf '%d passed, %d failed\n' "$passed" "$failed"
    [ "$failed" -eq 0 ]
    exit
}
die() { # WORDS..: why nothing more can be tried
    fail "$@"
    finish
}

# The programs are there before they are compared and timed.
build() { # NAME..
    "$root/run" --build "$@" >"$room/said" 2>&1 || cat "$room/said"
}
# Where the kit's tools are, and its llvm-nm. `emulator` and `runs` stand before a program of C and
# before one that was built here, without its launcher: the kit has no emulator, and both run as they
# are.
kit() {
    tools=$(dirname "$(rt doc)")/toolchain
    emulator=()
    runs=()
}
kit_nm() { (exec -a llvm-nm "$tools/bin/clang" "$@"); } # WORDS..
# The C library, target/staticlib/libabi.a.
library() {
    "$root/run" --library >"$room/log" 2>&1 || { cat "$room/log"; die 'the library for C is not built'; }
}
# A C program with the kit's own compiler, $room/NAME.
compile() { # NAME WORDS..
    "$root/bench/kit-cc" -O2 -Wall -Wextra -Werror -o "$room/$1" "${@:2}" || die "$1 does not compile"
}
