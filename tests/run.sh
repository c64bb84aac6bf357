#!/bin/sh
# Builds the second implementation, runs its tests, compares it with the scripts, and a
# program with both:
#
#   tests/run.sh [PROGRAM]
#
# PROGRAM is to behave like cgrun. The last line is 'N passed, M failed'.
#
# For PROGRAM, SEEDS random scripts (20) of SCRIPT_LINES lines (2000) come after those in
# tests/scripts.

tests=$(cd "$(dirname "$0")" && pwd) || exit 1
second=$tests/second/target/release/second
scribe=$tests/second/target/release/scribe
work=$(mktemp -d) || exit 1
trap 'rm -rf "$work"' EXIT

passed=0
failed=0
pass() { passed=$((passed + 1)); }
fail() { failed=$((failed + 1)); echo "FAILED: $*"; }
end() {
    echo "$passed passed, $failed failed"
    [ "$failed" -eq 0 ]
    exit
}

unset CARGO_TARGET_DIR
in_second() { (cd "$tests/second" && cargo "$@" --offline --quiet); }

if ! in_second build --release; then
    fail "the second implementation's build"
    end
fi

# cargo prints one 'test result' for each file of tests, and stops after the first
# file with a failure unless told otherwise.
if in_second test --no-fail-fast >"$work/unit" 2>&1; then
    unit_status=0
else
    unit_status=1
    cat "$work/unit"
fi
unit_passed=$(awk '/^test result/ { sum += $4 } END { print sum + 0 }' "$work/unit")
unit_failed=$(awk '/^test result/ { sum += $6 } END { print sum + 0 }' "$work/unit")
passed=$((passed + unit_passed))
failed=$((failed + unit_failed))
if [ "$unit_status" -ne 0 ] && [ "$unit_failed" -eq 0 ]; then
    fail "the second implementation's tests do not build"
fi
echo "second implementation: $unit_passed tests passed, $unit_failed failed"

# compare NAME PROGRAM INPUT EXPECTED: the program's output for the input, byte for byte.
compare() {
    if ! "$2" <"$3" >"$work/got"; then
        fail "$1: $2 ends with an error"
    elif cmp -s "$4" "$work/got"; then
        pass
    else
        fail "$1: $2"
        diff "$4" "$work/got" | head -n 5
    fi
}

# scripts PROGRAM: the example that README.md explains, and every script of tests/scripts.
scripts() {
    compare "the example scene" "$1" "$tests/../examples/scene.txt" "$tests/../examples/scene.out"
    for input in "$tests"/scripts/*.in; do
        name=${input%.in}
        compare "$(basename "$name")" "$1" "$input" "$name.out"
    done
    for generator in "$tests"/scripts/*.gen; do
        sh "$generator" in >"$work/in"
        sh "$generator" out >"$work/out"
        compare "$(basename "$generator" .gen)" "$1" "$work/in" "$work/out"
    done
}

# random PROGRAM: scripts that nobody wrote, against the second implementation.
random() {
    seed=1
    while [ "$seed" -le "${SEEDS:-20}" ]; do
        "$scribe" "$seed" "${SCRIPT_LINES:-2000}" >"$work/in"
        "$second" <"$work/in" >"$work/out"
        compare "scribe $seed ${SCRIPT_LINES:-2000}" "$1" "$work/in" "$work/out"
        seed=$((seed + 1))
    done
}

scripts "$second"
if [ $# -gt 0 ]; then
    program=$1
    case $program in
        */*) ;;
        *) program=$(command -v "$program" || echo "./$program") ;;
    esac
    if [ ! -x "$program" ]; then
        fail "no program $program"
        end
    fi
    scripts "$program"
    random "$program"
fi

end
