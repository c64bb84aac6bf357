#!/usr/bin/env bash
# How long programs that behave like cgrun take for large inputs:
#
#   tests/speed.sh PROGRAM..
#
# For each PROGRAM: the seconds, best of three runs, for 20,000,000 empty lines, for one line of
# 100,000,000 bytes and for 100,000 random lines, each from a file to /dev/null. No test and not
# in the gate, since the times are those of the machine and of what else it does.
set -u
tests=$(cd "$(dirname "$0")" && pwd) || exit 1
scribe=$tests/second/target/release/scribe
work=$(mktemp -d) || exit 1
trap 'rm -rf "$work"' EXIT
TIMEFORMAT=%R

if [ $# -eq 0 ]; then
    echo 'usage: tests/speed.sh PROGRAM..' >&2
    exit 2
fi
unset CARGO_TARGET_DIR
(cd "$tests/second" && cargo build --release --offline --quiet) || exit 1

yes '' | head -n 20000000 >"$work/empty"
head -c 100000000 /dev/zero | tr '\0' x >"$work/long"
"$scribe" 1 100000 >"$work/random"

# best PROGRAM INPUT: the seconds of the fastest of three runs, or 'failed'.
best() {
    for run in 1 2 3; do
        { time "$1" <"$2" >/dev/null 2>&1 || echo failed >&2; } 2>&1
    done | sort -n | head -n 1
}

printf '%-40s %12s %12s %12s\n' 'seconds' 'empty lines' '100 MB line' 'random lines'
status=0
for name in "$@"; do
    program=$(command -v "$name") || { echo "no program $name" >&2; status=1; continue; }
    printf '%-40s %12s %12s %12s\n' "$name" \
        "$(best "$program" "$work/empty")" "$(best "$program" "$work/long")" "$(best "$program" "$work/random")"
done
exit "$status"
