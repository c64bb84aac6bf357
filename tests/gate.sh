#!/usr/bin/env bash
# The whole gate: the proofs, then the tests beside them. The last line is 'N passed, M failed'.
set -u
cd "$(dirname "$0")/.." || exit 1
passed=0
failed=0

# A command whose last line counts what passed and what failed; anything else it ends with is a failure.
count() {
    local log status last
    log=$(mktemp)
    "$@" 2>&1 | tee "$log"
    status=${PIPESTATUS[0]}
    last=$(tail -n 1 "$log")
    rm -f "$log"
    if [[ $last =~ ^([0-9]+)\ passed,\ ([0-9]+)\ failed$ ]]; then
        passed=$((passed + BASH_REMATCH[1]))
        failed=$((failed + BASH_REMATCH[2]))
        [ "$status" -eq 0 ] || [ "${BASH_REMATCH[2]}" -ne 0 ] || failed=$((failed + 1))
    else
        failed=$((failed + 1))
    fi
}

# rt passes over a must-fail edit that no longer fits the text: its line 'rt: ok' then ends in ', N bad'.
proofs() {
    local log status
    log=$(mktemp)
    rt ci 2>&1 | tee "$log"
    status=${PIPESTATUS[0]}
    if grep -Eq '^rt: ok.*, [0-9]+ bad' "$log"; then
        echo "FAILED: a must-fail edit is bad"
        echo "0 passed, 1 failed"
        status=1
    fi
    rm -f "$log"
    return "$status"
}

count proofs
make build/cgrun || failed=$((failed + 1))
count python3 tests/guide.py --check
count python3 tests/ruled_out.py
count python3 tests/papers.py
count sh tests/run.sh build/cgrun
count sh tests/tool.sh build/cgrun
count bash tests/pipe.sh build/cgrun tests/second/target/release/second
count python3 tests/lines.py build/cgrun tests/second/target/release/second
count sh tests/host.sh
count python3 docs/check_rules.py build/cgrun build/libcg.a
count cargo run --manifest-path tests/driver/Cargo.toml --release --offline --quiet
echo "$passed passed, $failed failed"
[ "$failed" -eq 0 ]
