#!/usr/bin/env bash
# Drives programs that behave like cgrun through pipes, line by line:
#
#   tests/pipe.sh PROGRAM..
#
# What is printed of a line must come before the next line is sent, however its bytes
# arrive. The last line is 'N passed, M failed'.
set -u
passed=0
failed=0

# pieces TEXT SIZE: sends the text in pieces of so many bytes, a moment apart.
pieces() {
    local text=$1 size=$2 at
    for ((at = 0; at < ${#text}; at += size)); do
        printf %s "${text:at:size}" >&"${program[1]}"
        sleep 0.001
    done
}

# line TEXT SIZE EXPECTED: sends a line in pieces and waits for what is printed of it.
line() {
    local answer=
    pieces "$1" "$2"
    printf '\n' >&"${program[1]}"
    if [ -n "$3" ]; then
        read -r -t 5 answer <&"${program[0]}"
    fi
    if [ "$answer" = "$3" ]; then
        passed=$((passed + 1))
    else
        failed=$((failed + 1))
        echo "FAILED: $name: '${1:0:40}' in pieces of $2: expected '$3', got '$answer'"
    fi
}

session() {
    local long
    long=$(printf '%0300d' 0)
    line 'call=add value=5' 1 ''
    line 'call=sum start=1 to=1,9' 3 ''
    line 'claim=2' 1 'line=3 refused=31'
    line 'step=drain' 1 ''
    line 'claim=2' 1 'label=2 value=6 left=9'
    line "$long" 1 'line=6 refused=10'
    line '' 1 'line=7 refused=10'
    line "$long$long" 257 'line=8 refused=10'
    line 'claim=1' 7 'label=1 value=1 left='
    line 'step=realise at=1' 2 'line=10 refused=21'
}

for name in "$@"; do
    coproc program { exec "$name"; }
    pid=$program_PID
    out=${program[0]}
    session
    # the end of the input: the listing, and no more
    exec {left}<&"$out"
    eval "exec ${program[1]}>&-"
    listing=$(timeout 5 cat <&"$left")
    exec {left}<&-
    wait "$pid" 2>/dev/null
    if [ "$listing" = $'nodes=1 results=0 pending=0\nkey=1 value=5 links=' ]; then
        passed=$((passed + 1))
    else
        failed=$((failed + 1))
        echo "FAILED: $name: the listing: '$listing'"
    fi
done

echo "$passed passed, $failed failed"
[ "$failed" -eq 0 ]
