#!/bin/sh
# Builds cgtool and compares it with the second implementation's program `tool`:
#
#   tests/tool.sh PROGRAM
#
# PROGRAM is cgrun, which must accept the form of every line of every load, and list the nodes that a
# page is read back as. The last line is 'N passed, M failed'.

tests=$(cd "$(dirname "$0")" && pwd) || exit 1
tool=$tests/../build/cgtool
second=$tests/second/target/release/tool
scribe=$tests/second/target/release/scribe
program=${1:?'usage: tests/tool.sh PROGRAM'}
work=$(mktemp -d) || exit 1
trap 'rm -rf "$work"' EXIT

passed=0
failed=0
pass() { passed=$((passed + 1)); }
fail() { failed=$((failed + 1)); echo "FAILED: $*"; }
end() {
    echo "$passed passed, $failed failed"
    [ "$failed" -eq 0 ]
    exit
}

unset CARGO_TARGET_DIR
if ! (cd "$tests/second" && cargo build --release --offline --quiet); then
    fail "the second implementation's build"
    end
fi
if ! make -C "$tests/.." tool >"$work/said" 2>&1; then
    tail -n 20 "$work/said"
    fail "make tool"
    end
fi

: >"$work/nothing"
printf '%s\n' 'usage: cgtool load SEED COUNT' '       cgtool page <SCRIPT' '       cgtool nodes <PAGE' >"$work/usage"
printf '%s\n' 'call=pick start=18256 to=19,26,47,58,63' 'call=top start=38128 to=7,18,23,36,59' \
    'call=top start=20425 to=10,29,46' >"$work/seed0"
echo 'refused=46' >"$work/refused"

# ends STATUS ARGUMENT..: given the file $input, both programs end with the status and print the same; cgtool
# says the usage on standard error where the status is 2, and nothing elsewhere.
input=$work/nothing
name=nothing
given() { echo "$# arguments, '$(echo "$*" | cut -c1-60)', and as input $name"; }
ends() {
    status=$1
    shift
    "$second" "$@" <"$input" >"$work/expected" 2>"$work/nowhere"
    expected=$?
    "$tool" "$@" <"$input" >"$work/printed" 2>"$work/said"
    got=$?
    usage=nothing
    [ "$status" -ne 2 ] || usage=usage
    if [ "$got $expected" != "$status $status" ]; then
        fail "$(given "$@"): cgtool ends with $got, the second with $expected, not with $status"
    elif ! cmp -s "$work/expected" "$work/printed"; then
        fail "$(given "$@"): cgtool prints another text than the second"
    elif ! cmp -s "$work/$usage" "$work/said"; then
        fail "$(given "$@"): not the text on standard error"
    else
        pass
    fi
}

# printed FILE ARGUMENT..: what cgtool prints, as it stands in a file.
printed() {
    file=$1
    shift
    if "$tool" "$@" | cmp -s "$work/$file" -; then pass; else fail "cgtool $*: not what $file has"; fi
}

# equal NAME NUMBER EXPECTED
equal() {
    if [ "$2" -eq "$3" ]; then pass; else fail "$1: $2, not $3"; fi
}

printed seed0 load 0 3
printed refused load 0 65
printed nothing load 0 0

for seed in 0 1 4294967295; do
    for count in 0 1 63 64; do ends 0 load "$seed" "$count"; done
    for count in 65 4294967295; do ends 1 load "$seed" "$count"; done
done

digits16=1111111111111111
long=$(printf '%05000d' 1)
for word in 4294967296 07 00 +1 ' 1' '1 ' '' -1 1.0 0x1 one "$(printf '1\377')" "$(printf '1\n1')" "$digits16" "${digits16}1" "$long"; do
    ends 2 load "$word" 1
    ends 2 load 1 "$word"
    ends 2 load 1 1 "$word"
    ends 2 "$word" 1 1
    ends 2 page "$word"
    ends 2 nodes "$word"
    ends 2 "$word"
done

ends 2
ends 2 load
ends 2 load 1
ends 2 load 1 1 1
ends 2 1 1
ends 2 load 1 1 1 1
for verb in loa loads LOAD ' load' 'load '; do ends 2 "$verb" 1 1; done
for verb in pag pages PAGE ' page' 'page ' node nodess NODES ' nodes' 'nodes ' load; do
    ends 2 "$verb"
    ends 2 page "$verb"
    ends 2 nodes "$verb"
done
ends 2 page 1 1
ends 2 nodes 1 1
ends 2 page nodes
ends 2 nodes page
ends 2 load page
ends 2 load 1 nodes

# 10,000 seeds: small ones, and others spread over 32 bits.
{ seq 0 4999; seq 858993 858993 4294965000; } | sed 's/$/ 64/' >"$work/seeds"
xargs -L 1 "$second" load <"$work/seeds" >"$work/expected" &
xargs -L 1 "$tool" load <"$work/seeds" >"$work/loads"
wait
equal "loads" "$(wc -l <"$work/seeds")" 10000
equal "lines of the loads" "$(wc -l <"$work/loads")" 640000
if cmp "$work/expected" "$work/loads"; then pass; else fail "the loads of 10,000 seeds"; fi

# cgrun tests a line's form first: 10, 11, 12 and 40 come before 13, 14 and 15. It ends with the listing.
"$program" <"$work/loads" >"$work/printed"
equal "cgrun ends with" $? 0
equal "loads' lines of another form" "$(grep -c 'refused=\(10\|11\|12\|40\)$' "$work/printed")" 0
equal "lines accepted, or refused for want of room" \
    "$(awk '/ refused=1[345]$/ { n++ } /^nodes=/ { sub(/.* pending=/, ""); n += $0 } END { print n }' "$work/printed")" 640000

# README.md's example.
"$tool" load 0 64 >"$work/load"
{ cat "$work/load"; echo step=drain; } >"$work/drained"
echo 'nodes=0 results=0 pending=64' >"$work/head"
if "$program" <"$work/load" | cmp -s "$work/head" -; then pass; else fail "README.md's load"; fi
equal "nodes of README.md's load" "$("$program" <"$work/drained" | grep -c '^key=')" 10
equal "results of README.md's load" "$("$program" <"$work/drained" | grep -c '^label=')" 64

# page NAME FILE: of a script both print the same page, which is read back as the lines that cgrun lists for
# the nodes.
page() {
    name=$1
    input=$2
    ends 0 page
    mv "$work/printed" "$work/page"
    "$program" <"$2" | grep '^key=' >"$work/listed"
    if "$tool" page <"$2" | "$tool" nodes | cmp -s "$work/listed" -; then
        pass
    else
        fail "$1: the nodes of its page are not those that cgrun lists"
    fi
    name="the page of $1"
    input=$work/page
    ends 0 nodes
}

# script WORD..: the same of the script that printf makes of these words.
script() {
    printf "$@" >"$work/script"
    page "the script $*" "$work/script"
}

page "the example scene" "$tests/../examples/scene.txt"
for file in "$tests"/scripts/*.in; do page "${file##*/}" "$file"; done
for file in "$tests"/scripts/*.gen; do
    sh "$file" in >"$work/script"
    page "${file##*/}" "$work/script"
done
for random in '1 2000' '2 2000' '3 2000' '4 2000' '5 2000' '6 2000' '7 2000' '8 100000'; do
    "$scribe" $random >"$work/script"
    page "scribe $random" "$work/script"
done
page nothing "$work/nothing"
script '\n'
script 'call=add value=5\ncall=link key=1 to=1\nstep=drain'
script 'step=drain\ncall=add value=5'
script 'call=add value=5\nstep=drain\ncall=add value=5\nclaim=1'
script 'call=add value=5\r\nstep=drain\r\n'
# Lines of 255 bytes, of 256 and of more, and what stands before and after them.
for digits in 240 241 242 65520 65521 65522 200000; do
    script 'call=add value=5\nstep=drain\ncall=add value=%0*d' "$digits" 5
    script 'call=add value=5\nstep=drain\ncall=add value=%0*d\nstep=drain\ncall=add value=7\nstep=drain' "$digits" 5
done

# A page whose fields are as wide as they can be, and the page of no nodes.
{
    printf 'nodes%32d\n' 64
    seq 64 | sed 's/^.$/ &/; s/$/ 4294967295 10,20,30,40,50,60,64,64/'
} >"$work/greatest"
seq 64 | sed 's/.*/key=& value=4294967295 links=10,20,30,40,50,60,64,64/' >"$work/listed"
printf 'nodes%32d\n' 0 >"$work/empty"
equal "bytes of the greatest page" "$(wc -c <"$work/greatest")" 2470
name="the greatest page"
input=$work/greatest
ends 0 nodes
printed listed nodes <"$work/greatest"
name="the page of no nodes"
input=$work/empty
ends 0 nodes
printed nothing nodes <"$work/empty"
printed empty page <"$work/nothing"

# What comes in pieces is read to its end.
{ head -c 1 && sleep 0.1 && head -c 1000 && sleep 0.1 && cat; } <"$work/greatest" | "$tool" nodes >"$work/printed"
if cmp -s "$work/listed" "$work/printed"; then pass; else fail "the greatest page, in pieces"; fi
printf 'call=add value=5\nstep=drain' >"$work/script"
printf 'nodes%32d\n%2d %10d%24s\n' 1 1 5 '' >"$work/page"
{ head -c 12 && sleep 0.1 && head -c 14 && sleep 0.1 && cat; } <"$work/script" | "$tool" page >"$work/printed"
if cmp -s "$work/page" "$work/printed"; then pass; else fail "a script in pieces"; fi

# refuses NAME: the file bad is no page.
echo 'refused=35' >"$work/refused"
refuses() {
    name=$1
    input=$work/bad
    ends 1 nodes
    if cmp -s "$work/refused" "$work/printed"; then pass; else fail "$1: not refused with 35"; fi
}

# bad COUNT LINE..: a page of these lines, the blanks at their ends put in.
bad() {
    count=$1
    shift
    { printf 'nodes%32s\n' "$count" && printf '%-37s\n' "$@"; } >"$work/bad"
    refuses "a page, count '$count', lines '$*'"
}

good=' 9          5 1,64'
for count in 0 2 01 +1 '1 ' '1 1' '' 4294967297 18446744073709551617; do bad "$count" "$good"; done
bad 2 "$good" "$good"
bad 1 ' 0          5 1,64'
bad 1 '65          5 1,64'
bad 1 '09          5 1,64'
bad 1 '9           5 1,64'
bad 1 '            5 1,64'
bad 1 ' 9 4294967296 1,64'
bad 1 ' 9         05 1,64'
bad 1 ' 9 5          1,64'
bad 1 ' 9            1,64'
bad 1 ' 9         -5 1,64'
bad 1 ' 9        1 5 1,64'
bad 1 ' 9          5 1,2,3,4,5,6,7,8,9'
bad 1 ' 9          5 0'
bad 1 ' 9          5 1,65'
bad 1 ' 9          5 01'
bad 1 ' 9          5 1,'
bad 1 ' 9          5 ,1'
bad 1 ' 9          5 1,,2'
bad 1 ' 9          5 1, 2'
bad 1 ' 9          5  1'
bad 1 ' 9,         5 1'
bad 1 ' 9          5,1'
bad 1 ''
bad 1 'key=9 value=5 links=1,64'

# of NAME COMMAND..: what the command prints of the greatest page is no page.
of() {
    named=$1
    shift
    "$@" <"$work/greatest" >"$work/bad"
    refuses "$named"
}
followed() { cat && printf "$@"; }
of "nothing" head -c 0
of "no last newline" head -c 2469
of "no first byte" tail -c 2469
of "no head" tail -n 64
of "the head alone" head -n 1
of "the last line missing" head -n 64
of "the page twice" cat "$work/greatest" -
of "lines sorted" sort
of "carriage returns" sed 's/$/\r/'
of "spread apart" sed G
for byte in '\n' ' ' '\0' x; do of "a byte more" followed "$byte"; done
of "100 kB more" followed '%0100000d' 0
{
    printf 'nodes%32d\n' 2600
    seq 2600 | sed 's/.*/ 9          5                        /'
} >"$work/bad"
refuses "2,600 nodes"
if timeout 10 "$tool" nodes </dev/zero | cmp -s "$work/refused" -; then pass; else fail "an input without end"; fi

for words in 'load 0 3' page nodes; do
    "$tool" $words <"$work/greatest" >/dev/full
    equal "where nothing can be written, cgtool $words ends with" $? 1
done

end
