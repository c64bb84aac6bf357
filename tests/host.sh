#!/bin/sh
# Tests what a studio links: the libraries, the header, the example hosts (examples/host.c and the one in
# README.md), a host that prints a page, the installation; and builds cgtool and the driver. The last line is
# 'N passed, M failed'.

cd "$(dirname "$0")/.." || exit 1
work=$(mktemp -d) || exit 1
trap 'rm -rf "$work"' EXIT
unset CARGO_TARGET_DIR

passed=0
failed=0

# try NAME COMMAND..: the command must succeed; what it says is told only if it doesn't.
try() {
    name=$1
    shift
    if "$@" >"$work/said" 2>&1; then
        passed=$((passed + 1))
    else
        failed=$((failed + 1))
        echo "FAILED: $name"
        tail -n 20 "$work/said"
        return 1
    fi
}

exports() {
    nm -D --defined-only build/libcg.so | awk '{ print $3 }' | sort >"$work/exports"
    printf 'cg_%s\n' call claim list load open page page_nodes step | cmp - "$work/exports"
}

# In the objects that libcg.a is made of, all other functions are local.
globals() { nm -g --defined-only build/libcg.a | awk 'NF == 3 { print $3 }' | sort | cmp - "$work/exports"; }

# example COMMAND..: runs the example host, which must print what it always prints.
example() {
    "$@" >"$work/printed" && diff examples/host.out "$work/printed"
}

installed() {
    make install PREFIX="$work/prefix" &&
        flags=$(PKG_CONFIG_PATH="$work/prefix/lib/pkgconfig" pkg-config --cflags --libs cg) &&
        gcc examples/host.c $flags -o "$work/installed" &&
        LD_LIBRARY_PATH="$work/prefix/lib" example "$work/installed" &&
        "$work/prefix/bin/cgtool" load 0 0
}

# block INFO: the first fenced block of README.md that opens with this word.
block() {
    awk -v open="\`\`\`$1" '$0 == open { on = 1; next } on && /^```$/ { exit } on' README.md
}

# The host in README.md must compile, find each answer that it expects, and print the text below it.
readme() {
    block c >"$work/readme.c" && block text >"$work/readme.out" && [ -s "$work/readme.out" ] &&
        gcc -std=c99 $warnings "$work/readme.c" build/libcg.a -o "$work/readme" &&
        "$work/readme" >"$work/printed" && diff "$work/readme.out" "$work/printed"
}

# A host that prints a page and what it is read back as, and finds both refusals.
cat >"$work/page.c" <<'END'
#include <stdio.h>
#include "cg.h"

int main(void) {
    static uint8_t image[CG_IMAGE_BYTES], page[CG_PAGE_BYTES], nodes[CG_NODES_BYTES];
    static const uint8_t frame[] = "call=add value=5\ncall=link key=64 to=1\nstep=drain\n";
    static cg_tally tally;
    int64_t length, read;

    cg_open(image, sizeof image);
    cg_call(image, sizeof image, frame, sizeof frame - 1, 0);
    cg_call(image, sizeof image, frame, sizeof frame - 1, 17);
    cg_step(image, sizeof image, frame, sizeof frame - 1, 39, &tally);
    length = cg_page(image, sizeof image, page, sizeof page);
    read = cg_page_nodes(page, (size_t)length, nodes, sizeof nodes);
    printf("%.*s%.*s", (int)length, (const char *)page, (int)read, (const char *)nodes);
    return cg_page(image, sizeof image, page, (size_t)length - 1) != -CG_PAGE_ROOM ||
           cg_page_nodes(page, (size_t)length, nodes, (size_t)read - 1) != -CG_PAGE_ROOM ||
           cg_page_nodes(page, (size_t)length - 1, nodes, 0) != -CG_BAD_PAGE;
}
END
printf 'nodes%32d\n%2d %10d %-23s\n%s\n' 1 1 5 64 'key=1 value=5 links=64' >"$work/page.out"

# page COMPILER..: compiles it and runs it under valgrind.
page() {
    "$@" $warnings "$work/page.c" -x none build/libcg.a -o "$work/page" &&
        valgrind --quiet --error-exitcode=1 "$work/page" >"$work/printed" && diff "$work/page.out" "$work/printed"
}

try "make lib" make lib
try "make tool" make tool
try "libcg.so exports the eight functions and nothing else" exports
try "libcg.a has the same global functions" globals

warnings="-Wall -Wextra -Wpedantic -Werror -Iinclude"
try "host.c with gcc" gcc -std=c99 $warnings examples/host.c build/libcg.a -o "$work/c" &&
    try "host.c, run" example "$work/c"
try "host.c with g++" g++ $warnings -x c++ examples/host.c -x none build/libcg.a -o "$work/cpp" &&
    try "host.c with g++, run" example "$work/cpp"
try "host.c under valgrind" example valgrind --quiet --error-exitcode=1 --leak-check=full "$work/c"
try "host.c with what is installed" installed
try "the host in README.md" readme
try "a page with gcc" page gcc -std=c99
try "a page with g++" page g++ -x c++

cd tests/driver && try "the driver's build" cargo build --release --offline --quiet &&
    try "the driver under valgrind" valgrind --quiet --error-exitcode=1 target/release/driver seed 1

echo "$passed passed, $failed failed"
[ "$failed" -eq 0 ]
