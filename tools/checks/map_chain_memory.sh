#!/usr/bin/env bash
# Runs the tests of chains, and random calls of chains, under valgrind: every block of memory must be freed, once, and
# none be read or written where nothing lies. First with all the memory that is asked for, over 20,000 pairs, or as many
# as the one word says; then each test, and calls over 300 pairs, again for each allocation with that one refused. Needs
# valgrind, a C compiler, and `rt` on the path, which proves both programs first.
set -euo pipefail
# shellcheck source-path=SCRIPTDIR source=../common/script.sh
. "$(dirname "${BASH_SOURCE[0]}")/../common/script.sh"
pairs=${1:-20000}
few=300
proved table_tests test
proved bench run
bench=$(built bench)
tests=$root/crates/table_tests/out/table_tests_tests

# Refuses the allocation whose number REFUSE says, in the program that PROGRAM names, and then makes the file REFUSED.
cat > "$work/refuse.c" <<'C'
#define _GNU_SOURCE
#include <dlfcn.h>
#include <errno.h>
#include <fcntl.h>
#include <stdlib.h>
#include <string.h>
#include <unistd.h>
static unsigned long asked;
static int is_refused(void) {
    const char *program = getenv("PROGRAM"), *number = getenv("REFUSE"), *path = getenv("REFUSED");
    if (!program || !number || !path || strcmp(program, program_invocation_short_name) != 0)
        return 0;
    if (++asked != strtoul(number, 0, 10))
        return 0;
    close(creat(path, 0666));
    return 1;
}
void *malloc(size_t size) {
    static void *(*next)(size_t);
    if (!next)
        next = (void *(*)(size_t)) dlsym(RTLD_NEXT, "malloc");
    return is_refused() ? 0 : next(size);
}
void *realloc(void *old, size_t size) {
    static void *(*next)(void *, size_t);
    if (!next)
        next = (void *(*)(void *, size_t)) dlsym(RTLD_NEXT, "realloc");
    return is_refused() ? 0 : next(old, size);
}
C
cc -O2 -shared -fPIC -o "$work/refuse.so" "$work/refuse.c" -ldl

# Runs a program under valgrind with an allocation refused, or none at 0.
run() {
    local number=$1 program=$2 status=0
    shift
    rm -f "$work/refused"
    PROGRAM=$(basename "$program") REFUSE=$number REFUSED=$work/refused LD_PRELOAD=$work/refuse.so \
        valgrind -q --soname-synonyms=somalloc=nouserintercepts --leak-check=full --show-leak-kinds=all \
        --errors-for-leak-kinds=all --error-exitcode=42 "$@" > "$work/output" 2>&1 || status=$?
    if [ "$status" = 42 ] || [ "$status" -ge 128 ] || { [ "$number" = 0 ] && [ "$status" != 0 ]; }; then
        echo "$* with allocation $number refused: status $status"
        cat "$work/output"
        exit 1
    fi
}

# Refuses each allocation of a program in turn, until it asks for no more.
refuse_each() {
    local number=0
    run 0 "$@"
    while number=$((number + 1)); run "$number" "$@"; [ -e "$work/refused" ]; do :; done
    echo "$(basename "$1") ${2:-}: $((number - 1)) allocations refused in turn, nothing lost"
}

run 0 "$bench" map_chain "$pairs"
echo "$(basename "$bench") map_chain $pairs: nothing lost"
for test in $("$tests" --list | sed -n 's/^\(chain_tests::.*\): test$/\1/p'); do
    refuse_each "$tests" "$test"
done
refuse_each "$bench" map_chain "$few"
