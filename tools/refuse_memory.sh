#!/bin/sh
# Refuses each request for memory of the program in turn, and holds what it answers against the right answers.
#
#   tools/refuse_memory.sh [INPUT ANSWERS]
#
# INPUT holds request lines and ANSWERS their answer lines: with no arguments the files stdin and stdout of
# crates/bikeshare, the first three lines of the tour. The program is built first, where it isn't; with BIKESHARE=FILE in the
# environment that file is run as it is. A C compiler, cc, builds the wrapper of malloc that refuses.
#
# The program is run once for each request for memory that it makes where none is refused: the n-th run refuses the n-th
# request alone, and another the n-th with all after it. A run is right where it
#   - answers each line, says nothing else and ends with status 0, or
#   - answers the lines of a front and then names the want: 'out of memory' and status 4, or, where memory was refused inside
#     the store, 'store failed' and status 3.
# Where every run is right the last line is 'N requests for memory refused in turn: every answer right or a want of memory',
# and the status 0. The first run that isn't is shown, and the status is 1; it is 2 where nothing could be tried.
set -u
top=$(cd "$(dirname "$0")/.." && pwd) || exit 2
input=${1:-$top/crates/bikeshare/stdin}
answers=${2:-$top/crates/bikeshare/stdout}
program=${BIKESHARE:-$top/crates/bikeshare/out/bikeshare}
room=$(mktemp -d) || exit 2
trap 'rm -rf "$room"' EXIT
trap 'exit 2' HUP INT TERM

stop() {
    echo "refuse_memory: $1" >&2
    exit 2
}

if [ -z "${BIKESHARE:-}" ]; then
    (cd "$top/crates/bikeshare" && rt run <stdin) >"$room/built" 2>&1 || { cat "$room/built" >&2; stop "the program is not built"; }
fi

# REFUSE_FROM and REFUSE_TO are the first and the last request that is refused. What it does is written to file descriptor 3:
# 'refused' for each refusal, and at the end the count of requests.
cat >"$room/refuse.c" <<'C'
#define _GNU_SOURCE
#include <dlfcn.h>
#include <errno.h>
#include <stdio.h>
#include <stdlib.h>
#include <unistd.h>

static void *(*real_malloc)(size_t);
static void *(*real_calloc)(size_t, size_t);
static void *(*real_realloc)(void *, size_t);
static long first, last, count;
static int counts;

static void find(void)
{
    real_malloc = dlsym(RTLD_NEXT, "malloc");
    real_calloc = dlsym(RTLD_NEXT, "calloc");
    real_realloc = dlsym(RTLD_NEXT, "realloc");
}

static void tell(const char *text, int length)
{
    if (write(3, text, length) != length)
        _exit(99);
}

__attribute__((constructor)) static void begin(void)
{
    const char *from = getenv("REFUSE_FROM"), *to = getenv("REFUSE_TO");
    find();
    first = from ? atol(from) : 0;
    last = to ? atol(to) : 0;
    counts = 1;
}

__attribute__((destructor)) static void finish(void)
{
    char text[32];
    int length;
    counts = 0;
    length = snprintf(text, sizeof text, "%ld\n", count);
    tell(text, length);
}

static int refuses(void)
{
    if (!counts || ++count < first || count > last)
        return 0;
    tell("refused\n", 8);
    errno = ENOMEM;
    return 1;
}

void *malloc(size_t size)
{
    if (!real_malloc)
        find();
    return refuses() ? NULL : real_malloc(size);
}

void *calloc(size_t items, size_t size)
{
    if (!real_calloc)
        find();
    return refuses() ? NULL : real_calloc(items, size);
}

void *realloc(void *old, size_t size)
{
    if (!real_realloc)
        find();
    return refuses() ? NULL : real_realloc(old, size);
}
C
cc -O2 -shared -fPIC -o "$room/refuse.so" "$room/refuse.c" -ldl || stop "cc doesn't build the wrapper"

# Runs the program while the requests from $1 to $2 are refused.
run() {
    timeout 60 env REFUSE_FROM="$1" REFUSE_TO="$2" LD_PRELOAD="$room/refuse.so" "$program" \
        <"$input" >"$room/out" 2>"$room/err" 3>"$room/told"
    status=$?
}

# Whether the output is the answers to a front of the input, as far as its last line feed and no further.
answers_front() {
    head -n "$(wc -l <"$room/out")" "$answers" | cmp -s - "$room/out"
}

# Whether the last run is right.
is_right() {
    case $status in
    0) cmp -s "$answers" "$room/out" && [ ! -s "$room/err" ] ;;
    3) answers_front && [ "$(cat "$room/err")" = "store failed" ] ;;
    4) answers_front && [ "$(cat "$room/err")" = "out of memory" ] ;;
    *) false ;;
    esac
}

run 0 0
[ "$status" = 0 ] && is_right || stop "the program doesn't give these answers where no memory is refused"
total=$(tail -n 1 "$room/told")
[ "$total" -gt 0 ] || stop "the program was not seen to ask for memory"

for last in alone all; do
    answered=0
    failed=0
    wanted=0
    n=1
    while [ "$n" -le "$total" ]; do
        if [ "$last" = alone ]; then run "$n" "$n"; else run "$n" 999999999; fi
        if ! grep -q refused "$room/told"; then
            echo "request $n ($last): nothing was refused" >&2
            exit 1
        fi
        if ! is_right; then
            echo "request $n ($last): neither the answers nor a want of memory: status $status, output and message:" >&2
            cat "$room/out" "$room/err" >&2
            exit 1
        fi
        case $status in
        0) answered=$((answered + 1)) ;;
        3) failed=$((failed + 1)) ;;
        4) wanted=$((wanted + 1)) ;;
        esac
        n=$((n + 1))
    done
    if [ "$last" = alone ]; then what="each alone"; else what="each with all after it"; fi
    echo "$what: $answered runs answered every line, $failed ended with 'store failed', $wanted with 'out of memory'" >&2
done
echo "$total requests for memory refused in turn: every answer right or a want of memory"
