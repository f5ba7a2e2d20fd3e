#!/usr/bin/env bash
# Refuses each request for memory or a thread in turn, and wants `K23 out of memory`, status 4 and a beginning of the output,
# or all of it and status 0; and runs what is large, or nothing at all, with no refusal, which is no want of memory. Silent where
# all holds.
set -u
cd "$(dirname "$0")/.." || exit 1
work=$(mktemp -d) || exit 1
trap 'rm -rf "$work"' EXIT
fault() { printf '%s\n' "$1"; exit 1; }

./ompk --help >/dev/null || fault 'the program is not built'
program=crates/ompk_cli/out/ompk_cli
gcc -O1 -shared -fPIC -o "$work/refuse.so" tests/fail_nth_allocation.c -ldl || fault 'no library that refuses memory'

# What stands in the first file is a beginning of the second.
begins() { cmp -s -n "$(stat -c %s "$1")" "$1" "$2"; }

# The words of a run, and the file of all that it writes.
refuse_each() {
    local all=$1 request status
    shift
    for request in $(seq 1 100000); do
        rm -f "$work/note"
        FAIL_REQUEST=$request FAIL_NOTE=$work/note LD_PRELOAD=$work/refuse.so "$program" "$@" >"$work/out" 2>"$work/err"
        status=$?
        case $status in
        0) cmp -s "$work/out" "$all" || fault "$*: request $request: status 0 with other output" ;;
        4)
            [ "$(cat "$work/err")" = 'K23 out of memory' ] || fault "$*: request $request: status 4 with $(cat "$work/err")"
            begins "$work/out" "$all" || fault "$*: request $request: status 4 with other output"
            ;;
        *) fault "$*: request $request: status $status: $(cat "$work/err")" ;;
        esac
        if [ ! -e "$work/note" ]; then
            [ "$status" -eq 0 ] || fault "$*: status $status without a refusal"
            return
        fi
    done
    fault "$*: no run meets no refusal"
}

printf 'accepted\n' >"$work/accepted"
refuse_each "$work/accepted" check examples/increment.c
refuse_each examples/increment.out run examples/increment.c --input examples/increment.in --workers 1
refuse_each examples/increment.out run examples/increment.c --input examples/increment.in --workers 3
refuse_each examples/powers.out run examples/powers.c --workers 3
"$program" lower examples/powers.c >"$work/listed" || fault 'no listing'
refuse_each "$work/listed" lower examples/powers.c

# A run that ends well.
succeed() { "$program" "$@" >"$work/out" 2>"$work/err" || fault "$*: status $?: $(cat "$work/err")"; }

# A kernel over `A` and `B` of so many elements, whose body comes from standard input.
kernel() { printf 'uint64_t A[%d];\nuint64_t B[%d];\nvoid kernel(void) {\n%s\n}\n' "$1" "$1" "$(cat)" >"$work/$2.c"; }

kernel 8 nothing <<'C'
#pragma omp parallel for schedule(dynamic, 1)
for (uint64_t i = 0; i < 0; i++) { A[i] = i; }
C
succeed run "$work/nothing.c" --workers 3

kernel 262144 large <<<''
printf 'A%s\n' "$(yes ' 1234567' | head -n 262144 | tr -d '\n')" >"$work/large.in"
[ "$(stat -c %s "$work/large.in")" -gt 2097152 ] || fault 'the large input is too small'
succeed run "$work/large.c" --input "$work/large.in"
succeed seq "$work/large.c" --input "$work/large.in"

# A text of 1 MiB, as long as one may be.
head=$'uint64_t A[8];\nvoid kernel(void) {\n' tail=$'\nA[0] = 1;\n}\n'
printf '%s/*%*s*/%s' "$head" $((1048576 - ${#head} - ${#tail} - 4)) '' "$tail" >"$work/long.c"
[ "$(stat -c %s "$work/long.c")" -eq 1048576 ] || fault 'the long text is not 1 MiB long'
succeed seq "$work/long.c"

# A body of 4,000 accesses, of which each of one array is tested with each other.
kernel 8 wide < <(
    printf '#pragma omp parallel for\nfor (uint64_t i = 0; i < 8; i++) {\n'
    yes 'A[i] = B[i];' | head -n 2000
    printf '}\n'
)
succeed run "$work/wide.c" --workers 3
