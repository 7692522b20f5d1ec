#!/bin/sh
# Refuses each allocation of a run in turn: each such run has to end for want of memory, with nothing written, or as the
# run without refusals, byte for byte: std's sort goes on without a buffer where it gets none. How many allocations there
# are is counted in a first run.
# usage: tools/allocations.sh PROGRAM [FILE WORD..]     (an OBJ file and the program's words; else five runs of examples)
set -eu
root=$(dirname "$(dirname "$(readlink -f "$0")")")
program=$(readlink -f "${1:-$root/build/quadq}")
[ $# -eq 0 ] || shift
if ! command -v cc >/dev/null; then
    echo "allocations: there is no C compiler (cc), so no allocation is refused" >&2
    exit 0
fi
room=$(mktemp -d)
trap 'rm -rf "$room"' EXIT
cc -O2 -shared -fPIC -o "$room/failing.so" "$root/tools/failing_malloc.c"

fail() {
    echo "allocations: $text, $words: $1" >&2
    exit 1
}

# run NAME WORD..: the status of a run with the allocations watched; its streams go to files of that name.
run() {
    name=$1
    shift
    status=0
    LD_PRELOAD=$room/failing.so "$program" "$@" <"$text" >"$room/$name.out" 2>"$room/$name.err" || status=$?
}

# refuse_each FILE WORD..: the runs of these words on a file.
refuse_each() {
    text=$1
    shift
    words=$*
    plain=0
    "$program" "$@" <"$text" >"$room/plain.out" 2>"$room/plain.err" || plain=$?
    rm -f "$room/count"
    ALLOCATION_COUNT=$room/count run first "$@"
    [ -s "$room/count" ] || fail "the preload does nothing"
    count=$(cat "$room/count")
    [ "$count" -gt 0 ] || fail "no allocation was seen"
    [ "$status" -eq "$plain" ] || fail "watched, the run ends with $status in place of $plain"
    cmp -s "$room/first.out" "$room/plain.out" || fail "watched, the run writes something else"
    n=1
    spared=0
    while [ "$n" -le "$count" ]; do
        FAILING_ALLOCATION=$n run refused "$@"
        if [ "$status" -eq "$plain" ] && cmp -s "$room/refused.out" "$room/plain.out"; then
            spared=$((spared + 1))
        else
            [ "$status" -eq 14 ] || fail "number $n of $count was refused, and the status is $status"
            [ ! -s "$room/refused.out" ] || fail "number $n of $count was refused after output"
            # Want of memory for the words prints nothing, and else its line.
            line=$(cat "$room/refused.err")
            [ -z "$line" ] || [ "$line" = "quadq: out of memory" ] || fail "number $n of $count: the line is $line"
        fi
        n=$((n + 1))
    done
    echo "$words: each of $count allocations was refused in turn, $spared runs went on, and the others ended with 14"
}

if [ $# -gt 0 ]; then
    refuse_each "$@"
else
    refuse_each "$root/examples/cube_blender.obj" tidy
    refuse_each "$root/examples/notched_square.obj" graph
    refuse_each "$root/examples/cube.obj" remesh --scale 2/1 --floor auto --weight plain
    refuse_each "$root/examples/corner.obj" blocks --by 2
    marked=$root/examples/marked_grid.obj
    {
        cat "$marked"
        "$program" crease --scale 1/2 --floor 1 --weight plain <"$marked"
    } >"$room/pair.obj"
    refuse_each "$room/pair.obj" map
fi
