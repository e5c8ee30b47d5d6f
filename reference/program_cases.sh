#!/bin/sh
# Runs a program on each of its stored inputs, examples/NAME/*.trip, and
# compares what it prints byte by byte with the *.out beside it.
# program_cases.sh NAME PROGRAM
set -eu
if [ "$#" -ne 2 ] || [ ! -x "$2" ]; then
    echo "usage: program_cases.sh NAME PROGRAM" >&2
    exit 2
fi
cases=$(CDPATH= cd -- "$(dirname -- "$0")/../examples/$1" && pwd)
scratch=$(mktemp -d)
trap 'rm -rf "$scratch"' EXIT
inputs=0
differ=0
for input in "$cases"/*.trip; do
    name=$(basename "$input" .trip)
    inputs=$((inputs + 1))
    status=0
    "$2" <"$input" >"$scratch/out" 2>"$scratch/err" || status=$?
    if [ "$status" -gt 1 ]; then
        echo "$1: $name: ended with $status"
        differ=$((differ + 1))
    elif ! cmp -s "$scratch/out" "$cases/$name.out"; then
        echo "$1: $name: printed something else than $name.out"
        differ=$((differ + 1))
    fi
done
echo "$1: $inputs inputs, $differ differ"
[ "$differ" -eq 0 ]
