#!/bin/sh
# The instructions of each call of the proved meter, counted by callgrind within the library's functions.
# instructions.sh: as the table of docs/PERFORMANCE.md.
# instructions.sh --check FILE: held against that table. A call that takes over 5 % more than the file says, a call that
# the table lacks, or a table that cannot be read is a failure; one that takes over 5 % less is told.
# A call is the difference of two counts of it, from a day under the first row of caps and from one under the last. Of a
# whole file, its statement or its run, and of a whole text, read or exported, one is counted, from the first.
# The proved library has to be there; the program `bench` is built here.
set -eu

usage() {
    echo "usage: instructions.sh, or instructions.sh --check FILE" >&2
    exit 2
}

# What stands above the table in the file, and the table's first line.
marker='<!-- instructions: ./bench --instructions -->'
head='| call | from day 181 | from day 1826 |'
few=100
many=300

document=
case $#,${1:-} in
0,) ;;
2,--check) document=$(realpath -- "$2") ;;
*) usage ;;
esac
CDPATH='' cd -- "$(dirname -- "$0")"
scratch=$(mktemp -d)
trap 'rm -rf "$scratch"' EXIT
trap 'exit 130' INT
trap 'exit 143' TERM

say() { echo "instructions: $*" >&2; }
. ../tools/figures.sh

of_file() { # KIND
    case $1 in
    statement | run | text_read | text_write) ;;
    *) return 1 ;;
    esac
}

# The instructions of so many calls of a kind, within all functions of the library.
count() { # KIND COUNT START
    count_within "$functions" ./bench --one "$1" "$2" "$3"
}

# The instructions of one call of a kind, to the nearest whole one.
each() { # KIND START
    if of_file "$1"; then
        count_within "meter_$1" ./bench --one "$1" 1 "$2"
        return
    fi
    first=$(count "$1" "$few" "$2")
    second=$(count "$1" "$many" "$2")
    echo $(((second - first + (many - few) / 2) / (many - few)))
}

check_call() { # NAME FIGURE FIGURE
    if ! figures=$(row_of "$scratch/table" "$1"); then
        failed=$((failed + 1))
        return
    fi
    hold "$1, from day 181" "$2" "${figures%"|"*}" 5
    [ -z "$3" ] || hold "$1, from day 1826" "$3" "${figures#*"|"}" 5
}

if [ -n "$document" ]; then
    read_table "$document" "$marker" "$head" >"$scratch/table" || exit 1
fi
have_valgrind
functions=$(sed -n 's/^uint64_t \(meter_[a-z_]*\)(.*/\1/p' ../include/meter.h | tr '\n' ' ')
target=${CARGO_TARGET_DIR:-target}
cargo build --release --quiet --bin bench --target-dir "$target"
ln -s "$(cd "$target" && pwd)/release/bench" "$scratch/bench"
"$scratch/bench" --kinds >"$scratch/kinds"
all=$(grep -c . "$scratch/kinds")
number=0
[ -n "$document" ] || printf '%s\n%s\n|---|---|---|\n' "$marker" "$head"
while read -r kind name <&3; do
    number=$((number + 1))
    early=$(each "$kind" 181)
    late=
    of_file "$kind" || late=$(each "$kind" 1826)
    if [ -n "$document" ]; then
        say "$number of $all, $name: $(grouped "$early")${late:+ and $(grouped "$late")}"
        check_call "$name" "$early" "$late"
    else
        say "$number of $all, $name"
        echo "| $name | $(grouped "$early") |${late:+ $(grouped "$late")} |"
    fi
done 3<"$scratch/kinds"
[ -n "$document" ] || exit 0
if [ "$failed" -gt 0 ]; then
    say "FAILED: $failed figures"
    exit 1
fi
say "no call takes over 5 % more than $document says"
