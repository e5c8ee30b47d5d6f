#!/bin/sh
# What docs/LIBRARY.md states of the library for C, measured: its outside symbols, the sizes of its code and its data,
# and of each function the stack and the instructions.
# library_facts.sh: as the tables of docs/LIBRARY.md.
# library_facts.sh --check FILE: held against these tables, after the header was held to the sources and to the library,
# and the example boxes to their text. Code, constants or instructions that are over 5 % more than the file says, more
# stack, another outside symbol, or a table that cannot be read is a failure.
# The library is built here by ./library. Needed: a C compiler, binutils and valgrind.
set -eu

usage() {
    echo "usage: library_facts.sh, or library_facts.sh --check FILE" >&2
    exit 2
}

# What stands above each table in the file, and the table's first line.
facts_marker='<!-- facts: tools/library_facts.sh -->'
facts_head='| fact | measured |'
calls_marker='<!-- functions: tools/library_facts.sh -->'
calls_head='| function | stack at most | deepest seen | instructions |'
# What the code may call outside of the library.
allowed='memcmp memcpy memmove memset'
# What is seen on the stack beside a function's own bytes, at most: arguments that do not fit in registers.
arguments=32
# What calls itself, and how many times at most: a number of 64 bits has up to 20 digits.
nested='text::put_decimal=20'
few=1
many=3

document=
case $#,${1:-} in
0,) ;;
2,--check) document=$(realpath -- "$2") ;;
*) usage ;;
esac
CDPATH='' cd -- "$(dirname -- "$0")/.."
scratch=$(mktemp -d)
trap 'rm -rf "$scratch"' EXIT
trap 'exit 130' INT
trap 'exit 143' TERM

say() { echo "library: $*" >&2; }
wrong() {
    say "FAILED: $*"
    failed=$((failed + 1))
}
. tools/figures.sh

# ---- the header

# The functions that the header declares, as NAME(TYPE,TYPE,..).
declared() {
    awk '
        /^uint64_t meter_/ { text = ""; within = 1 }
        within { text = text " " $0 }
        within && /;$/ {
            within = 0
            gsub(/ +/, " ", text)
            gsub(/^ uint64_t |\);$/, "", text)
            split(text, halves, "(")
            count = split(halves[2], parts, ",")
            types = ""
            for (i = 1; i <= count; i++) {
                sub(/^ /, "", parts[i])
                sub(/ ?[a-z_0-9]+$/, "", parts[i])
                types = types (i > 1 ? "," : "") parts[i]
            }
            print halves[1] "(" types ")"
        }' include/meter.h | sort
}

# The functions that the crate exports, in the same form. A slice passes as its pointer, then its count.
exported() {
    cat crates/meter_c/src/*.rt | awk '
        BEGIN {
            c["u64"] = "uint64_t"; c["u32"] = "uint32_t"; c["usize"] = "size_t"
            c["&[u64]"] = "const uint64_t *,size_t"; c["&mut [u64]"] = "uint64_t *,size_t"
            c["&[u8]"] = "const uint8_t *,size_t"; c["&mut [u8]"] = "uint8_t *,size_t"
            c["&[u32]"] = "const uint32_t *,size_t"; c["&mut [u32]"] = "uint32_t *,size_t"
            c["&mut [Card]"] = "meter_card *,size_t"
        }
        /^pub extern "C" fn / { text = ""; within = 1 }
        within { text = text " " $0 }
        within && /-> / {
            within = 0
            result = text
            sub(/^.*-> /, "", result)
            sub(/ .*$/, "", result)
            sub(/^ *pub extern "C" fn /, "", text)
            sub(/,? *\) -> .*$/, "", text)
            split(text, halves, "(")
            count = split(halves[2], parts, ",")
            types = ""
            for (i = 1; i <= count; i++) {
                sub(/^ *[a-z_0-9]+: */, "", parts[i])
                types = types (i > 1 ? "," : "") ((parts[i] in c) ? c[parts[i]] : "?" parts[i])
            }
            print halves[1] "(" types ")" (result == "u64" ? "" : " -> " result)
        }' | sort
}

check_header() {
    declared >"$scratch/declared"
    exported >"$scratch/exported"
    if ! diff "$scratch/declared" "$scratch/exported" >"$scratch/differences"; then
        wrong "include/meter.h declares other functions (<) than crates/meter_c exports (>)"
        cat "$scratch/differences" >&2
        return
    fi
    say "the header declares $(grep -c . "$scratch/declared") functions, those that the crate exports"
}

# ---- the programs

compile() { # NAME SOURCE
    cc -std=c99 -O1 -Wall -Wextra -Werror -pedantic -Iinclude "$2" lib/libmeter.a -Wl,-z,now -o "$scratch/$1" || {
        say "$2 cannot be compiled and linked with lib/libmeter.a"
        exit 1
    }
}

check_example() { # NAME
    compile "$1" "examples/$1.c"
    status=0
    "$scratch/$1" >"$scratch/text" || status=$?
    [ "$status" -eq 0 ] || wrong "the box of examples/$1.c ended with $status"
    if ! diff "examples/$1.txt" "$scratch/text" >"$scratch/differences"; then
        wrong "the box of examples/$1.c printed something else (>) than examples/$1.txt (<)"
        cat "$scratch/differences" >&2
        return
    fi
    say "the box of examples/$1.c printed the $(grep -c '' "examples/$1.txt") lines of examples/$1.txt"
}

check_names() { # NAME
    compile "$1" "tools/c/$1.c"
    "$scratch/$1" >"$scratch/text" || wrong "the library is not as the header says"
    tail -n 20 "$scratch/text" | while IFS= read -r line; do say "${line#"$1": }"; done
}

# ---- symbols and sizes

# Looks at the part of the library that its functions need, as one object: its outside symbols and its sections.
take_apart() {
    for function in $functions; do
        set -- "$@" -u "$function"
    done
    ld -r "$@" lib/libmeter.a -o "$scratch/needed.o"
    nm -u "$scratch/needed.o" >"$scratch/undefined"
    global=$(nm -g --defined-only lib/libmeter.a | awk 'NF == 3 { print $3 }')
    size -A "$scratch/needed.o" >"$scratch/sections"
}

outside_symbols() { awk '{ print $NF }' "$scratch/undefined" | sort | tr '\n' ' ' | sed 's/ $//'; }

# The bytes of the sections that are kept in a program: code, constants, or what can be written.
bytes_of() { # code, constants or data
    awk -v want="$1" '
        $1 ~ /^\.text/ { bytes["code"] += $2 }
        $1 ~ /^\.(rodata|data\.rel\.ro)/ { bytes["constants"] += $2; next }
        $1 ~ /^\.(data|bss|tdata|tbss)/ { bytes["data"] += $2 }
        END { print bytes[want] + 0 }' "$scratch/sections"
}

facts() {
    outside=$(outside_symbols)
    echo "bytes of an account|$account_bytes"
    echo "bytes of code|$(bytes_of code)"
    echo "bytes of constants|$(bytes_of constants)"
    echo "bytes of data that can be written|$(bytes_of data)"
    echo "outside symbols|$(printf '%s' "$outside" | sed 's/ /, /g')"
}

# Only what is allowed is called outside, and only the functions of the header can be called from there.
check_symbols() {
    for symbol in $(outside_symbols); do
        case " $allowed " in
        *" $symbol "*) ;;
        *) wrong "the library needs $symbol, which is not one of: $allowed" ;;
        esac
    done
    for symbol in $global; do
        case " $functions " in
        *" $symbol "*) ;;
        *) wrong "the library has the global symbol $symbol, which is no function of the header" ;;
        esac
    done
}

check_fact() { # NAME MEASURED
    if ! stated=$(row_of "$scratch/facts-table" "$1"); then
        failed=$((failed + 1))
        return
    fi
    case $1 in
    outside*) [ "$2" = "$stated" ] || wrong "$1: are $2, and $stated in the file" ;;
    *account | *written) [ "$2" = "$stated" ] || wrong "$1: are $2, and $stated in the file" ;;
    *) hold "$1" "$2" "$stated" 5 ;;
    esac
}

# ---- stack and instructions

bound_stack() {
    objdump -d --no-show-raw-insn "$scratch/measure" |
        awk -v wanted="$functions" -v nested="$nested" -f tools/stack_bound.awk >"$scratch/bounds" || {
        say "FAILED: how deep the stack can go cannot be told from the code"
        exit 1
    }
}

# The instructions of one call of a function, as the difference of two counts.
instructions_of() { # FUNCTION
    first=$(count_within "$1" ./measure "$1" "$few")
    second=$(count_within "$1" ./measure "$1" "$many")
    echo $(((second - first + (many - few) / 2) / (many - few)))
}

figure_of() { awk -v name="$2" '$1 == name { print $2 }' "$1"; } # FILE FUNCTION

# The three figures of a function: bound, seen, instructions.
measured() { # FUNCTION
    echo "$(figure_of "$scratch/bounds" "$1")|$(figure_of "$scratch/seen" "$1")|$(instructions_of "$1")"
}

check_function() { # FUNCTION BOUND SEEN INSTRUCTIONS
    if ! stated=$(row_of "$scratch/calls-table" "$1"); then
        failed=$((failed + 1))
        return
    fi
    [ "$3" -le $(($2 + arguments)) ] || wrong "$1: the stack was seen to go to $3 bytes, and should end at $2"
    stack=${stated%%"|"*}
    rest=${stated#*"|"}
    hold "$1, stack" "$2" "$stack" 0
    hold "$1, stack seen" "$3" "${rest%"|"*}" 0
    hold "$1, instructions" "$4" "${rest#*"|"}" 5
}

# ---- all of it

functions=$(sed -n 's/^uint64_t \(meter_[a-z_]*\)(.*/\1/p' include/meter.h | tr '\n' ' ')
account_bytes=$((8 * $(sed -n 's/^#define METER_ACCOUNT_NUMBERS \([0-9]*\)u$/\1/p' include/meter.h)))
if [ -n "$document" ]; then
    read_table "$document" "$facts_marker" "$facts_head" >"$scratch/facts-table" || exit 1
    read_table "$document" "$calls_marker" "$calls_head" >"$scratch/calls-table" || exit 1
fi
./library >/dev/null
if [ -n "$document" ]; then
    check_header
    check_example box
    check_example family
    check_names header
    check_names cards
fi
take_apart
facts >"$scratch/facts"
[ -n "$document" ] || printf '%s\n%s\n|---|---|\n' "$facts_marker" "$facts_head"
while IFS='|' read -r fact figure <&3; do
    if [ -n "$document" ]; then
        say "$fact: $(grouped "$figure")"
        check_fact "$fact" "$figure"
    else
        echo "| $fact | $(grouped "$figure") |"
    fi
done 3<"$scratch/facts"
check_symbols
compile measure tools/c/measure.c
bound_stack
"$scratch/measure" stack >"$scratch/seen"
have_valgrind
[ -n "$document" ] || printf '\n%s\n%s\n|---|---|---|---|\n' "$calls_marker" "$calls_head"
for function in $functions; do
    figures=$(measured "$function")
    bound=${figures%%"|"*}
    rest=${figures#*"|"}
    seen=${rest%"|"*}
    taken=${rest#*"|"}
    if [ -n "$document" ]; then
        say "$function: stack $(grouped "$bound"), seen $(grouped "$seen"), instructions $(grouped "$taken")"
        check_function "$function" "$bound" "$seen" "$taken"
    else
        say "$function"
        echo "| $function | $(grouped "$bound") | $(grouped "$seen") | $(grouped "$taken") |"
    fi
done
if [ "$failed" -gt 0 ]; then
    say "FAILED: $failed facts"
    exit 1
fi
[ -z "$document" ] || say "all is as $document says"
