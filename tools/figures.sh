# Used by reference/instructions.sh and tools/library_facts.sh: figures that are measured, counted by callgrind, and
# held against a table of a document. The user has `scratch`, a folder for files of the measurement, and `say`, which
# tells what goes on; `failed` counts the figures that are not as the document says.

failed=0
by_vectors=glibc.cpu.x86_rep_movsb_threshold=1000000000:glibc.cpu.x86_rep_stosb_threshold=1000000000

# Installs valgrind where it is missing.
have_valgrind() {
    valgrind=$(command -v valgrind) && return
    say "installing valgrind, which is missing"
    as_root=
    [ "$(id -u)" -eq 0 ] || as_root=sudo
    install="$as_root apt-get install -y valgrind"
    { $install || { $as_root apt-get update && $install; }; } </dev/null >"$scratch/log" 2>&1 || {
        tail -n 5 "$scratch/log" >&2
        say "valgrind is missing and could not be installed; as root: apt-get install valgrind"
        exit 2
    }
    valgrind=$(command -v valgrind)
}

# The instructions of a program in the scratch folder, within functions whose names have spaces between them. Long
# copies go by vectors: a repeated string instruction would count once for each byte. Nothing else is in the
# environment, and the program's name is always the same: their lengths move the stack, and copies then take some
# instructions more or less.
count_within() { # FUNCTIONS PROGRAM ARGUMENT...
    within=$1
    shift
    what=$*
    for function in $within; do
        set -- "--toggle-collect=$function" "$@"
    done
    (cd "$scratch" && env -i GLIBC_TUNABLES="$by_vectors" "$valgrind" --tool=callgrind --callgrind-out-file=out \
        "$@" >log 2>&1) || {
        cat "$scratch/log" >&2
        say "$what could not be counted"
        exit 1
    }
    total=$(sed -n 's/^totals: //p' "$scratch/out")
    if [ "${total:-0}" -eq 0 ]; then
        say "$what: nothing was counted within the library's functions"
        exit 1
    fi
    echo "$total"
}

grouped() { printf '%s\n' "$1" | sed ':a; s/\([0-9]\)\([0-9]\{3\}\)\($\|,\)/\1,\2\3/; ta'; }

# The table that stands in a file below a marker and has that head, in lines "NAME|FIGURE|..", without the commas of the
# figures.
read_table() { # FILE MARKER HEAD
    awk -v marker="$2" -v head="$3" '
        BEGIN { columns = split(head, cells, "|"); line = "|"; for (i = 3; i <= columns; i++) line = line "---|" }
        $0 == marker { if (found) exit bad = 1; found = 1; at = 1; next }
        !at { next }
        !/^\|/ { at = 0; next }
        at == 1 { if ($0 != head) exit bad = 1; at = 2; next }
        at == 2 { if ($0 != line) exit bad = 1; at = 3; next }
        {
            if (split($0, cells, "|") != columns) exit bad = 1
            row = ""
            for (i = 2; i < columns; i++) {
                gsub(/^ +| +$/, "", cells[i])
                while (cells[i] ~ /[0-9],[0-9][0-9][0-9]/) {
                    match(cells[i], /[0-9],[0-9][0-9][0-9]/)
                    cells[i] = substr(cells[i], 1, RSTART) substr(cells[i], RSTART + 2)
                }
                row = row (i > 2 ? "|" : "") cells[i]
            }
            print row
        }
        END { exit bad || !found }' "$1" || {
        say "FAILED: $1 has no table that begins with the two lines"
        printf '%s\n%s\n' "$2" "$3" >&2
        return 1
    }
}

# The row of a name in a table that was read, without the name.
row_of() { # TABLE NAME
    row=$(awk -F '|' -v name="$2" '$1 == name' "$1")
    if [ "$(printf '%s' "$row" | grep -c .)" -ne 1 ] || [ "${row#*"|"}" = "$row" ]; then
        say "FAILED: $2: the table of the file does not have it once"
        return 1
    fi
    echo "${row#*"|"}"
}

# Holds a figure against the file's, which it may pass by some per cent.
hold() { # WHAT FIGURE FIGURE-OF-THE-FILE PER-CENT
    case $3 in
    '' | *[!0-9]*)
        say "FAILED: $1: the file has \"$3\", which is no figure, and it is $(grouped "$2")"
        failed=$((failed + 1))
        return
        ;;
    esac
    over="over $4 % "
    [ "$4" -gt 0 ] || over=
    if [ $((100 * $2)) -gt $(((100 + $4) * $3)) ]; then
        say "FAILED: $1: is $(grouped "$2"), ${over}more than the $(grouped "$3") of the file"
        failed=$((failed + 1))
    elif [ $((100 * $2)) -lt $(((100 - $4) * $3)) ]; then
        say "$1: is $(grouped "$2"), ${over}less than the $(grouped "$3") of the file, which are old"
    fi
}
