# Used by ./statement, ./explain, ./export, ./import, ./library, ./edits and ./test: the toolchain's version, one build at
# a time, and a build that shows how far it is. `here` is the top of the repository, and `name` the command that builds.
# What is said of the work goes to standard error.

logs=$here/logs

# Nothing, or what to say where another toolchain is found than the one that the proofs were made with.
other_toolchain() {
    made=$(cat "$here/toolchain")
    found=$(rt version 2>/dev/null) || found='no rt on the path'
    [ "$found" = "$made" ] || printf 'the proofs were made with "%s", and here is "%s"\n' "$made" "$found"
}

# Takes the lock on what is built here, which is kept until the script and all that it started have ended. What ./test
# runs goes on under the test's own.
lock() { # NAME
    [ "${built_locked:-no}" = no ] || return 0
    mkdir -p "$logs" && exec 9>>"$logs/lock" || return 1
    flock -n 9 && return
    echo "$1: waiting for another build or test of this repository to end" >&2
    flock 9
}

# How many crates of the repository NAME needs, itself among them.
count_of() { # NAME
    awk -v want="$1" '
        { sub(/#.*/, ""); at = index($0, ":"); if (!at) next
          name = substr($0, 1, at - 1); sub(/[ \t].*/, "", name); deps[name] = substr($0, at + 1) }
        function visit(n, parts, k, m) {
            if (!(n in deps) || n in seen) return
            seen[n] = 1; count++
            m = split(deps[n], parts, " ")
            for (k = 1; k <= m; k++) visit(parts[k])
        }
        END { visit(want); print count + 0 }' "$here/crates.txt"
}

# The files that are built from, as find prints them; with -newer FILE those alone that were changed after it.
sources() { # [-newer FILE]
    find "$here/crates.txt" "$here/crates" \( -name out -o -name edits -o -name must-fail \) -prune -o \
        -type f "$@" -print
}

# The toolchain that is found, told at once: rt's file, its size and its time. Nothing where there is none.
found_toolchain() {
    rt=$(command -v rt) && stat -L -c '%n %s %Y' "$(readlink -f "$rt")"
}

# Notes with which toolchain something is built, and of files of which names. It is written before a build begins, and
# stands beside the result when it has ended, as RESULT.built.
note_build() { # FILE
    { found_toolchain && sources | sort | cksum; } >"$1"
}

# Was RESULT built from the sources as they are, with this toolchain?
fresh() { # RESULT
    note=$here/$1.built
    [ -s "$here/$1" ] && [ -f "$note" ] || return 1
    now=$(found_toolchain) && [ "$now" != "$(sed -n 1p "$note")" ] && return 1
    [ "$(sources | sort | cksum)" = "$(sed -n 2p "$note")" ] || return 1
    [ -z "$(sources -newer "$note" | head -n 1)" ]
}

# Shows each crate of a build that is proved; those that did not change are passed over.
show_build() { # COUNT
    number=0 crate=''
    while IFS= read -r line; do
        case $line in
        'crate '*': modules '*)
            crate=${line#crate }
            crate=${crate%%:*}
            ;;
        'logic=proved '*)
            number=$((number + 1))
            echo "$name: crate $number of at most $1: $crate is proved" >&2
            ;;
        esac
    done
}

# Builds RESULT of the crate by rt's VERB, where it is missing or older than its sources. MADE is the file that rt
# makes; where RESULT is another one, it is made of it by the command that follows.
built() { # CRATE VERB MADE RESULT [COMMAND...]
    ! fresh "$4" || return 0
    command -v rt >/dev/null || { echo "$name: $4 has to be built, and rt is not on the path" >&2; return 1; }
    lock "$name" || { echo "$name: cannot lock $logs/lock" >&2; return 1; }
    if fresh "$4"; then # another build was waited for
        exec 9>&-
        return 0
    fi
    what=$(other_toolchain)
    [ -z "$what" ] || echo "$name: warning: $what" >&2
    log=$logs/build-$name.log
    echo "$name: building, as $4 is missing or its sources changed; from nothing it takes some minutes" >&2
    mkdir -p "$logs" "$here/${4%/*}" || return 1
    crate=$1 verb=$2 made=$3 result=$4
    shift 4
    note_build "$logs/.began-$name" || return 1
    # Where the program itself ends otherwise than with 0 on no input, rt does, too: it is built once it runs.
    { (cd "$here/crates/$crate" && rt "$verb") </dev/null 2>&1; echo "exit $?"; } | tee "$log" |
        show_build "$(count_of "$crate")"
    case $verb in
    run) grep -q "^rt: running out/$crate;" "$log" ;;
    *) [ "$(tail -n 1 "$log")" = "exit 0" ] ;;
    esac && [ -s "$here/$made" ] && "${@:-true}" || {
        echo "$name: the build failed; the last lines of $log:" >&2
        tail -n 12 "$log" | cut -c 1-200 | sed 's/^/    /' >&2
        return 1
    }
    mv "$logs/.began-$name" "$here/$result.built"
    exec 9>&-
}
