# Used by ./statement, ./explain, ./export and ./import: the input, the program NAME on it, and what is told where that
# fails or is declined. `here` is the top of the repository; `name` is the program, and `usage` prints how it is called.

fail() {
    printf '%s: %s\n' "$name" "$*" >&2
    exit 2
}

# Is FILE one that can be read? Ends where it is not.
see_file() { # FILE
    [ -e "$1" ] || fail "cannot read $1: there is no such file"
    [ ! -d "$1" ] || fail "cannot read $1: it is a folder"
    [ -r "$1" ] || fail "cannot read $1"
}

# Ends where there is no standard input.
see_input() {
    if ! { true 3<&0; } 2>/dev/null; then fail "standard input is closed"; fi
}

# Ends where the words of the refusal numbers cannot be read.
see_words() {
    [ -r "$here/refusals.txt" ] || fail "cannot read $here/refusals.txt, the words of the refusal numbers"
}

# Makes the file that the arguments name the standard input; answers --help.
take_input() { # [--] [FILE]
    named=no file=-
    case ${1:-} in
    -h | --help)
        usage || fail "the output cannot be written"
        exit 0
        ;;
    --)
        shift
        named=yes
        ;;
    esac
    if [ "$#" -gt 1 ]; then
        usage | sed -n 1p >&2
        exit 2
    fi
    if [ "$#" -eq 1 ]; then file=$1; fi
    if [ "$file" = - ] && [ "$named" = no ]; then
        see_input
    else
        see_file "$file"
        exec <"$file" || fail "cannot read $file"
    fi
}

# Builds the program where it has to be: `program` is where it is then.
build_program() {
    . "$here/tools/build.sh"
    built "$name" run "crates/$name/out/$name" "crates/$name/out/$name" || exit 2
    program=$here/crates/$name/out/$name
}

# Builds the program where it has to be, and runs it on the input: `text` is what it printed. What it says on standard
# error goes to descriptor ERRORS: 1 puts it into the text, too.
run_program() { # [ERRORS]
    build_program
    # No file has more than 65,536 bytes, so that a few more are enough to tell a longer one.
    text=$({ { head -c 65540 || echo 'no input' >&3; } |
        "$program" 2>&"${1:-2}" || echo 'no end' >&3; } 3>&1)
    case $text in
    *'no input'*) fail "the input cannot be read" ;;
    *'no end'* | '') fail "the program ended badly" ;;
    esac
}

# Ends with the status that the text asks for, once it was printed: 1 for a bad file.
end_with_status() {
    case $text in
    'file '*) exit 1 ;;
    esac
    exit 0
}

# Tells what a program declined, as 'file 12' or 'text 22 line 7', with the words of its number, and ends.
end_declined() { # WHAT
    number=${1#* }
    words=$(awk -v number="${number%% *}" '$1 == number { print ": " substr($0, length($1) + 2) }' "$here/refusals.txt")
    printf '%s: %s%s\n' "$name" "$1" "$words" >&2
    exit 1
}
