#!/bin/sh
# Runs ./export and ./import on their stored cases: examples/export/cases.txt, examples/import/cases.txt, lines.txt
# (wrong lines) and misuse.txt (the word that has to be named, then the arguments); then both ways between file and
# text, and what may get in the way of a file that is written. The last line tells how many cases there are and how many
# differ.
set -u
here=$(CDPATH='' cd -- "$(dirname -- "$0")/.." && pwd -P) || exit 2
scratch=$(mktemp -d) || exit 2
child=''
trap '[ -z "$child" ] || kill "$child" 2>/dev/null; rm -rf "$scratch"' EXIT
trap 'exit 130' INT
trap 'exit 143' TERM
trap 'exit 129' HUP
box=$scratch/box out=$scratch/out err=$scratch/err
mkdir "$box" || exit 2
cases=0 differ=0

# ---- a case: what is run, and what is looked at after it

# A folder with a file that is not to change where an import is declined.
fill_box() {
    rm -rf "$box" && mkdir "$box" && echo 'as it was' >"$box/out.trip"
}

run() { # INPUT COMMAND...
    input=$1
    shift
    status=0
    "$@" <"$input" >"$out" 2>"$err" || status=$?
}

# Counts the case; it differs where one of the facts was not found true.
begin() { # CASE
    cases=$((cases + 1)) this=$1 right=yes
}
wrong() { # WHAT
    [ "$right" = no ] || differ=$((differ + 1))
    right=no
    echo "$this: $1"
}

ended_with() { # STATUS
    [ "$status" -eq "$1" ] || wrong "ended with $status, not with $1: $(head -n 1 "$err")"
}
printed() { # FILE
    cmp -s "$out" "$1" || wrong "printed something else: $(head -n 1 "$out")"
}
printed_line() { # LINE
    printf '%s\n' "$1" | cmp -s "$out" - || wrong "printed something else: $(head -n 1 "$out")"
}
printed_nothing() {
    [ ! -s "$out" ] || wrong "printed something: $(head -n 1 "$out")"
}
told_nothing() {
    [ ! -s "$err" ] || wrong "told something: $(head -n 1 "$err")"
}

# One line on standard error: the command, what was declined, and the words of the number, if it has any.
told() { # NAME WHAT
    number=${2#* } number=${number%% *}
    words=$(sed -n "s/^$number /: /p" "$here/refusals.txt")
    printf '%s: %s%s\n' "$1" "$2" "$words" | cmp -s "$err" - || wrong "told something else than $2: $(head -n 1 "$err")"
}

# The first line on standard error has the word.
named() { # WORD
    head -n 1 "$err" | grep -qF -e "$1" || wrong "does not name $1: $(head -n 1 "$err")"
}

# The folder holds just the file that is there, and that is FILE; or nothing at all.
holds() { # [FILE]
    left=$(ls -A "$box")
    if [ "$#" -eq 0 ]; then
        [ -z "$left" ] || wrong "left $left"
    else
        [ "$left" = out.trip ] || wrong "left $left"
        cmp -s "$box/out.trip" "$1" || wrong "OUT.trip is something else than $1"
    fi
}
echo 'as it was' >"$scratch/kept"
kept() { holds "$scratch/kept"; }

declined() { # NAME WHAT
    ended_with 1
    printed_nothing
    told "$1" "$2"
}
made() { # FILE CALLS
    ended_with 0
    told_nothing
    holds "$1"
    printed_line "$box/out.trip: $2, $(($(wc -c <"$1"))) bytes"
}
refused() { # WORD
    ended_with 2
    printed_nothing
    named "$1"
}

is_told() { # WHAT
    case $1 in
    'file '[0-9]* | 'plan '[0-9]* | 'text '[0-9]*) return 0 ;;
    esac
    return 1
}

# ---- the stored cases

# What has to be built is built and shown first, so that no case tells of it.
"$here/export" "$here/examples/ferry.trip" >"$out" || exit 2
"$here/import" "$box/out.trip" from "$here/examples/ferry.trip" <"$out" >/dev/null || exit 2

cd "$here/examples/export" || exit 2
while IFS='|' read -r file result; do
    case $file in '#'* | '') continue ;; esac
    file=${file% } result=${result# }
    begin "export $file"
    run /dev/null "$here/export" "$file"
    if is_told "$result"; then
        declined export "$result"
    else
        ended_with 0
        printed "$result"
        told_nothing
    fi
done <cases.txt

cd "$here/examples/import" || exit 2
while IFS='|' read -r plan text result; do
    case $plan in '#'* | '') continue ;; esac
    plan=${plan% } text=${text# } text=${text% } result=${result# }
    begin "import $plan <$text"
    fill_box
    # shellcheck disable=SC2086
    run "$text" "$here/import" "$box/out.trip" $plan
    if is_told "$result"; then
        declined import "$result"
        kept
    else
        calls=$(($(wc -l <"$text")))
        if [ "$calls" -eq 1 ]; then calls="1 call"; else calls="$calls calls"; fi
        made "$result" "$calls"
    fi
done <cases.txt

# The program alone: what the command does of its answer is seen above.
while IFS= read -r line; do
    begin "import of the line '$line'"
    printf 'topup,1\n%s\n' "$line" >"$scratch/text"
    run "$scratch/text" "$here/crates/import/out/import" 0 1461 0 0 0 0 0
    ended_with 0
    printed_nothing
    [ "$(cat "$err")" = "text 22 line 2" ] || wrong "told something else: $(head -n 1 "$err")"
done <lines.txt

while IFS= read -r line; do
    # shellcheck disable=SC2086
    set -- $line
    word=$1
    shift
    begin "import $*"
    fill_box
    cd "$box" || exit 2
    run "$here/examples/export/ferry.csv" "$here/import" "$@"
    cd "$here/examples/import" || exit 2
    refused "$word"
    kept
done <misuse.txt

# ---- both ways, and where the files are

cd "$here" || exit 2
ferry=$here/examples/ferry.trip lines=$here/examples/export/ferry.csv
plan='prepaid start=1461 gb=10000 minute=600 sms=500'

begin "export from standard input"
run "$ferry" ./export
ended_with 0
printed "$lines"
run "$ferry" ./export -
ended_with 0
printed "$lines"

begin "export and import again, with the words of the plan"
rm -f "$box/out.trip"
./export "$ferry" >"$scratch/text"
# shellcheck disable=SC2086
run "$scratch/text" ./import "$box/out.trip" $plan
made "$ferry" '6 calls'

begin "export and import again, with the plan of the file"
fill_box
run "$scratch/text" ./import "$box/out.trip" from "$ferry"
made "$ferry" '6 calls'

begin "import with the plan of the file that it replaces"
cp "$ferry" "$box/out.trip"
run examples/import/sms.csv ./import "$box/out.trip" from "$box/out.trip"
ended_with 0
run "$lines" ./import "$box/out.trip" from "$box/out.trip"
made "$ferry" '6 calls'

begin "import and export again, at the limits"
rm -f "$box/out.trip"
# shellcheck disable=SC2086
run examples/export/limits.csv ./import "$box/out.trip" $plan
made examples/export/limits.trip '8184 calls'
run /dev/null ./export "$box/out.trip"
printed examples/export/limits.csv

begin "nothing is made where it was declined"
rm -f "$box/out.trip"
run "$lines" ./import "$box/out.trip" prepaid start=180
declined import "plan 2"
holds

sed 's/.*/in,1/' examples/export/limits.csv >"$scratch/lines"
begin "8,185 lines"
{ cat "$scratch/lines" && echo in,1; } >"$scratch/text"
fill_box
run "$scratch/text" ./import "$box/out.trip" prepaid start=1461
declined import "text 21"
kept

begin "8,184 lines and one that does not end"
{ cat "$scratch/lines" && printf in,1; } >"$scratch/text"
run "$scratch/text" ./import "$box/out.trip" prepaid start=1461
declined import "text 21"
kept

begin "a text of several files' length"
cat examples/export/limits.csv examples/export/limits.csv examples/export/limits.csv >"$scratch/text"
run "$scratch/text" ./import "$box/out.trip" prepaid start=1461
declined import "text 21"
kept

begin "names that begin with -, and one of blanks"
fill_box
cd "$box" || exit 2
rm out.trip
run "$lines" "$here/import" -- -x.trip from "$ferry"
ended_with 0
run "$lines" "$here/import" '  ' from -x.trip
ended_with 0
mv -- '  ' out.trip
run /dev/null "$here/export" -- -x.trip
printed "$lines"
rm -- -x.trip
cd "$here" || exit 2
holds "$ferry"

begin "a link to a file in another folder"
fill_box
ln -s "$box/out.trip" "$scratch/link.trip"
run "$lines" ./import "$scratch/link.trip" from "$ferry"
ended_with 0
holds "$ferry"
[ -L "$scratch/link.trip" ] || wrong "replaced the link"

# ---- what gets in the way

begin "export, wrong usage"
run /dev/null ./export "$ferry" "$ferry"
refused usage
run /dev/null ./export "$scratch/none.trip"
refused none.trip
run /dev/null ./export "$box"
refused "$box"
run /dev/null ./export -- --help
refused --help
run "$box" ./export
ended_with 2
printed_nothing

begin "standard input is closed"
fill_box
status=0
./export <&- >"$out" 2>"$err" || status=$?
refused 'standard input'
status=0
./import "$box/out.trip" prepaid start=1461 <&- >"$out" 2>"$err" || status=$?
refused 'standard input'
kept

begin "input that cannot be read"
run "$scratch" ./import "$box/out.trip" prepaid start=1461
ended_with 2
printed_nothing
kept
run "$lines" ./import "$box/out.trip" from "$scratch"
refused "$scratch"
kept

begin "help"
run /dev/null ./export --help
ended_with 0
run /dev/null ./import --help
ended_with 0
told_nothing

begin "OUT.trip is a folder, in none, or something else"
mkdir "$scratch/folder.trip"
run "$lines" ./import "$scratch/folder.trip" from "$ferry"
refused folder.trip
run "$lines" ./import "$scratch/new.trip/" from "$ferry"
refused new.trip
run "$lines" ./import "$scratch/none/out.trip" from "$ferry"
refused none
run "$lines" ./import '' from "$ferry"
refused OUT.trip
mkfifo "$scratch/pipe"
run "$lines" ./import "$scratch/pipe" from "$ferry"
refused pipe
[ -p "$scratch/pipe" ] || wrong "replaced what is no file"
[ -z "$(ls -A "$scratch/folder.trip")" ] || wrong "left something in the folder"

begin "OUT.trip or its folder is write-protected"
fill_box
chmod 444 "$box/out.trip"
if [ ! -w "$box/out.trip" ]; then # so it is to all but root
    run "$lines" ./import "$box/out.trip" from "$ferry"
    refused out.trip
    kept
    chmod 644 "$box/out.trip"
    chmod 555 "$box"
    run "$lines" ./import "$box/out.trip" from "$ferry"
    refused out.trip
    kept
    chmod 755 "$box"
fi

begin "output that cannot be written"
fill_box
status=0
./export "$ferry" 2>"$err" >/dev/full || status=$?
ended_with 2
grep -q 'export: .*cannot be written' "$err" || wrong "does not tell it"
status=0
./import "$box/out.trip" from "$ferry" <"$lines" 2>"$err" >/dev/full || status=$?
ended_with 2
grep -q 'import: .*is made' "$err" || wrong "does not tell that the file is made"
holds "$ferry"

# Files end at 4,096 bytes: there is room for the text, and not for the file of 64 + 8 * 700 bytes. The program is
# killed where it writes more or, where it takes no notice of that signal, cannot write more.
limited() { # [SIGNAL]
    (
        [ "$#" -eq 0 ] || trap '' "$1"
        ulimit -f 8
        exec ./import "$box/out.trip" prepaid start=1461
    )
}
begin "a full disk"
head -n 700 "$scratch/lines" >"$scratch/text"
fill_box
run "$scratch/text" limited
ended_with 2
kept
run "$scratch/text" limited XFSZ
refused out.trip
kept

# Ends an import that waits for its text, once it has begun to.
waited=20 # tenths of a second
for signal in TERM HUP; do
    # What is ignored where this script was started, as HUP by nohup, no import hears either.
    unheard=$({ sh -c "kill -s $signal \$\$; echo yes"; } 2>/dev/null)
    [ -z "$unheard" ] || continue
    begin "an import that is ended by $signal"
    fill_box
    exec 5<>"$scratch/pipe" # so that the import's input does not end
    ./import "$box/out.trip" prepaid start=1461 <"$scratch/pipe" >"$out" 2>"$err" 5>&- &
    child=$!
    tenths=0
    until [ -f "$(echo "$box"/.out.trip.new-*)/text" ] || [ "$tenths" -eq "$waited" ]; do
        sleep 0.1
        tenths=$((tenths + 1))
    done
    [ "$tenths" -lt "$waited" ] || wrong "does not begin"
    kill -s "$signal" "$child"
    tenths=0
    while kill -0 "$child" 2>/dev/null && [ "$tenths" -lt "$waited" ]; do
        sleep 0.1
        tenths=$((tenths + 1))
    done
    [ "$tenths" -lt "$waited" ] || wrong "does not end"
    exec 5>&-
    status=0
    wait "$child" || status=$?
    child=''
    if [ "$signal" = TERM ]; then ended_with 143; else ended_with 129; fi
    printed_nothing
    kept
done

echo "exchange: $cases cases, $differ differ"
[ "$differ" -eq 0 ]
