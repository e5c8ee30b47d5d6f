#!/bin/sh
# What the proofs rest on, from what the checker said: axioms.sh FOLDER LOG, where FOLDER has NAME.out for each crate
# that was proved now, and LOG is that of the library for C. A crate without such a file was proved by an earlier run,
# and is checked here. The verdict on a crate is its line `logic=proved ..`. It has the word `foreign=` where the crate
# declares C functions, and of a program or a library for C the word `axioms=` where anything that it uses rests on a C
# function's contract, which is assumed. Fails unless every crate has its verdict, no library has one of the words or
# uses a crate of C functions, and programs rest on no more than std's input and output do: C's read and write, and two
# functions that tell of an error; `import` on as many as std's files and arguments do.
set -u
CDPATH='' cd -- "$(dirname -- "$0")/.." || exit 2
[ "$#" -eq 2 ] || { echo "usage: axioms.sh FOLDER LOG" >&2; exit 2; }
logs=$1 library=$2
wrong=0 libraries=0 programs=0
scratch=$(mktemp -d) || exit 2
trap 'rm -rf "$scratch"' EXIT

# What the checker says that a program may rest on, a line for each crate of C functions: three names at most, and how
# many they are.
may_rest() { # PROGRAM
    case $1 in
    import)
        echo 'libc: libc::chdir, libc::chmod, libc::chown, ... (26'
        echo 'os: os::c::__xpg_strerror_r, os::c::fcntl, os::c::getdents64, ... (11'
        ;;
    *)
        echo 'libc: libc::read, libc::write (2'
        echo 'libc: libc::write (1'
        echo 'os: os::c::__xpg_strerror_r, os::c::rattle_errno (2'
        ;;
    esac
}

fault() {
    echo "axioms: $*"
    wrong=$((wrong + 1))
}

# The verdict in a log, if there is just one.
verdict() { # FILE
    [ "$(grep -c '^logic=' "$1" 2>/dev/null)" = 1 ] && grep '^logic=proved ' "$1"
}

for crate in $(sed -n 's/^\([a-z_0-9]*\)\( staticlib\)\{0,1\}:.*/\1/p' crates.txt); do
    log=$logs/$crate.out
    if [ ! -f "$log" ]; then
        log=$scratch/$crate.out
        (cd "crates/$crate" && rt check) </dev/null >"$log" 2>&1
    fi
    line=$(verdict "$log") || { fault "$log has no verdict, or several"; continue; }
    case " $line " in *' foreign='*) fault "$crate declares C functions: $line" ;; esac
    if [ -f "crates/$crate/src/main.rt" ]; then
        programs=$((programs + 1))
        may_rest "$crate" >"$scratch/may"
        other=$(sed -n 's/^axioms \(.* ([0-9]*\) of the [0-9]* declared)$/\1/p' "$log" | grep -vxF -f "$scratch/may")
        [ -z "$other" ] || fault "$crate rests on more than it may: $other"
        continue
    fi
    libraries=$((libraries + 1))
    case " $line " in *' axioms='*) fault "$crate rests on an axiom: $line" ;; esac
    used=$(sed -n "s/^$crate\( staticlib\)\{0,1\}://p" crates.txt)
    case " $used " in *' io '* | *' libc '* | *' os '*) fault "$crate uses a crate of C functions:$used" ;; esac
done
line=$(grep '^logic=proved .* target=' "$library" 2>/dev/null | tail -n 1)
case " $line " in
'  ') fault "$library has no verdict on the library for C" ;;
*' axioms='*) fault "the library for C rests on an axiom: $line" ;;
esac
if [ "$wrong" -gt 0 ]; then
    echo "axioms: $wrong wrong"
    exit 1
fi
echo "axioms: none in $libraries libraries, the one for C among them; in $programs programs those of std's input and" \
    "output, in import of its files and arguments, too"
