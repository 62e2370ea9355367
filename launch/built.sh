# Whether the program is built, and from the sources as they stand. `y86` reads this file, and sets first $here, the folder of the repository, and
# $crate, the program's crate. As a command, `sh built.sh HERE CRATE sum` prints the sum of the program's sources, `.. mark SUM` notes that the program
# was built from those of that sum, and `.. is_current` ends with 0 where it was built from those that are there.

# The files and folders that the program is made from, below $here.
sources() {
    awk -F: -v top="$crate" '
        function walk(name,    number, at, names) {
            if (!(name in below) || name in seen) return
            seen[name]
            print "crates/" name "/src crates/" name "/specs crates/" name "/proofs"
            number = split(below[name], names, " ")
            for (at = 1; at <= number; at++) walk(names[at])
        }
        /^[a-z]/ { below[$1] = $2 }
        END { print "crates.txt HANDLES"; walk(top) }' "$here/crates.txt"
}

# Whether a source, or the list of a folder's files, was changed after the file $1.
is_behind() {
    [ -n "$(cd "$here" && find $(sources) -newer "$1" 2>/dev/null | head -n 1)" ]
}

sum() {
    (cd "$here" && find $(sources) -type f 2>/dev/null | LC_ALL=C sort | xargs sha256sum | sha256sum | cut -d ' ' -f 1)
}

# Notes the sum $1, where that can be written, dated before the call, or as the file $2.
mark() {
    { echo "$1" >"$built.$$" && { [ -z "$2" ] || touch -r "$2" "$built.$$"; } && mv -f "$built.$$" "$built"; } 2>/dev/null || :
}

is_current() {
    [ -x "$program" ] || return 1
    if [ ! -f "$built" ] || [ "$program" -nt "$built" ]; then
        # `rt ci` leaves no mark; it reads the sources once it has its lock, so none may have changed since.
        began=$here/.git/rt-ci.lock
        { [ -f "$began" ] && [ "$program" -nt "$began" ]; } || began=$program
        now=$(sum)
        is_behind "$began" && return 1
        mark "$now" "$program"
        return 0
    fi
    is_behind "$built" || return 0
    # It may be the date alone that changed, as of a file that was checked out again.
    cp "$built" "$built.$$" 2>/dev/null
    if [ "$(sum)" = "$(cat "$built")" ]; then
        mv -f "$built.$$" "$built" 2>/dev/null || :
        return 0
    fi
    rm -f "$built.$$"
    return 1
}

if [ "${0##*/}" = built.sh ]; then
    here=$1 crate=$2
fi
out=$here/crates/$crate/out
program=$out/$crate
built=$out/built
if [ "${0##*/}" = built.sh ]; then
    shift 2
    "$@"
fi
