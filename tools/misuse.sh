#!/bin/sh
# Misuses of a turn's token that the compiler itself must refuse, each with the name of its error. `rt must-fail` takes
# only what the prover refuses, so these are tried here: each edit of misuse/ is applied to a copy of the sources, which
# is compiled and of which nothing is proved. Leaves the repository as it is.
set -u
root=$(cd "$(dirname "$0")/.." && pwd)
kit=$(dirname "$(rt doc)")
work=$(mktemp -d) || exit 2
trap 'rm -rf "$work"' EXIT
below=$(sed -n 's/^station: *//p' "$root/crates.txt")

# Compiles the copy's crate `station` with the sources of all that it stands on, and prints the name of the first error,
# or none.
compile() {
    set --
    for lib in $below; do
        uses=$(sed -n "s/^$lib: *//p" "$root/crates.txt" | tr ' ' ,)
        set -- "$@" --lib "$lib:core,std${uses:+,$uses}=$work/crates/$lib/src/lib.rt"
    done
    for lib in core std; do set -- "$@" --extern "$lib=$kit/rlibs/$lib.rlib"; done
    (cd "$work/crates/station" && "$kit/bin/rattle" check --crate-name station src/lib.rt "$@" -L "dependency=$kit/rlibs" \
        --antt-project "$kit/rattle/logic/antt-project.json" --logic-built "$kit/logic_built" --jobs 1 --only "") >"$work/log" 2>&1
    name=$(grep -o 'error\[[a-z0-9-]*\]' "$work/log" | head -n 1 | sed 's/error\[//; s/\]//')
    # the last line where all sources compile
    if [ -n "$name" ]; then echo "$name"; elif grep -q '^only=' "$work/log"; then echo none; else echo "no name"; fi
}

# Replaces the text OLD, which must stand exactly once in the file, by NEW.
replace() {
    OLD=$2 NEW=$3 awk '
        { text = text $0 "\n" }
        END {
            old = ENVIRON["OLD"]; at = index(text, old)
            if (!at || index(substr(text, at + 1), old)) exit 3
            printf "%s%s%s", substr(text, 1, at - 1), ENVIRON["NEW"], substr(text, at + length(old))
        }' "$1" >"$1.new" && mv "$1.new" "$1"
}

bad=0
for edit in none "$root"/misuse/*.edit; do
    rm -rf "$work/crates"
    (cd "$root" && cp -R --parents crates/*/src crates/*/specs "$work") || exit 2
    want=none
    if [ "$edit" != none ]; then
        want=$(sed -n 's/^error: //p' "$edit")
        replace "$work/$(sed -n 's/^file: //p' "$edit")" "$(sed -n 's/^old: //p' "$edit")" "$(sed -n 's/^new: //p' "$edit")" || {
            echo "${edit##*/}: WRONG: its old text does not stand there once"
            bad=1
            continue
        }
    fi
    got=$(compile)
    if [ "$got" = "$want" ]; then
        echo "${edit##*/}: ok, $want"
    else
        echo "${edit##*/}: WRONG: wanted $want, got $got"
        head -n 3 "$work/log"
        bad=1
    fi
done
exit $bad
