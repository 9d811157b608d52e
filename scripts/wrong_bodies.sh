#!/usr/bin/env bash
# Tries wrong bodies of which the gate doesn't: each scripts/wrong-bodies/CRATE/NAME.edit is put beside the crate's
# own must-fail edits, `rt must-fail CRATE` tries them all, each of which the prover must refuse, and what was put
# there is taken away again. It proves first what the crates stand on, where that isn't kept.
# usage: scripts/wrong_bodies.sh [CRATE ..]        without a crate: all that have any
set -u
cd "$(dirname "$0")/.." || exit 1
[ $# -gt 0 ] || set -- $(ls scripts/wrong-bodies)

put=() made=()
# away: takes away what was put beside the crates' own edits
away() {
    [ ${#put[@]} = 0 ] || rm -f "${put[@]}"
    [ ${#made[@]} = 0 ] || rmdir "${made[@]}"
}
trap away EXIT

for crate; do
    [ -d "scripts/wrong-bodies/$crate" ] || { echo "no wrong bodies of $crate" >&2; exit 2; }
    to=crates/$crate/must-fail
    [ -d "$to" ] || { mkdir "$to" && made+=("$to"); }
    for edit in scripts/wrong-bodies/"$crate"/*.edit; do
        [ ! -e "$to/$(basename "$edit")" ] || { echo "$to/$(basename "$edit") is there already" >&2; exit 1; }
        cp "$edit" "$to" && put+=("$to/$(basename "$edit")")
    done
done
rt must-fail "$@"
