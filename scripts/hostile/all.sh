#!/usr/bin/env bash
# Runs each of the trials that docs/TESTED.md counts, and prints their figures, a heading before each. Not part of the gate.
# It wants gcc and python3, and takes an hour or more of one processor; parts may run side by side. First build the programs:
# (cd crates/lvm && rt run -- sim 1 8 < /dev/null; cd ../lvm_rows && rt run < /dev/null)
# usage: scripts/hostile/all.sh [PART ..]       without a part: all of them
#   stored       which refusals and statuses come in the stored runs, and which don't
#   sessions     scripts/session.sh
#   rows random largest torn lengths notes     one table of scripts/images.sh each
#   flips        scripts/images.sh flips, all of it in one piece
#   allocations calls deaths loads             one table of scripts/refusals.sh each
#   kills        scripts/kill_load.py
#   posts return moves     scripts/cuts.sh, one script each: a second cut 1 to 80 calls behind the first, each
# LVM names the program, and ROWS the one that runs rows.
set -u
here=$(cd "$(dirname "$0")/.." && pwd)
lvm=$(realpath -m "${LVM:-$here/../crates/lvm/out/lvm}")
runs_rows=$(realpath -m "${ROWS:-$here/../crates/lvm_rows/out/lvm_rows}")
unset ROWS
export LVM=$lvm
[ $# -gt 0 ] || set -- stored sessions rows random largest torn lengths notes flips allocations calls deaths loads kills posts return moves

# stored: the refusals by number, and the statuses, of the stored runs of both programs
stored() {
    local answers="$here/../crates/lvm_rows/stdout $here/../crates/lvm/stdout" number
    for number in $(sed -nE 's/^\| ([0-9]+) \| `.*/\1/p' "$here/../docs/SCRIPTS.md"); do
        # shellcheck disable=SC2086
        grep -qhE "refused $number( |\$)" $answers || echo "no stored run answers refusal $number"
    done
    for number in $(seq 0 7); do
        grep -qE "^status $number(,|\$)" "$here/../crates/lvm_rows/stdout" || echo "no stored run ends with status $number"
    done
    echo "stored runs: $(grep -c '^case ' "$here/../crates/lvm_rows/stdin") cases"
}

# one PART: runs it
one() {
    case $1 in
        stored) stored ;;
        sessions) "$here/session.sh" ;;
        rows | random | largest | torn | lengths | notes | flips) "$here/images.sh" "$1" ;;
        allocations | calls | deaths | loads) "$here/refusals.sh" "$1" ;;
        kills) "$here/kill_load.py" "$LVM" ;;
        posts | return | moves) ROWS=$runs_rows "$here/cuts.sh" --only "$1" 1 80 ;;
        *) echo "no part '$1'" && return 2 ;;
    esac
}

failed=()
for part; do
    echo "== $part"
    began=$SECONDS
    one "$part" || failed+=("$part")
    echo "-- $((SECONDS - began)) seconds"
done
[ ${#failed[@]} = 0 ] || { echo "FAILED: ${failed[*]}" && exit 1; }
echo "all went as they should"
