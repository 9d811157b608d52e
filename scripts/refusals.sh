#!/usr/bin/env bash
# Refuses one call of the built program after the other, and looks at what it answers and what it leaves on its images:
# each allocation, and each call on an image file, as scripts/hostile/refuse.c says; the latter while a load goes on too. Not part of the gate. It wants gcc
# and python3. First build the program: (cd crates/lvm && rt run -- sim 1 8 < /dev/null)
# usage: scripts/refusals.sh [allocations] [calls] [deaths] [loads]        LVM names another program
set -eu
here=$(cd "$(dirname "$0")" && pwd)
built=$(mktemp -d)
trap 'rm -rf "$built"' EXIT
gcc -O1 -Wall -shared -fPIC -o "$built/refuse.so" "$here/hostile/refuse.c" -ldl
REFUSE_SO="$built/refuse.so" python3 "$here/hostile/refusals.py" "$@"
