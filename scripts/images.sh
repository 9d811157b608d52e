#!/usr/bin/env bash
# Brings groups on over bad images, as scripts/hostile/images.py says, and compares what the program answers and writes
# with rules that are written apart from it. Not part of the gate. First build the program:
# (cd crates/lvm && rt run -- sim 1 8 < /dev/null)
# usage: scripts/images.sh [--bits] [rows] [flips] [torn] [lengths] [notes] [random] [largest]        LVM names another program
exec python3 "$(dirname "$0")/hostile/images.py" "$@"
