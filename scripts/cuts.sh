#!/usr/bin/env bash
# Cuts the power at each call of scripts, and again at each of the next calls, while the group comes on, as
# scripts/hostile/cuts.py says. It must come on at last wherever it had been made, its copies must be alike, and each
# block must hold its last write that was answered `ok`, or one that was asked for since. The scripts stand in
# scripts/hostile/cuts. Not part of the gate. First build the program that runs rows:
# (cd crates/lvm_rows && rt run < /dev/null)
# usage: scripts/cuts.sh [--only SCRIPT] [FIRST LAST [STEP]]        how many calls later the second cut comes: 1 to 80, each;
# ROWS names another program
exec python3 "$(dirname "$0")/hostile/cuts.py" "$@"
