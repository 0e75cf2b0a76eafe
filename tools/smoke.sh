#!/usr/bin/env bash
# Holds bagplan to what no contract can say: what it reads, prints and ends with.
set -u
cd "$(dirname "$0")/.."
. tools/held.sh
program=(crates/bagplan/out/bagplan)

slow() { head -c 9 crates/bagplan/stdin && sleep 1 && tail -c +10 crates/bagplan/stdin; }

held 'the sample bag' 0 "$(cat crates/bagplan/stdout)" cat crates/bagplan/stdin
held 'the sample bag in two parts' 0 "$(cat crates/bagplan/stdout)" slow
held 'no bytes' 1 'refused 1 bytes 0' true
held 'bytes after the plan' 1 'refused 5 plan 33' followed
held 'later bytes are not read' 1 'refused 1 bytes 16384' long

tell
