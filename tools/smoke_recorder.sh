#!/usr/bin/env bash
# Holds judge, and through it the recorder's function as C sees it, to what it reads, prints and ends with.
set -u
cd "$(dirname "$0")/.."
. tools/held.sh
program=(target/bin/judge)

unhex() { printf '%b' "$(sed 's/../\\x&/g' <<< "$1")"; }
sample_due() { unhex "02$(printf %02x "$1")" && tail -c +3 crates/bagplan/stdin; }

held 'the sample bag' 0 '0 accepted' cat crates/bagplan/stdin
held 'just in time' 0 '0 accepted' sample_due 15
held 'a tick too late' 1 '8 refused: the needed length is above the deadline' sample_due 14
held 'no bytes' 1 '1 refused: the bytes end inside the plan' true
held 'an endless number' 1 '1 refused: the bytes end inside the plan' long
held 'bytes after the plan' 1 '5 refused: bytes follow the plan' followed

program=(target/bin/judge crates/bagplan/stdin)
held 'a file' 0 '0 accepted' true
program=(target/bin/judge recorder/no_such_plan)
held 'no such file' 2 'judge: recorder/no_such_plan: No such file or directory' true

# The number alone that judge prints.
number() { target/bin/judge | cut -d ' ' -f 1; }
program=(number)
while read -r answer digits; do
    held "the plan $digits" 0 "$answer" unhex "$digits"
done < <(grep -v '^#' recorder/answers.txt)

tell
