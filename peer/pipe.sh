#!/usr/bin/env bash
# pipe.sh BIN [SEED [COUNT]]: compares the programs job, show, qasm and unqasm in
# BIN with the peer's on COUNT random texts, words, files and bytes, what show
# prints for COUNT/10 random jobs and that job of it is the same bytes, what both
# say of jobs and texts about as long as they take, and what part and pattern
# answer for the jobs. Keeps the first input that differs.
set -u
[ $# -ge 1 ] || { echo "usage: $0 BIN [SEED [COUNT]]" >&2; exit 2; }
bin=$1 seed=${2:-1} count=${3:-1000}
peer=${PEER:-$(dirname "$0")/target/release/peer}
scratch=$(mktemp -d) || exit 2
same() { # same PROGRAM MODE FILE
    "$bin/$1" <"$3" >"$scratch/ours" || { echo "failed: $1 < $3"; exit 1; }
    "$peer" "$2" <"$3" >"$scratch/theirs" || exit 2
    cmp -s "$scratch/ours" "$scratch/theirs" || { echo "differ: $1 < $3"; exit 1; }
}
again() { # again FILE: job of what show prints is FILE, where list does not refuse it
    same show show "$1"
    case $(head -c 7 "$scratch/ours") in refused | 'too lon') return ;; esac
    cp "$scratch/ours" "$scratch/said"
    "$bin/job" <"$scratch/said" | cmp -s - "$1" || { echo "differ: show < $1 | job"; exit 1; }
}
RANDOM=$seed
for ((i = 0; i < count; i++)); do
    "$peer" text $((seed + i)) >"$scratch/text" || exit 2
    same job pack "$scratch/text"
    cp "$scratch/ours" "$scratch/records"
    again "$scratch/records"
    head -c $((RANDOM % 200)) /dev/urandom >"$scratch/bytes"
    same job pack "$scratch/bytes"
    same show show "$scratch/bytes"
    tr -dc 'HSTW' <"$scratch/bytes" >"$scratch/word"
    ((RANDOM % 2)) && echo >>"$scratch/word"
    ((RANDOM % 3)) || { printf 'of U\nword '; tr -d '\n' <"$scratch/word"; } >"$scratch/line"
    ((RANDOM % 9)) || printf 'X' >>"$scratch/word"
    same qasm qasm "$scratch/word"
    [ ! -f "$scratch/line" ] || same qasm qasm "$scratch/line"
    same qasm qasm "$scratch/bytes"
    "$peer" qasm <"$scratch/word" >"$scratch/file"
    ((RANDOM % 9)) || truncate -s -1 "$scratch/file"
    same unqasm unqasm "$scratch/file"
    same unqasm unqasm "$scratch/bytes"
done
# 65,526 bytes of records, 65,543 of them, and texts of 458,752 bytes and one more
{ printf 'scale 3\nselection all\n'; printf 'rectangle 9 %d 8 -7 10000\n' -8 -10000; printf 'operator 0 0 0 -1 0 -1 0 0\n%.0s' {1..3852}; } >"$scratch/text"
for longer in '' $'operator 0 0 0 1 0 1 0 0\n'; do
    printf %s "$longer" >>"$scratch/text"
    same job pack "$scratch/text"
done
head -n 3856 "$scratch/text" >"$scratch/said"
"$bin/job" <"$scratch/said" >"$scratch/records"
again "$scratch/records"
{ cat "$scratch/said"; head -c $((458752 - $(wc -c <"$scratch/said"))) /dev/zero | tr '\0' ' '; } >"$scratch/text"
same job pack "$scratch/text"
echo >>"$scratch/text"
same job pack "$scratch/text"
"$peer" gen "$seed" $((count / 10)) "$scratch/jobs" || exit 2
patterns=0 parts=0
for job in "$scratch"/jobs/*; do
    again "$job"
    low=$((RANDOM % 21 - 15)) high=$((RANDOM % 21 - 5))
    if timeout 5 "$peer" part $low $high <"$job" >"$scratch/theirs"; then
        timeout 10 "$bin/part" $low $high <"$job" | cmp -s - "$scratch/theirs" || { echo "differ: part $low $high < $job"; exit 1; }
        parts=$((parts + 1))
    fi
    timeout 10 "$bin/pattern" <"$job" >"$scratch/ours" || continue
    said=$(timeout 20 "$peer" pattern "$job" <"$scratch/ours") || continue
    [ "$said" = agreed ] || { echo "differ: pattern < $job"; exit 1; }
    patterns=$((patterns + 1))
done
rm -r "$scratch"
echo "peer: $count texts, words and files agreed, $parts parts, $patterns patterns"
