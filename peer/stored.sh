#!/usr/bin/env bash
# stored.sh DIR: what the peer prints for the jobs in DIR (crates/test_stored), in
# the form of DIR/stdout, compared with that file.
set -u
[ $# -eq 1 ] || { echo "usage: $0 DIR" >&2; exit 2; }
directory=$1
peer=${PEER:-$(dirname "$0")/target/release/peer}

while read -r name; do
    echo "$name"
    "$peer" list <"$directory/data/$name"
done <"$directory/stdin" | cmp - "$directory/stdout" || exit 1
echo "$(wc -l <"$directory/stdin") jobs agreed"
