#!/usr/bin/env bash
# words.sh CONSOLE [SEED [COUNT]]: compares the answers of CONSOLE with the
# peer's on random lines of the calls on words and sheets, 200 to a run. Keeps
# the first script that differs.
set -u
[ $# -ge 1 ] || { echo "usage: $0 CONSOLE [SEED [COUNT]]" >&2; exit 2; }
console=$1 seed=${2:-1} count=${3:-20000}
peer=${PEER:-$(dirname "$0")/target/release/peer}
scratch=$(mktemp -d) || exit 2
for ((done = 0; done < count; done += 200, seed++)); do
    "$peer" words "$seed" 200 >"$scratch/script" || exit 2
    "$console" <"$scratch/script" >"$scratch/ours" || { echo "failed: $scratch/script"; exit 1; }
    "$peer" session <"$scratch/script" >"$scratch/theirs" || exit 2
    cmp -s "$scratch/ours" "$scratch/theirs" || { echo "differ: $scratch/script"; exit 1; }
done
rm -r "$scratch"
echo "$done lines agreed"
