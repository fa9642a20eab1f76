#!/usr/bin/env bash
# cross.sh PROGRAM SECONDS [SEED]: runs PROGRAM and the peer on random jobs
# and compares what they print, byte for byte. Ends at the first difference,
# of which it keeps the job and both outputs, or when the time is up.
set -u
[ $# -eq 2 ] || [ $# -eq 3 ] || { echo "usage: $0 PROGRAM SECONDS [SEED]" >&2; exit 2; }
program=$1
end=$((SECONDS + $2))
seed=${3:-$(date +%s)}
batch=200
limit=20
peer=${PEER:-$(dirname "$0")/target/release/peer}
scratch=$(mktemp -d) || exit 2
trap 'rm -rf "$scratch"' EXIT

keep() {
    local kept
    kept="cross-$seed-$(basename "$1" .job)"
    cp "$1" "$kept.job"
    cp "$scratch/program.out" "$kept.program"
    cp "$scratch/peer.out" "$kept.peer"
    echo "differs after $agreed jobs: $kept.job, printed $kept.program, peer $kept.peer"
}

agreed=0
echo "seed $seed"
while [ $SECONDS -lt $end ]; do
    rm -rf "$scratch/jobs"
    "$peer" gen "$seed" $batch "$scratch/jobs" || exit 2
    for job in "$scratch"/jobs/*.job; do
        [ $SECONDS -lt $end ] || break
        timeout $limit "$program" <"$job" >"$scratch/program.out" 2>/dev/null
        timeout $limit "$peer" list <"$job" >"$scratch/peer.out"
        if ! cmp -s "$scratch/program.out" "$scratch/peer.out"; then
            keep "$job"
            exit 1
        fi
        agreed=$((agreed + 1))
    done
    seed=$((seed + 1))
done
echo "$agreed jobs agreed"
