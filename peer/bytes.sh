#!/usr/bin/env bash
# bytes.sh PROGRAM [FROM TO [STEP]]: runs PROGRAM on two inputs of every length
# (0 to 70,000 if not said), random bytes and bytes that begin with records,
# and compares what it prints with what the peer prints. Ends at the first
# input on which it differs, fails or takes too long, and keeps that input.
set -u
[ $# -ge 1 ] || { echo "usage: $0 PROGRAM [FROM TO [STEP]]" >&2; exit 2; }
peer=${PEER:-$(dirname "$0")/target/release/peer}
exec "$peer" bytes "$1" "${2:-0}" "${3:-70000}" "${4:-1}"
