#!/usr/bin/env bash
# bench.sh BIN: everything that docs/BENCHMARKS.md reports. BIN has the proved
# programs (target/bin). Times are processor seconds, user and system, of whole
# runs, as the machine may be shared, but for those of parts. LIMIT sets the
# seconds by the clock that a call may take, 10 if unset, and LIST_LIMIT those
# of a whole list, 60 if unset. The skewed jobs are many: EVERY=n takes each
# n-th of them, 1 if unset. HARD sets the number of hard random jobs of each
# range of scales, 20000 if unset, and SEED their seed, 1 if unset. BEFORE names
# a directory with `list` and `count` of an earlier commit, to compare with.
set -u
[ $# -eq 1 ] || { echo "usage: $0 BIN" >&2; exit 2; }
bin=$1
call_limit=${LIMIT:-10}
list_limit=${LIST_LIMIT:-60}
every=${EVERY:-1}
hard=${HARD:-20000}
before=${BEFORE:-}
seed=${SEED:-1}
peer=${PEER:-$(dirname "$0")/target/release/peer}
scratch=$(mktemp -d) || exit 2
trap 'rm -rf "$scratch"' EXIT
jobs=$scratch/jobs
"$peer" jobs "$jobs" || exit 2

# run LIMIT INPUT COMMAND...: sets took to the processor seconds, or to `over`
# where the limit passed. What it prints goes to the file `printed`.
run() {
    local status TIMEFORMAT='%U %S'
    { time timeout "$1" "${@:3}" <"$2" >"$printed" 2>"$scratch/said"; } 2>"$scratch/time"
    status=$?
    case $status in
        0) took=$(awk '{ printf "%.3f", $1 + $2 }' "$scratch/time") ;;
        124) took=over ;;
        *) echo "failed with $status: ${*:3} on $2" >&2; exit 1 ;;
    esac
}

# ratio A B: A / B, or a dash where one is missing or too short to say.
ratio() {
    awk -v a="$1" -v b="$2" 'BEGIN { if (a == "over" || b == "over" || b < 0.003) print "-"; else printf "%.2f", a / b }'
}

# least LIMIT INPUT COMMAND...: as run, the least of three below a second; a run
# below 50 ms is grainy, so there each of the three is the mean of twenty.
least() {
    local shortest i turns TIMEFORMAT='%U %S'
    run "$@"
    awk -v t="$took" 'BEGIN { exit !(t != "over" && t < 1) }' || return
    shortest=$took
    turns=$(awk -v t="$took" 'BEGIN { print t < 0.05 ? 20 : 1 }')
    for _ in 1 2 3; do
        { time for ((i = 0; i < turns; i++)); do "${@:3}" <"$2" >"$printed" 2>"$scratch/said"; done; } 2>"$scratch/time"
        shortest=$(awk -v a="$shortest" -v n="$turns" '{ b = ($1 + $2) / n; printf "%.5f", b < a ? b : a }' "$scratch/time")
    done
    took=$shortest
}

whole_lists() {
    local row='%-28s %11s %12s %8s %8s %6s %8s %8s %6s %8s %8s %6s\n' job ours theirs count_ours count_theirs points candidates was count_was
    echo "Whole lists, printed, and the search alone (count), with the peer's candidates; list and count of an earlier commit, and what count takes of its"
    # shellcheck disable=SC2059
    printf "$row" job points candidates list peer ratio count peer ratio before count ratio
    for job in "$jobs"/{disks,tilted,whole}-*.job; do
        printed=/dev/null
        least "$list_limit" "$job" "$bin/list"; ours=$took
        least "$list_limit" "$job" "$peer" list; theirs=$took
        was=- count_was=over
        if [ -n "$before" ]; then
            least "$list_limit" "$job" "$before/list"; was=$took
            least "$list_limit" "$job" "$before/count"; count_was=$took
        fi
        printed=$scratch/printed
        least "$list_limit" "$job" "$peer" count; count_theirs=$took
        candidates=$(awk '{ print $2 }' "$scratch/said")
        least "$list_limit" "$job" "$bin/count"; count_ours=$took
        points=$(sed 's/^end //' "$printed")
        # shellcheck disable=SC2059
        printf "$row" "$(basename "$job" .job)" "${points:--}" "${candidates:--}" "$ours" "$theirs" "$(ratio "$ours" "$theirs")" \
            "$count_ours" "$count_theirs" "$(ratio "$count_ours" "$count_theirs")" "$was" "$count_was" "$(ratio "$count_ours" "$count_was")"
    done
}

# The least that writing can take: peer/limit.c formats and writes the same lines
# from points in memory. The target is 8 times that for a whole list at k = 10.
limit() {
    local name points
    command -v cc >/dev/null || { echo 'The limit: no C compiler here'; return; }
    cc -O3 -march=native -o "$scratch/limit" "$(dirname "$0")/limit.c" || exit 2
    echo 'The limit, formatting and writing alone, nanoseconds a line; the whole list, and the ratio'
    for name in disks-k10 whole-long-thin-k10; do
        printed=$scratch/printed
        run "$list_limit" "$jobs/$name.job" "$bin/list"
        points=$(tail -n 1 "$printed" | sed 's/^end //')
        printed=/dev/null
        least "$list_limit" "$jobs/$name.job" "$bin/list"
        "$scratch/limit" "$scratch/printed" >/dev/null 2>"$scratch/said"
        awk -v name="$name" -v t="$took" -v n="$points" \
            '{ printf "%-24s %8s %8.2f %6.1f\n", name, $1, t * 1e9 / n, t * 1e9 / n / $1 }' "$scratch/said"
    done
}

# A list on two cores: unit disks at scale 12, all points, by `list` and by two
# `part`s side by side, cut at a = 0. Here the time is the clock's, the least of
# three runs. The target is 0.6 of the list's.
parts() {
    local began took least_list='' least_parts=''
    seconds() { awk -v a="$1" -v b="$EPOCHREALTIME" 'BEGIN { printf "%.3f", b - a }'; }
    shorter() { awk -v a="$1" -v b="$2" 'BEGIN { print (a == "" || b < a) ? b : a }'; }
    printf 'scale 12\nselection all\ndisk 1\ndisk 1\n' | "$bin/job" >"$scratch/parts.job"
    echo "Unit disks at scale 12, all points, by the clock: list, two parts side by side, ratio, load"
    for _ in 1 2 3; do
        began=$EPOCHREALTIME
        "$bin/list" <"$scratch/parts.job" >/dev/null
        least_list=$(shorter "$least_list" "$(seconds "$began")")
        began=$EPOCHREALTIME
        "$bin/part" -2147483648 -1 <"$scratch/parts.job" >/dev/null &
        "$bin/part" 0 2147483647 <"$scratch/parts.job" >/dev/null
        wait $!
        least_parts=$(shorter "$least_parts" "$(seconds "$began")")
    done
    cmp -s <("$bin/part" -2147483648 -1 <"$scratch/parts.job"; "$bin/part" 0 2147483647 <"$scratch/parts.job") <("$bin/list" <"$scratch/parts.job" | head -n -1) ||
        { echo 'the parts are not the list' >&2; exit 1; }
    awk -v a="$least_list" -v b="$least_parts" -v l="$(cut -d ' ' -f 1 /proc/loadavg)" 'BEGIN { printf "%.2f %.2f %.2f %s\n", a, b, b / a, l }'
}

# Unit disks at scales above 12, whose lists are too long to be taken whole:
# the first points, 1,024 in a call. The target is 0.2 µs a point.
deep_lists() {
    echo 'The first 512,000 points of unit disks at scales above 12, by the console: seconds, microseconds a point'
    for job in "$jobs"/deep_disks-*.job; do
        { cat "${job%.job}.reads"; yes 'hand 4096' | head -n 500; } >"$scratch/script"
        printed=/dev/null
        run "$list_limit" "$scratch/script" "$bin/console"
        printf '%-16s %8s %6s\n' "$(basename "$job" .job)" "$took" "$(awk -v t="$took" 'BEGIN { printf "%.2f", t / 0.512 }')"
    done
}

# Thin slices as A, the unit disk as B: a first point, whose target is 0.020,
# and the whole list, beside that of the ellipse around the slice.
slices() {
    local row='%-26s %9s %7s %8s %10s %8s %6s %8s\n' job around first slice points
    echo 'Thin slices and the closest ellipse around each: the first point, whole lists, their points, and the peer for the slice'
    # shellcheck disable=SC2059
    printf "$row" slice points first list 'in ellipse' list ratio peer
    for job in "$jobs"/slice-*.job; do
        console 'hand 4' "$job"; first=$took
        around=${job/slice-/around-}
        printed=$scratch/printed
        run "$list_limit" "$job" "$bin/list"; slice=$took
        points=$(tail -n 1 "$printed" | sed 's/^end //')
        run "$list_limit" "$around" "$bin/list"; ellipse=$took
        more=$(tail -n 1 "$printed" | sed 's/^end //')
        run "$list_limit" "$job" "$peer" list
        # shellcheck disable=SC2059
        printf "$row" "$(basename "$job" .job)" "${points:--}" "$first" "$slice" "${more:--}" "$ellipse" "$(ratio "$slice" "$ellipse")" "$took"
    done
}

# The same regions with 06 01 and with 06 00.
selections() {
    local row='%-14s %10s %8s %10s %8s %6s\n' job all new
    echo 'All points and the new ones: points and the whole list of each'
    # shellcheck disable=SC2059
    printf "$row" job all list new list ratio
    printed=$scratch/printed
    for job in "$jobs"/all-*.job; do
        run "$list_limit" "$job" "$bin/list"; all=$took
        points=$(tail -n 1 "$printed" | sed 's/^end //')
        run "$list_limit" "${job/all-/new-}" "$bin/list"; new=$took
        # shellcheck disable=SC2059
        printf "$row" "$(basename "$job" .job | sed 's/^all-//')" "$points" "$all" "$(tail -n 1 "$printed" | sed 's/^end //')" "$new" "$(ratio "$new" "$all")"
    done
}

# The shortest pattern: jobs of the largest scale, then the table of the console's
# script, job by job. The answers are compared with the peer's.
patterns() {
    local job script
    echo 'The shortest pattern, k = 20 (target 2 s): seconds, the peer, the answer'
    for job in "$jobs"/pattern-*.job; do
        console shortest "$job"; ours=$took
        printed=$scratch/printed
        run "$call_limit" "$job" "$peer" shortest
        case ${answer#ok } in
            '' | "$(cat "$printed")") ;;
            *) echo "shortest differs on $job" >&2; exit 1 ;;
        esac
        printf '%-28s %7s %7s  %s\n' "$(basename "$job" .job)" "$ours" "$took" "$answer"
    done
    script=$(dirname "$0")/../crates/console/stdin
    sed '1,/^# the shortest pattern: a table/d; /^#/,$d' "$script" >"$scratch/table"
    rm -f "$scratch/least"
    awk -v at="$scratch/row-" '/^clear/ { n++ } { print > (at n) }' "$scratch/table"
    printed=$scratch/printed
    for job in "$scratch"/row-*; do
        run "$call_limit" "$job" "$bin/console"
        echo "$took $(sed -n 's/^read //p' "$job" | tr -d '\n')" >>"$scratch/least"
    done
    tell table least 5.000 "$scratch/least"
}

# console CALL JOB: sets answer to a console's last answer to the job's records
# and CALL; empty where the limit passed.
console() {
    printed=$scratch/printed
    { cat "${2%.job}.reads"; echo "$1"; } >"$scratch/in"
    run "$call_limit" "$scratch/in" "$bin/console"
    answer=$(tail -n 1 "$printed")
    [ "$took" != over ] || answer=
}

# A hand-out of one point and the plain question, which have to agree.
both_calls() {
    local job first
    for job in "$@"; do
        console 'hand 4' "$job"
        first=$answer
        echo "$took $(basename "$job" .job)" >>"$scratch/first"
        console plain "$job"
        echo "$took $(basename "$job" .job)" >>"$scratch/plain"
        case $first/$answer in
            'ok 1 '*/'ok yes' | 'ok 0 yes/ok no' | /* | */) ;;
            *) echo "hand and plain differ on $job" >&2; exit 1 ;;
        esac
    done
}

# tell FAMILY CALL TARGET FILE: how many keep the target, and the worst.
tell() {
    awk -v family="$1" -v call="$2" -v target="$3" '
        $1 == "over" { over++; last = $2 }
        $1 != "over" && $1 <= target { within++ }
        $1 != "over" && $1 >= worst { worst = $1; name = $2 }
        END { printf "%-8s %-6s %5d %7s %6d %6d %8.3f  %s%s\n", family, call, NR, target, within, over, worst, name, (over ? "; over the limit: " last : "") }
    ' "$4"
}

calls() {
    echo "First point (hand) and the plain question: jobs, target, within it, over the limit of $call_limit s, the worst of the others"
    local family target
    for family in disks:0.020 tilted:0.020 skewed:1.500 zero:0.100 thin:0.100 \
        deep_disks:0.020 deep_skewed:1.000 deep_zero:1.000 deep_thin:1.000; do
        target=${family#*:}
        family=${family%:*}
        rm -f "$scratch/first" "$scratch/plain"
        local list=("$jobs/$family"-*.job) chosen=() i step=1
        case $family in *skewed) step=$every ;; esac
        for ((i = 0; i < ${#list[@]}; i += step)); do chosen+=("${list[i]}"); done
        both_calls "${chosen[@]}"
        tell "$family" hand "$target" "$scratch/first"
        tell "$family" plain "$target" "$scratch/plain"
    done
}

# Calls on words, 20,000 of each on 65,536 bytes: a random word, one of gates, and a text. The
# target of the cost is twice the plain C loop, of the text 200 megabytes a second.
words() {
    local word gates text name
    word=$(awk 'BEGIN { srand(5); for (i = 0; i < 65536; i++) printf "%s", substr("HSTW", int(4 * rand()) + 1, 1) }')
    gates=$(awk 'BEGIN { srand(6); while (n < 65536) { s = rand() < 0.5 ? "HT" : "SHT"; printf "%s", s; n += length(s) } }' | head -c 65536)
    text=$(awk 'BEGIN { srand(7); for (i = 0; i < 8192; i++) printf "%s q[0];x", substr("hst", int(3 * rand()) + 1, 1) }')
    "${CC:-cc}" -O2 -o "$scratch/plain" "$(dirname "$0")/word_timing.c" || exit 2
    echo 'Calls on words: seconds, the plain C loop, the ratio; megabytes of text a second'
    printed=/dev/null
    for name in word gates; do
        printf 'c%s' "${!name}" >"$scratch/input"
        run "$list_limit" "$scratch/input" "$bin/test_timing"; ours=$took
        run "$list_limit" "$scratch/input" "$scratch/plain"
        printf '%-16s %8s %8s %6s\n' "cost $name" "$ours" "$took" "$(ratio "$ours" "$took")"
    done
    printed=$scratch/printed
    printf 'w%s' "$gates" >"$scratch/input"
    run "$list_limit" "$scratch/input" "$bin/test_timing"
    printf '%-16s %8s %8s\n' write "$took" "$(awk -v t="$took" '{ printf "%.0f", $1 / t / 1e6 }' "$printed")"
    printf 'r%s' "$text" | tr x '\n' >"$scratch/input"
    run "$list_limit" "$scratch/input" "$bin/test_timing"
    printf '%-16s %8s %8s\n' read "$took" "$(awk -v t="$took" '{ printf "%.0f", 8 * $1 / t / 1e6 }' "$printed")"
}

# Trays of eight regions against their eight walks, by the library: the target is 1.5 times the walks, for first points the eight, for trays that list nothing the eight
# plain questions. A session's hand-outs keep its tally, a tray's do not. ARCHIVE names the library, target/staticlib/libbowujita.a if unset.
trays() {
    local archive=${ARCHIVE:-$(dirname "$0")/../target/staticlib/libbowujita.a}
    [ -f "$archive" ] || { echo 'Trays: no library here (tools/archive)'; return; }
    "${CC:-cc}" -O2 -I"$(dirname "$0")/../include" -o "$scratch/trays" "$(dirname "$0")/tray_timing.c" "$archive" || exit 2
    echo 'Trays of eight regions with the unit disk as B, all points'
    "$scratch/trays"
}

memory() {
    local k
    echo 'Memory of list, peak resident size in KB:'
    for k in 08 10 12; do
        /usr/bin/time -f %M "$bin/list" <"$jobs/disks-k$k.job" 2>"$scratch/said" >/dev/null
        echo "disks-k$k $(cat "$scratch/said")"
    done
}

# tests INPUT PROGRAM: how often the program asks whether a point solves the
# job, and its instructions.
tests() {
    valgrind --tool=callgrind --callgrind-out-file="$scratch/calls" "$2" <"$1" >/dev/null 2>&1
    awk '
        /^c?fn=/ { match($0, /\([0-9]+\)/); id = substr($0, RSTART, RLENGTH); if (NF > 1) name[id] = $2 }
        /^cfn=/ { to = id }
        /^calls=/ { split($1, n, "="); calls[to] += n[2] }
        /^totals:/ { total = $2 }
        END {
            for (id in calls) if (name[id] ~ /(solves_accepted|row_tests::solves)$/) sum += calls[id]
            print sum + 0, total
        }' "$scratch/calls"
}

candidates() {
    command -v valgrind >/dev/null || { echo 'Candidates: no valgrind here'; return; }
    local k name said
    echo 'Candidates (points tested by a call; tests along a row are not calls), and instructions of the whole run:'
    for k in 08 10; do
        "$peer" count <"$jobs/disks-k$k.job" >/dev/null 2>"$scratch/said"
        said=$(awk '{ print $2 }' "$scratch/said")
        echo "disks-k$k: ours $(tests "$jobs/disks-k$k.job" "$bin/count"), the peer's $said"
    done
    # Minus the identity has the boxes of the identity, and as a caller's
    # operator it is not replaced by a proposal.
    for name in "$jobs"/reduction-*.reads; do
        { cat "$name"; echo plain; } >"$scratch/proposal"
        { cat "$name"; echo 'read 04000000000000ffff0000ffff00000000'; echo plain; } >"$scratch/identity"
        echo "$(basename "$name" .reads): identity $(tests "$scratch/identity" "$bin/console"), proposal $(tests "$scratch/proposal" "$bin/console")"
    done
}

# each CALL: microseconds of a console for one call, over ten inputs of 1,000.
each() {
    local i TIMEFORMAT='%U %S'
    for ((i = 0; i < 1000; i++)); do echo "$1"; done >"$scratch/in"
    { time for i in {1..10}; do "$bin/console" <"$scratch/in" >/dev/null; done; } 2>"$scratch/time"
    awk '{ printf "%.2f", ($1 + $2) * 100 }' "$scratch/time"
}

# all PROBLEM: microseconds of the peer for a whole problem, over a hundred runs.
all() {
    local i TIMEFORMAT='%U %S'
    # shellcheck disable=SC2086
    { time for i in {1..100}; do "$peer" line $1 >"$scratch/printed"; done; } 2>"$scratch/time"
    awk '{ printf "%.0f", ($1 + $2) * 10000 }' "$scratch/time"
}

# The first call and the first run are refused: what they take is not the search's.
lines() {
    local row='%-32s %10s %10s %10s %8s\n' problem
    echo 'The line problem, microseconds: the first pair and whether there are more, 100 pairs, all pairs by the peer and how many'
    # shellcheck disable=SC2059
    printf "$row" problem first hundred peer pairs
    for problem in '101 0 0 1 -10000 10000' '1 17 17 1 -10000 10000' '100 5 6 1 -10000 10000' '10 55 56 1 -10000 10000' '1 5 6 1 -10000 10000' \
        '1 -10000 10000 7 -50 -50' '1 -10000 10000 100 -2358 -2357' '1 -10000 10000 70 -3728 -3721' '100 -10000 10000 100 -10000 10000'; do
        # shellcheck disable=SC2059
        printf "$row" "$problem" "$(each "line $problem 2")" "$(each "line $problem 200")" "$(all "$problem")" "$(wc -l <"$scratch/printed")"
    done
}

# The other entry: whole lists by the console, in milliseconds of a run of ten,
# and by the peer's nested loops, one run.
entries() {
    local row='%-26s %8s %12s %12s\n' problem i TIMEFORMAT='%U %S'
    echo 'The other entry, milliseconds of processor time: all points of a list of up to 1,024, and the peer'
    # shellcheck disable=SC2059
    printf "$row" 'k and v' points ours peer
    for problem in '12 0 0 0 0' '12 1 2 3 4' '16 0 0 0 0' '16 11 -7 100 3' '20 0 0 0 0' '20 1 2 3 4' '20 700 -100 300 41' '20 512 512 512 512'; do
        for ((i = 0; i < 10; i++)); do echo "entry $problem 4096"; done >"$scratch/in"
        { time "$bin/console" <"$scratch/in" >"$scratch/printed"; } 2>"$scratch/time"
        ours=$(awk '{ printf "%.1f", ($1 + $2) * 100 }' "$scratch/time")
        theirs=-
        case $problem in
            20*) ;;
            *)
                # shellcheck disable=SC2086
                { time "$peer" entry $problem >"$scratch/said"; } 2>"$scratch/time"
                theirs=$(awk '{ printf "%.1f", ($1 + $2) * 1000 }' "$scratch/time")
                ;;
        esac
        # shellcheck disable=SC2059
        printf "$row" "$problem" "$(head -n 1 "$scratch/printed" | awk '{ print $2 }')" "$ours" "$theirs"
    done
}

# Hard random jobs: first points, the plain question and next points in
# processor time beyond the program's start, and those over the limit in ms.
hard_jobs() {
    local slices
    for slices in 0 3; do
        echo "Hard random jobs, k up to 12 with the limit of 10 ms, k from 13 to 20 with that of 20 ms; slices, one side in so many: $slices"
        "$peer" time "$bin/console" "$seed" "$hard" 0 12 "$slices" 10
        "$peer" time "$bin/console" "$seed" "$hard" 13 20 "$slices" 20
    done
    echo 'The shortest pattern of hard random jobs, with the limit of 2 s:'
    "$peer" time "$bin/console" "$seed" "$hard" 0 12 3 2000 shortest
    "$peer" time "$bin/console" "$seed" "$((hard / 10))" 13 20 3 2000 shortest
}

whole_lists
echo
limit
echo
parts
echo
deep_lists
echo
slices
echo
selections
echo
patterns
echo
lines
echo
entries
echo
calls
echo
hard_jobs
echo
words
echo
trays
echo
memory
echo
candidates
