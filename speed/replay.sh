#!/bin/sh
# For each recording of speed/recordings.py: how many instructions matter_node takes for a line of it, and how many
# calls of malloc and realloc. They are counted by valgrind, and less those of a recording with no line.
#        speed/replay.sh [LINES]
# For each recording of reads, or for those that are named: what it costs matter_node, and what it costs speed/plain, a
# program in plain Rust that writes the same lines. That both write the same is looked at first. Of each it tells the
# instructions for a line; the time of so many lines, in user mode and in all, the least of five runs in turn; and the
# memory at most. A ratio is the node's by that of speed/plain. PROGRAM names another matter_node than that which
# `rt run` builds. The system tells user mode apart by its clock's ticks, so times below a tenth of a second are rough;
# and of memory it tells no less than python has, some 13 MiB.
#        speed/replay.sh beside [LINES [TIMED LINES [NAME ..]]]
set -eu
cd "$(dirname "$0")/.."
folder=$(mktemp -d)
trap 'rm -rf "$folder"' EXIT
node=${PROGRAM:-crates/matter_node/out/matter_node} plain=$folder/plain

# Builds matter_node, unless PROGRAM names one. With no words it ends with status 2, and is built.
build() {
    [ -n "${PROGRAM-}" ] || (cd crates/matter_node && rt run >/dev/null 2>&1) || true
}

# Writes the recording of this name with so many lines, or with as many as a recording may have bytes for.
record() {
    speed/recordings.py recording "$1" "$2" |
        awk '{ bytes += length($0) + 1 } bytes <= 67108864' >"$folder/recording"
}

# A program plays what was written.
play() {
    "$@" replay "$folder/configuration" "$folder/recording"
}

# The instructions, and the calls of malloc and realloc, of a program's run on a recording of so many lines.
counts() {
    record "$2" "$3"
    play valgrind --tool=callgrind --callgrind-out-file="$folder/counts" "$1" >/dev/null 2>&1
    awk '
        /^c?fn=\(/ {
            id = $1; sub(/^c?fn=/, "", id)
            if (NF > 1) name[id] = $2
            if ($1 ~ /^cfn=/) callee = id
        }
        /^calls=/ { sub(/^calls=/, "", $1); calls[name[callee]] += $1 }
        /^summary:/ { instructions = $2 }
        END { printf "%d %d %d\n", instructions, calls["malloc"], calls["realloc"] }
    ' "$folder/counts"
}

# Instructions, and calls of malloc and realloc, for a line of the recording of this name.
line_of() {
    echo "$3" "$(counts "$1" "$2" "$3")" "$(counts "$1" "$2" 0)" |
        awk '{ printf "%.0f %.1f %.1f", ($2 - $5) / $1, ($3 - $6) / $1, ($4 - $7) / $1 }'
}

# The seconds in user mode and in all, and the memory at most in KiB, of a program's run on what was written.
usage_of() {
    python3 -c '
import os, sys
child = os.posix_spawn(sys.argv[1], sys.argv[1:], os.environ, file_actions=[(os.POSIX_SPAWN_OPEN, 1, os.devnull, os.O_WRONLY, 0)])
_, status, usage = os.wait4(child, 0)
print(usage.ru_utime, usage.ru_utime + usage.ru_stime, usage.ru_maxrss)
sys.exit(os.waitstatus_to_exitcode(status))' "$1" replay "$folder/configuration" "$folder/recording"
}

# Looks whether both write the same on what was written.
compare() {
    play "$node" >"$folder/output"
    if ! play "$plain" | cmp -s - "$folder/output"; then
        echo "$1: matter_node and speed/plain do not write the same" >&2
        exit 1
    fi
}

# Sets both beside each other on the recording of this name.
beside() {
    record "$1" "$3"
    compare "$1"
    timed=$(($(wc -l <"$folder/recording") - 1))
    for _ in 1 2 3 4 5; do
        echo node "$(usage_of "$node")"
        echo plain "$(usage_of "$plain")"
    done >"$folder/usage"
    counted="$(line_of "$node" "$1" "$2") $(line_of "$plain" "$1" "$2")"
    awk -v name="$1" -v timed="$timed" -v counted="$counted" '
        function beside(a, b) { return sprintf("plain %s, ratio %s", b, b > 0 ? sprintf("%.2f", a / b) : "unknown") }
        function seconds(of) { return sprintf("%.3f s, ", of["node"]) beside(of["node"], sprintf("%.3f", of["plain"])) }
        !($1 in user) || $2 < user[$1] { user[$1] = $2 }
        !($1 in all) || $3 < all[$1] { all[$1] = $3 }
        $4 > most[$1] { most[$1] = $4 }
        END {
            split(counted, count, " ")
            printf "%s: %d instructions a line, %s; ", name, count[1], beside(count[1], count[4])
            printf "%d lines in user mode %s; in all %s; ", timed, seconds(user), seconds(all)
            printf "%.1f MiB at most, plain %.1f\n", most["node"] / 1024, most["plain"] / 1024
        }' "$folder/usage"
}

if [ "${1-}" = beside ]; then
    shift
    lines=${1:-3000} timed_lines=${2:-200000}
    shift $(($# < 2 ? $# : 2))
    rustc --edition 2024 -O -C codegen-units=1 -C target-cpu=x86-64 speed/plain/main.rs -o "$plain"
    build
    [ $# -gt 0 ] || set -- attribute endpoint-0 endpoint-1 entries paths all-entries roots
    for name; do
        speed/recordings.py configuration "$name" >"$folder/configuration"
        beside "$name" "$lines" "$timed_lines"
    done
    exit
fi

lines=${1:-3000}
build
for name in $(cut -d ' ' -f 1 speed/data/recordings.txt); do
    speed/recordings.py configuration "$name" >"$folder/configuration"
    echo "$name" "$(line_of "$node" "$name" "$lines")"
done | awk '{ printf "%s: %.0f instructions a line, %.1f calls of malloc and %.1f of realloc\n", $1, $2, $3, $4 }'
