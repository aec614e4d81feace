#!/bin/sh
# Runs the examples with a built program and compares what comes back with the expected files.
# usage: examples/check.sh [PROGRAM]
set -e
cd "$(dirname "$0")"
program=$(realpath "${1:-../crates/facechange/out/facechange}")
work=$(mktemp -d)
trap 'rm -rf "$work"' EXIT

# same FILE EXPECTED: the two files hold the same
same() {
    cmp -s "$1" "$2" || { echo "differs: $2"; exit 1; }
}

"$program" try hello/hello.elf hello/views hello 2000 "$work/log" > "$work/console"
same "$work/console" hello/expected.console
same "$work/log" hello/expected.log

for kernel in kernel rotext; do
    "$program" try c/$kernel.elf c/$kernel.views sort 2000 "$work/log" > "$work/console"
    same "$work/console" c/expected.console
    same "$work/log" c/expected.log
done

"$program" try ranges/kernel.elf ranges/views boot 200 "$work/log" > "$work/console"
same "$work/console" ranges/expected.console
same "$work/log" ranges/expected.log

"$program" profile tasks/kernel.elf tasks/setup.quiet "$work/views"
same "$work/views" tasks/views
"$program" drive tasks/kernel.elf tasks/setup.quiet tasks/views tasks/script "$work/trace" "$work/log" > "$work/console"
same "$work/console" tasks/expected.quiet.console
same "$work/log" /dev/null
"$program" drive tasks/kernel.elf tasks/setup.keys tasks/views tasks/script "$work/trace" "$work/log" > "$work/console"
same "$work/console" tasks/expected.keys.console
same "$work/log" tasks/expected.log
"$program" replay tasks/kernel.elf tasks/setup.keys "$work/trace" > "$work/console"
same "$work/console" tasks/expected.keys.console

# Threads go on in another order each time: console and missing functions are the same, and each trace replays.
"$program" profile crew/kernel.elf crew/setup "$work/views"
same "$work/views" crew/views
for run in 1 2 3 4 5 6 7 8 9 10 11 12 13 14 15 16 17 18 19 20; do
    "$program" run crew/kernel.elf crew/setup crew/views "$work/trace" "$work/log" > "$work/console"
    same "$work/console" crew/expected.console
    same "$work/log" /dev/null
    "$program" replay crew/kernel.elf crew/setup "$work/trace" > "$work/console"
    same "$work/console" crew/expected.console
    "$program" run crew/kernel.elf crew/setup crew/views.few "$work/trace" "$work/log" > "$work/console"
    same "$work/console" crew/expected.console
    cut -d ' ' -f 5 "$work/log" | sort > "$work/missing"
    same "$work/missing" crew/expected.missing
    "$program" replay crew/kernel.elf crew/setup "$work/trace" > "$work/console"
    same "$work/console" crew/expected.console
done

# What the listings say is what another disassembler says, where there is one.
for listed in "c/kernel.elf c/kernel.views sort" "tasks/kernel.elf tasks/views shell" "crew/kernel.elf crew/views none"; do
    tools/listing_against_objdump.py "$program" $listed || { echo "differs: $listed"; exit 1; }
done

echo "all examples are as expected"
