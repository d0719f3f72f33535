#!/usr/bin/env bash
# A monitor: samples come through a pipe one at a time, and the line of each is there before the next is sent, though lines are written by blocks.
# Each command is shown, and then what it prints. examples/monitor.out has it all.
set -uo pipefail
cd "$(dirname "${BASH_SOURCE[0]}")" || exit
top="$(cd .. && pwd)"
work=$(mktemp -d)
trap 'rm -rf "$work"' EXIT
seconds=60 # how long a line may take: the interpreter is slow to begin

xt() { "$top/xt" "$@"; }
say() { printf '\n# %s\n' "$1"; }
show() { printf '$ %s\n' "$1"; }

number=0
while read -r pose; do
    number=$((number + 1))
    printf '%s\n' "$pose" >"$work/$number.json"
    xt write geo::Pose xcdr2 -- pose_one.idl "$work/$number.json" >"$work/$number.sample"
done <poses.jsonl

say "The monitor begins with the type, and waits for samples."
show "xt wrap idl < pose_one.idl > pipe; xt read geo::Pose geo::Pose xcdr2 < pipe &"
mkfifo "$work/pipe" "$work/lines"
xt read geo::Pose geo::Pose xcdr2 <"$work/pipe" >"$work/lines" &
monitor=$!
exec 3>"$work/pipe" 4<"$work/lines"
xt wrap idl <pose_one.idl >&3

say "Each sample's line comes before the next sample is sent."
for sample in $(seq "$number"); do
    show "cat $sample.sample > pipe"
    cat "$work/$sample.sample" >&3
    if ! read -r -t "$seconds" line <&4; then
        printf 'no line in %d seconds\n' "$seconds"
        exec 3>&- 4<&-
        exit 1
    fi
    printf '%s\n' "$line"
done

say "The end of the pipe ends the monitor."
exec 3>&-
wait "$monitor"
printf '(status %d)\n' $?
exec 4<&-
