#!/usr/bin/env bash
# A vehicle publishes its pose while the type changes: each command is shown, and then what it prints and its status where it isn't 0. examples/pose.out has it all.
set -uo pipefail
cd "$(dirname "${BASH_SOURCE[0]}")" || exit
top="$(cd .. && pwd)"
work=$(mktemp -d)
trap 'rm -rf "$work"' EXIT
for version in one two three; do cp "pose_$version.idl" "$work/$version.idl"; done
cd "$work" || exit

xt() { "$top/xt" "$@"; }
say() { printf '\n# %s\n' "$1"; }
run() {
    printf '$ %s\n' "$1"
    eval "$1" || printf '(status %d)\n' $?
}

say "Three versions of a type. The second appends a member; the third has wider numbers."
run "cat one.idl two.idl three.idl"

say "The first version as its reader sees it: ids are there, and the identifiers of its minimal and complete TypeObjects."
run "xt show -- one.idl"

say "These TypeObjects, each in a record: its kind, its length, and its octets."
run "xt compile -- one.idl | od -An -tx1"

say "A value in JSON is written as a sample in XCDR2."
run "echo '{\"vehicle\":\"rover-7\",\"east\":12500,\"north\":-300}' > old.json"
run "xt write geo::Pose xcdr2 -- one.idl old.json > old.bundle"
run "od -An -tx1 old.bundle"

say "A reader that knows the second version reads it: the member that isn't there is absent."
run "xt read 0/geo::Pose 1/geo::Pose xcdr2 -- two.idl one.idl old.bundle"

say "And the other way round: a newer sample, and a reader that knows the first version alone."
run "echo '{\"vehicle\":\"rover-7\",\"east\":12500,\"north\":-300,\"heading\":90}' > new.json"
run "xt write geo::Pose xcdr2 -- two.idl new.json > new.bundle"
run "xt read 0/geo::Pose 1/geo::Pose xcdr2 -- one.idl two.idl new.bundle"

say "The second version is assignable from the first. The third is not, and the rule and the member are named."
run "xt judge 0/geo::Pose 1/geo::Pose xcdr2 -- two.idl one.idl"
run "xt judge 0/geo::Pose 1/geo::Pose xcdr2 -- three.idl one.idl"

say "The sample again, in the older representation."
run "xt convert geo::Pose geo::Pose xcdr2 xcdr1 -- one.idl old.bundle | od -An -tx1"
