#!/usr/bin/env bash
# Types, values and samples in files: each command is shown, and then what it prints and its status where it isn't 0. examples/files.out has it all.
set -uo pipefail
cd "$(dirname "${BASH_SOURCE[0]}")" || exit
top="$(cd .. && pwd)"
work=$(mktemp -d)
trap 'rm -rf "$work"' EXIT
cp pose_*.idl poses.jsonl "$work"
cd "$work" || exit

xt() { "$top/xt" "$@"; }
say() { printf '\n# %s\n' "$1"; }
run() {
    printf '$ %s\n' "$1"
    eval "$1" || printf '(status %d)\n' $?
}

say "A type in a text, and values of it in JSON, one in a line."
run "cat pose_one.idl"
run "cat poses.jsonl"

say "They are written as samples. A file is by its ending what a bundle has a record for; behind -- stand the files."
run "xt write geo::Pose xcdr2 -- pose_one.idl poses.jsonl > monday.bundle"

say "A newer version of the type appends a member. Its reader understands the older samples: 0 and 1 are the places of the two texts."
run "cat pose_two.idl"
run "xt judge 0/geo::Pose 1/geo::Pose xcdr2 -- pose_two.idl pose_one.idl"
run "xt read 0/geo::Pose 1/geo::Pose xcdr2 -- pose_two.idl pose_one.idl monday.bundle"

say "Another one has wider numbers, and its reader doesn't."
run "cat pose_three.idl"
run "xt read 0/geo::Pose 1/geo::Pose xcdr2 -- pose_three.idl pose_one.idl monday.bundle"

say "A sample in a file of its own, as it came from the wire: from its encapsulation header on, without the five octets of a record's head."
run "head -n 1 poses.jsonl > first.json"
run "xt write geo::Pose xcdr2 -- pose_one.idl first.json | tail -c +6 > first.cdr"
run "od -An -tx1 first.cdr"
run "xt read geo::Pose geo::Pose xcdr2 -- pose_one.idl first.cdr"

say "The octets of a TypeObject do as well as a text, and its identifier as well as a name."
run "xt compile -- pose_one.idl | tail -c 116 > pose.typeobject"
run "xt read '#f2ee51fe8eaf794131137bbb7266ca' '#f2ee51fe8eaf794131137bbb7266ca' xcdr2 -- pose.typeobject first.cdr"

say "Standard input may stand among the files, as -."
run "cat monday.bundle | xt convert geo::Pose geo::Pose xcdr2 xcdr1 -- pose_one.idl - > older.bundle"
run "xt read geo::Pose geo::Pose xcdr1 -- pose_one.idl older.bundle"

say "What can't be taken is named, and nothing runs."
run "xt show -- pose_one.idl pose.txt none.idl 2>&1"
