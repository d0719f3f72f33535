#!/usr/bin/env bash
# A data set of many recordings, over three versions of a type, replayed by GNU parallel: many.sh [RECORDINGS [SAMPLES [HOSTS]]]
# HOSTS is a file of hosts as parallel's --sshloginfile takes it, which have this folder and the temporary one at the same places; without it the
# machine itself is the only host. examples/many.out has what 300 recordings of 100 samples print; times go to standard error.
set -uo pipefail
hosts=
(($# < 3)) || hosts=$(realpath -e -- "$3") || exit 2
cd "$(dirname "${BASH_SOURCE[0]}")" || exit
top="$(cd .. && pwd)"
recordings=${1:-300} samples=${2:-100}
command -v parallel >/dev/null || { echo "many.sh: GNU parallel is missing (Debian: apt-get install parallel)" >&2; exit 2; }
[[ ! -e $top/crates.txt || -x $top/crates/xt/out/xt ]] || { echo "many.sh: the program isn't built, and the interpreter is too slow for this; (cd crates/xt && rt run </dev/null) builds it" >&2; exit 2; }

work=$(mktemp -d) || exit
trap 'rm -rf "$work"' EXIT
for version in one two three; do cp "pose_$version.idl" "$work/$version.idl"; done
if [[ $hosts ]]; then cp "$hosts" "$work/hosts"; else echo : >"$work/hosts"; fi
cd "$work" || exit
xt=$(printf %q "$top/xt")

say() { printf '\n# %s\n' "$1"; }

# Records the Nth drive. The vehicles have three versions of the type.
record_drive() {
    local versions=(one two three)
    local version=${versions[10#$1 % 3]}
    awk -v drive="$1" -v samples="$samples" -v version="$version" 'BEGIN {
        for (i = 0; i < samples; i++) {
            printf "{\"vehicle\":\"rover-%d\",\"east\":%d,\"north\":%d", drive % 40, 100 * drive + i, -i
            print version == "two" ? ",\"heading\":" i % 360 "}" : "}"
        }
    }' >"$1.jsonl"
    "$top/xt" write geo::Pose xcdr2 -- "$version.idl" "$1.jsonl" | "$top/xt" record geo::Pose xcdr2 -- "$version.idl" - >"recordings/$1.bundle"
    rm "$1.jsonl"
}
export -f record_drive
export top samples

# Replays the recordings that the log doesn't have yet. The lines of one come to their place when it is done.
replay() {
    exec parallel --will-cite --joblog joblog --resume "$@" \
        "$xt replay 0/geo::Pose -- two.idl {} > lines/{/.}.\$\$ && mv lines/{/.}.\$\$ lines/{/.}.txt" ::: recordings/*.bundle
}

begin() {
    rm -rf lines joblog
    mkdir lines
}

tell() {
    printf '%d recordings, %d lines, %s\n' "$(find lines -name '*.txt' | wc -l)" "$(cat lines/*.txt | wc -l)" "$(cat lines/*.txt | md5sum | cut -d' ' -f1)"
}

# Replays all, with these words for parallel behind a name for them.
whole() {
    local begun=${EPOCHREALTIME/./} name=$1
    shift
    begin
    (replay "$@")
    printf '%s: %d ms\n' "$name" $(((${EPOCHREALTIME/./} - begun) / 1000)) >&2
    printf '%s: ' "$name"
    tell
}

say "$recordings recordings of $samples samples each, by vehicles that have three versions of geo::Pose."
mkdir recordings
seq -w "$recordings" | parallel --will-cite record_drive

say "Replayed under the second version, by so many jobs at once:"
for jobs in 1 2 4; do whole "$jobs jobs" --jobs "$jobs"; done
echo "streams that the reader understands: $(cat lines/*.txt | grep -c '^stream .* yes$')"
echo "streams that it doesn't: $(cat lines/*.txt | grep -c '^stream .* no ')"
echo "samples that were read: $(cat lines/*.txt | grep -c '^ok ')"

say "On each host of a list, by as many jobs as it has processors:"
whole "the hosts" --sshloginfile hosts --workdir "$work"

say "Stopped when a third is done, and resumed from the log:"
begin
replay --jobs 2 2>stopped &
stopped=$!
until [[ -f joblog ]] && (($(wc -l <joblog) > recordings / 3)); do sleep 0.02; done
kill "$stopped" && kill "$stopped"
wait "$stopped"
done_before=$(find lines -name '*.txt' | wc -l)
((0 < done_before && done_before < recordings)) && echo "some are done, and not all"
(replay --jobs 2)
tell
awk 'NR > 1 { seen[$1]++; failed += $7 != 0 || $8 != 0 } END { print "in the log: " NR - 1 " runs, of " length(seen) " recordings; " failed + 0 " failed" }' joblog
