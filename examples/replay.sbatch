#!/usr/bin/env bash
#SBATCH --job-name=replay
#SBATCH --cpus-per-task=1
#SBATCH --time=00:30:00
# One task of an array job: replays its share of a list of recordings, one path a line, under the first type of a name in a text.
#   sbatch --array=0-2 examples/replay.sbatch LIST TEXT TYPE LINES SHARE
# Task N takes SHARE recordings of the LIST, from line N * SHARE on, and leaves the lines of each in the folder LINES. XT is the path of the script xt.
# A recording whose lines are there is passed over, so that the same job may be sent again. A task fails at the first recording that does.
set -euo pipefail
list=$1 text=$2 type=$3 lines=$4 share=$5
mkdir -p "$lines"
first=$((SLURM_ARRAY_TASK_ID * share + 1)) last=$(((SLURM_ARRAY_TASK_ID + 1) * share))
sed -n "${first},${last}p; ${last}q" "$list" | while IFS= read -r recording; do
    name=$lines/$(basename "$recording" .bundle)
    [[ ! -e $name.txt ]] || continue
    "$XT" replay "0/$type" -- "$text" "$recording" >"$name.$SLURM_ARRAY_TASK_ID" </dev/null
    mv "$name.$SLURM_ARRAY_TASK_ID" "$name.txt"
done
