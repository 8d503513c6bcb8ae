#!/usr/bin/env bash
#SBATCH --job-name=strikes
#SBATCH --array=1-100
#SBATCH --ntasks=1
#SBATCH --cpus-per-task=1
#SBATCH --output=/dev/null
# A campaign on the nodes of a Slurm cluster, one seed for each task of the array:
#
#     sbatch --array=1-100 scripts/campaign.slurm PROGRAM IN FOLDER COUNT [OPTION..]
#
# PROGRAM, IN and FOLDER are paths that all nodes see; COUNT is the strikes of a seed, at most 10,000; OPTION.. go to
# `campaign`. Task I leaves FOLDER/seed-I.txt, under this name only when it is whole. Submit the missing seeds again.
set -euo pipefail
[ $# -ge 4 ] || { sed -n '/^# A campaign/,/^set/{s/^# \{0,1\}//;/^set/!p}' "$0" >&2; exit 2; }
program=$1 input=$2 folder=$3 count=$4 seed=$SLURM_ARRAY_TASK_ID
part=$folder/.seed-$seed.$$
trap 'rm -f "$part"' EXIT
"$program" campaign "$input" --seed "$seed" --count "$count" "${@:5}" > "$part"
mv "$part" "$folder/seed-$seed.txt"
