#!/usr/bin/env bash
# A campaign on the processors of one machine, one seed for each job of GNU parallel:
#
#     scripts/campaign_parallel.sh FIRST[-LAST] PROGRAM IN FOLDER COUNT [OPTION..]
#
# Leaves FOLDER/seed-I.txt for each seed from FIRST to LAST, under this name only when it is whole. It passes over a seed that
# is there, so a call that was stopped goes on. COUNT is the strikes of a seed, at most 10,000. Without LAST it is the strikes of
# all seeds, as 1000000: each has 10,000 of them, the last one the rest. OPTION.. go to `campaign`.
# JOBS is how many run at once, by default one for each processor. If standard error is a terminal, it shows progress there.
# Exit status: how many jobs failed, 2 for words that do not fit, 77 without GNU parallel.
set -euo pipefail
MOST=10000  # strikes of a seed
if [ $# -lt 5 ] || ! [[ $1 =~ ^[0-9]+(-[0-9]+)?$ && $5 =~ ^[0-9]{1,9}$ ]]; then
    sed -n '2,/^set/s/^# \{0,1\}//p' "$0" >&2
    exit 2
fi
if ! parallel --version 2> /dev/null | grep -q GNU; then
    echo "campaign_parallel.sh: no GNU parallel" >&2
    exit 77
fi
first=${1%-*} last=${1#*-} program=$2 input=$3 folder=$4 count=$5 bar=() counts=()
if [ "$1" = "$first" ]; then
    last=$((first + (count + MOST - 1) / MOST - 1))
    for ((left = count; left > 0; left -= MOST)); do counts+=($((left < MOST ? left : MOST))); done
else
    for ((seed = first; seed <= last; seed++)); do counts+=("$count"); done
fi
[ ! -t 2 ] || bar=(--bar)
mkdir -p "$folder"
one() {
    local seed=$1 count=$2 program=$3 input=$4 folder=$5
    [ -e "$folder/seed-$seed.txt" ] && return
    "$program" campaign "$input" --seed "$seed" --count "$count" "${@:6}" > "$folder/.seed-$seed.part" &&
        mv "$folder/.seed-$seed.part" "$folder/seed-$seed.txt"
}
export -f one
SHELL=$(command -v bash) parallel --will-cite ${bar[@]+"${bar[@]}"} --jobs "${JOBS:-100%}" \
    one {1} {2} "$program" "$input" "$folder" "${@:6}" ::: $(seq "$first" "$last") :::+ "${counts[@]}"
