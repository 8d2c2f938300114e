#!/usr/bin/env bash
# What a line costs: instructions, beside their targets, and seconds and peak memory. The jobs are those of bench/jobs.py.
# Wants Debian's packages valgrind and time, and python3: bench/run.sh [PROGRAM]
# KINDS names other jobs. Those of a disk, "reading writing", aren't among them as long as the program drives none.
set -eu
top=$(cd "$(dirname "$0")/.." && pwd)
# The most instructions that a line of each job may take where the register lines are dropped. A plain program without proofs,
# with the same registers and a driver over them, takes so many.
declare -A TARGETS=([enumeration]=585 [received]=1018 [sent]=1154)
kinds=${KINDS:-enumeration received sent reports music}
work=$(mktemp -d)
trap 'rm -rf "$work"' EXIT

if [ $# -gt 0 ]; then
    program=$1
else
    "$top/usbrun" device <"$top/examples/nothing.job"
    program=$top/crates/usbrun/out/usbrun
fi

# What the program does with the register lines, under these words.
named() { case "$*" in *--regs) echo "register lines shown" ;; *) echo "register lines dropped" ;; esac; }

# Makes a disk anew, and puts the words of a job of this kind into `words`.
words_of() {
    words=(device)
    case $1 in
    reading | writing)
        rm -f "$work/disk.img"
        truncate -s 1M "$work/disk.img"
        words+=(--disk "$work/disk.img")
        ;;
    esac
}

# Whether a job takes no more than its target, where it has one.
judged() {
    local most=${TARGETS[$1]-}
    if [ -z "$most" ]; then
        echo "no target"
    elif [ "$2" -gt "$most" ]; then
        echo "target at most $most: missed"
    else
        echo "target at most $most: met"
    fi
}

# Instructions a line of a job of so many lines, under these words.
instructions() {
    local lines=$1
    shift
    valgrind --tool=callgrind --callgrind-out-file="$work/callgrind" "$program" "$@" <"$work/job" 2>&1 >/dev/null |
        awk -v lines="$lines" '/refs:/ { gsub(",", "", $NF); printf "%d\n", $NF / lines + 0.5 }'
}

if command -v valgrind >/dev/null 2>&1; then
    for kind in $kinds; do
        words_of "$kind"
        python3 "$top/bench/jobs.py" "$kind" 100000 >"$work/job"
        lines=$(wc -l <"$work/job")
        dropped=$(instructions "$lines" "${words[@]}")
        echo "$kind: instructions a line over $lines lines, $(named "${words[@]}"): $dropped; $(judged "$kind" "$dropped")"
        words_of "$kind"
        words+=(--regs)
        echo "$kind: instructions a line over $lines lines, $(named "${words[@]}"): $(instructions "$lines" "${words[@]}")"
    done
else
    echo "SKIPPED instructions: there is no valgrind"
fi

if [ ! -x /usr/bin/time ]; then
    echo "SKIPPED seconds and memory: there is no /usr/bin/time"
    exit 0
fi
for kind in $kinds; do
    for about in 1000 1000000; do
        python3 "$top/bench/jobs.py" "$kind" "$about" >"$work/job"
        lines=$(wc -l <"$work/job")
        for shown in "" --regs; do
            words_of "$kind"
            [ -z "$shown" ] || words+=("$shown")
            /usr/bin/time -f '%e %M' -o "$work/time" "$program" "${words[@]}" <"$work/job" >"$work/out"
            read -r seconds peak <"$work/time"
            echo "$kind: $lines lines, $(named "${words[@]}"): $seconds s, $peak KB at most, $(wc -c <"$work/out") bytes written"
        done
    done
done
