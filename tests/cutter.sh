#!/bin/sh
# cutter.sh FOLDER: runs the cutter on each NAME.in of the folder, compares what it prints with NAME.out, and says how many agree.
# CUTTER names the program, crates/cutter/out/cutter if it is not set; `rt run` in crates/cutter builds it.
folder=${1:?usage: cutter.sh FOLDER}
root=$(cd "$(dirname "$0")/.." && pwd)
program=${CUTTER:-$root/crates/cutter/out/cutter}
good=0
all=0
for input in "$folder"/*.in; do
    all=$((all + 1))
    if "$program" <"$input" | cmp -s - "${input%.in}.out"; then
        good=$((good + 1))
    else
        echo "differs: $input"
    fi
done
echo "$good of $all agree"
[ "$good" -eq "$all" ] && [ "$all" -gt 0 ]
