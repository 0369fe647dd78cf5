#!/usr/bin/env bash
# What the workloads of workloads.c ask of the device, and, where valgrind is there, how many instructions the library takes
# for each (with those of malloc and memcpy, without those of the flash in memory). Prints a table.
#
#   make -C c && bash c/bench/count.sh             all of them
#   make -C c && bash c/bench/count.sh appends     one of them
set -eu
cd "$(dirname "$0")/.."
OUT=${OUT:-out}
${CC:-gcc} -std=c11 -O2 -Wall -Wextra -I. -Idrivers -o "$OUT/workloads" bench/workloads.c drivers/ram_nand.c "$OUT/libflashfs.a"
work=$(mktemp -d)
trap 'rm -rf "$work"' EXIT
echo '| Workload | Reads | Programs | Erases | Instructions, millions |'
echo '|---|---|---|---|---|'
for name in ${*:-small_files in_order overwrites appends renames churn reads random_reads seeks unmount mount mount_scanned}; do
    row=$("$OUT/workloads" $name)
    instructions='not measured'
    if command -v valgrind > /dev/null && [ -f /usr/include/valgrind/callgrind.h ]; then
        valgrind -q --tool=callgrind --collect-atstart=no --callgrind-out-file="$work/$name" "$OUT/workloads" $name > /dev/null 2>&1
        instructions=$(awk '$1 == "summary:" || $1 == "totals:" { n = $2 } END { printf "%.2f", n / 1000000 }' "$work/$name")
    fi
    echo "$row" | sed "s/| [0-9.]* |\$/| $instructions |/"
done
