#!/usr/bin/env bash
# The memory and the stack that volumes take, and the bytes of code of the library with all its functions. Prints tables.
#
#   make -C c && bash c/bench/memory.sh
#
# For another target: CC=aarch64-linux-gnu-gcc OUT=out/aarch64-linux-gnu RUN="qemu-aarch64 -L /usr/aarch64-linux-gnu".
set -eu
cd "$(dirname "$0")/.."
OUT=${OUT:-out}
${CC:-gcc} -std=c11 -O2 -Wall -Wextra -I. -Idrivers -o "$OUT/memory" bench/memory.c drivers/ram_nand.c "$OUT/libflashfs.a"
${RUN:-} "$OUT/memory"
echo
echo 'Code of the library, bytes:'
size "$OUT/flash_fs.o"
