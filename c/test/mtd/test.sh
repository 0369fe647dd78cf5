#!/usr/bin/env bash
# The driver of Linux's devices, and the library over it, on the kernel's simulator of NAND flash in a guest: a line for each test. The
# first run fetches the guest (make_guest.sh); where it cannot, a line says so. OUT: where all is built, and where c/test.sh made the
# library.
#
#   bash c/test/mtd/test.sh [JOB]     short, or another job of this folder (long: some minutes)
set -u
cd "$(dirname "$0")/../.." || exit 2
OUT=$(realpath -m "${OUT:-out}")
CC=${CC:-gcc}
job=${1:-short}
folder=$OUT/mtd
FLAGS="-std=c11 -Wall -Wextra -Wpedantic -Werror -O2 -static -I. -Idrivers -Itest"
DRIVER="drivers/mtd_raw.c drivers/mtd_nand.c drivers/page_code.c drivers/cut_nand.c drivers/driver_check.c"
MODEL="test/commands.c test/model.c"

build() {
    local name=$1
    shift
    $CC $FLAGS -o "$folder/run/$name" "$@" $MODEL "$OUT/libflashfs.a"
}

build_all() {
    build try_driver test/mtd/try_driver.c $DRIVER && build try_volume test/mtd/try_volume.c test/sessions.c drivers/file_nand.c $DRIVER &&
        build make_image test/make_image.c drivers/file_nand.c &&
        build flash-raw -DFLASH_RAW_MTD drivers/flash_raw.c drivers/packed_tag.c drivers/file_nand.c drivers/mtd_raw.c drivers/mtd_nand.c drivers/page_code.c &&
        build try_mtd test/try_mtd.c drivers/mtd_nand.c drivers/page_code.c drivers/driver_check.c
}

reads() { printf '#include <sys/ioctl.h>\n#include <mtd/mtd-user.h>\nunsigned long command = MEMREAD;\n' | $CC -fsyntax-only -x c - 2> /dev/null; }
if ! reads; then
    echo "skip  mtd, a guest with the simulator of NAND flash: no mtd/mtd-user.h with MEMREAD"
    exit
fi
begun=$SECONDS
rm -rf "$folder/run" && mkdir -p "$folder/run"
said=$(test/mtd/make_guest.sh "$folder/guest" 2>&1)
case $? in
0) printf 'ok    mtd, a guest of Debian, unpacked (%s s)\n' $((SECONDS - begun)) ;;
3)
    printf 'skip  mtd, a guest with the simulator of NAND flash: %s\n' "$said"
    exit
    ;;
*)
    printf 'FAIL  mtd, a guest of Debian, unpacked\n%s\n' "$said"
    exit 1
    ;;
esac
if ! build_all > "$folder/log" 2>&1; then
    printf 'FAIL  mtd, the programs compile\n'
    tail -n 30 "$folder/log"
    exit 1
fi
cp test/mtd/parts.sh "$folder/run/"
cp "test/mtd/$job.sh" "$folder/run/job.sh"
test/mtd/guest.sh "$folder/guest" "$folder/run" "${SECONDS_OF_GUEST:-900}"
tr -d '\r' < "$folder/run/console" > "$folder/log"
[ -z "${VERBOSE:-}" ] || cat "$folder/log"
sed -n 's/^@@ ok \([0-9]*\) \(.*\)/ok    mtd, \2 (\1 s)/p; s/^@@ FAIL \([0-9]*\) \(.*\)/FAIL  mtd, \2 (status \1)/p' "$folder/log"
if ! grep -q '^@@ end' "$folder/log"; then
    printf 'FAIL  mtd, the guest comes to its end\n'
    tail -n 30 "$folder/log" "$folder/run/qemu"
    exit 1
fi
if grep -q '^@@ FAIL' "$folder/log"; then
    grep -v '^@@' "$folder/log"
    exit 1
fi
