#!/usr/bin/env bash
# The tests of the page, in Chromium: a line for each, and at the end how many there were. What asks for a tool that is not on the
# machine is skipped, with a line.
#
#   bash web/test.sh [WORD]     WORD: only the tests that have it in their names
#
# The page is that of build.sh, which is called where it is not there or older than its files. FLASH_C_ARCHIVE names a libflash_c.a of this
# processor, for the tests that compare with the host. CHROMIUM: the browser. OUT: where all is built.
set -u
[ -z "${FLASH_C_ARCHIVE:-}" ] || FLASH_C_ARCHIVE=$(realpath "$FLASH_C_ARCHIVE")
OUT=$(realpath -m "${OUT:-$(dirname "$0")/out}")
export OUT CHROMIUM=${CHROMIUM:-chromium}
cd "$(dirname "$0")" || exit 2
CC=${CC:-gcc}
archive=${FLASH_C_ARCHIVE:-../crates/flash_c/out/libflash_c.a}

skip_all() {
    printf 'skip  the page: %s\n0 passed, 0 failed, 1 skipped\n' "$1"
    exit 0
}

has() { command -v "$1" > /dev/null 2>&1; }
is_current() {
    [ -e "$OUT/page.html" ] && [ -z "$(find page.html page.css build.sh src glue ../c/*.[ch] ../c/drivers -newer "$OUT/page.html" -print -quit)" ]
}

can_build() { has rt && { [ -n "${FLASH_C_MODULE:-}" ] || [ -d ../crates/posix_calls/out/rlib ]; }; }

# The programs that the page is compared with: list, make_image and replay, the last over the files that the module is made of.
build_native() {
    local flags="-std=c11 -Wall -Wextra -Wpedantic -Werror -O2 -I../c -I../c/drivers -I../c/test -Iglue" to=$OUT/native
    make -s -C ../c OUT="$to" FLASH_C_ARCHIVE="$(realpath "$archive")" || return 1
    # shellcheck disable=SC2086
    $CC $flags -o "$to/list" ../c/examples/list.c ../c/drivers/file_nand.c "$to/libflashfs.a" &&
        $CC $flags -o "$to/make_image" ../c/test/{make_image,commands,model}.c ../c/drivers/file_nand.c "$to/libflashfs.a" &&
        $CC $flags -o "$to/replay" test/replay.c glue/glue.c ../c/drivers/ram_nand.c "$to/libflashfs_heap.a" "$to/libflashfs.a"
}

has "$CHROMIUM" || skip_all "there is no $CHROMIUM"
has node || skip_all "there is no node"
if ! is_current; then
    can_build || skip_all "it is not built, and there is no module to make it of"
    bash build.sh || exit 1
fi
rm -f "$OUT/native/replay"
if [ -e "$archive" ] && has "$CC" && ! build_native; then
    printf 'FAIL  the programs that the page is compared with\n0 passed, 1 failed, 0 skipped\n'
    exit 1
fi
exec node test/page_tests.js "$OUT" "$@"
