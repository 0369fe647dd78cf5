#!/usr/bin/env bash
# The tests of the C library: a line for each, and at the end how many there were. What asks for a tool that is not on the machine
# is skipped, with a line. FLASH_C_ARCHIVE names a libflash_c.a that is there; else `archive.sh` makes one. OUT: where all is built.
# `make test TARGET=..` runs it for another target: RUN is what runs its programs here, and CC, CXX and NM are its tools.
#
#   bash c/test.sh [quick]     quick: without the sanitizer, without valgrind, without a volume that is mounted on Linux, and without
#                              the guest with the simulator of its devices
#
# Each test program takes how much it does, and a seed: out/test_cuts 20000 7 does more than is done here.
set -u
[ -z "${FLASH_C_ARCHIVE:-}" ] || export FLASH_C_ARCHIVE=$(realpath "$FLASH_C_ARCHIVE")
cd "$(dirname "$0")" || exit 2
OUT=${OUT:-out}
CC=${CC:-gcc}
CXX=${CXX:-g++}
NM=${NM:-nm}
RUN=${RUN:-}
TARGET=${TARGET:-}
cuts=300 pages=1000000 torn=200 every=1
[ -z "$RUN" ] || cuts=100 pages=50000 torn=30 every=20 # a processor that is made by a program takes eight times as long
[ "${1:-}" != quick ] || pages=50000 torn=30
FLAGS="-std=c11 -Wall -Wextra -Wpedantic -Werror -O2 -g -I. -Idrivers -Iexamples"
passed=0 failed=0 skipped=0
log=$(mktemp)
work=$(mktemp -d)
trap 'rm -rf "$log" "$work"' EXIT

# Runs a command as a test: NAME COMMAND..
run() {
    local name=$1 begun=$SECONDS status
    shift
    "$@" > "$log" 2>&1
    status=$?
    if [ $status -eq 0 ]; then
        passed=$((passed + 1))
        printf 'ok    %s (%s s)\n' "$name" $((SECONDS - begun))
        [ -z "${VERBOSE:-}" ] || cat "$log"
    else
        failed=$((failed + 1))
        printf 'FAIL  %s (status %s)\n' "$name" $status
        tail -n 30 "$log"
    fi
}

skip() {
    skipped=$((skipped + 1))
    printf 'skip  %s: %s\n' "$1" "$2"
}

has() { command -v "$1" > /dev/null 2>&1; }

# Runs a script that prints lines of its own.
others() {
    OUT=$OUT CC=$CC bash "$@" | tee "$log"
    passed=$((passed + $(grep -c '^ok ' "$log"))) failed=$((failed + $(grep -c '^FAIL ' "$log")))
    skipped=$((skipped + $(grep -c '^skip ' "$log")))
}

# Compiles a program: OUTPUT WORDS..
build() {
    local output=$1
    shift
    $CC $FLAGS -o "$OUT/$output" "$@" && wrap "$OUT/$output"
}

# Where programs are run by another, puts a script that does so in the place of one.
wrap() {
    [ -n "$RUN" ] || return 0
    mv "$1" "$1.program"
    printf '#!/bin/sh\nexec %s "%s" "$@"\n' "$RUN" "$(realpath "$1.program")" > "$1"
    chmod +x "$1"
}

compiles() { echo 'int main(void) { return 0; }' | $CC -x c -o "$work/tried" - "$@" 2> /dev/null && $RUN "$work/tried"; }
includes() { echo "#include <$1>" | $CC -E -x c - > /dev/null 2>&1; }

# The names of the header are those of the library, and it asks a program for few others.
names() {
    sed -n 's/^[a-z].*[ *]\(flash_fs_[a-z_]*\)(.*/\1/p' flash_fs.h | sort > "$work/declared"
    sed -n 's/^[a-z].*[ *]\(flash_memory_[a-z]*\)(.*/\1/p' flash_memory.h | sort > "$work/memory"
    sort -o "$work/declared" "$work/declared" "$work/memory"
    $NM --defined-only "$OUT/libflashfs.a" 2> /dev/null | awk '$2 ~ /[TDBRV]/ { print $3 }' | sort > "$work/defined"
    diff "$work/declared" "$work/defined" || return 1
    $NM --defined-only "$OUT/libflash_c.a" 2> /dev/null | awk '$2 == "T" && $3 ~ /^flash_/ { print $3 }' | sort > "$work/exported"
    sed -n 's/^[a-z].*[ *]\(flash_[a-z_]*\)(.*;$/\1/p; s/^int flash_\(link\|rename\)(.*,$/flash_\1/p' flash_port.c |
        grep -v -e '^flash_port_write' -e '^flash_port_read' -e '^flash_port_close' | sort > "$work/known"
    diff "$work/exported" "$work/known" || return 1
    $NM -u "$OUT/flash_fs.o" | awk '{ print $2 }' | sort > "$work/wanted"
    printf '%s\n' __stack_chk_fail __memcpy_chk bcmp memcmp memcpy memmove memset strlen _GLOBAL_OFFSET_TABLE_ |
        sort - "$work/memory" > "$work/allowed"
    if [ -n "$(comm -23 "$work/wanted" "$work/allowed")" ]; then
        echo "the library asks for more than it may:"
        comm -23 "$work/wanted" "$work/allowed"
        return 1
    fi
}

# The numbers of errors are those of the proved library, whose sources are in the folder: each name has its number, and no number
# is in one of them alone.
numbers() {
    sed -n 's/^ *FLASH_\(E[A-Z]*\) = \(-[0-9]*\).*/\1 \2/p' flash_fs.h | sort > "$work/header"
    sed -n 's/.*Errno::\(E[A-Z]*\) => \(-[0-9]*\).*/\1 \2/p' "$1"/*.rt | sort > "$work/library"
    [ -s "$work/library" ] && [ -z "$(comm -13 "$work/header" "$work/library")" ] || return 1
    grep -ho -- '= *>* *-[0-9][0-9]*' "$1"/*.rt | grep -o -- '-[0-9]*' | sort -u > "$work/library"
    diff "$work/library" <(awk '{ print $2 }' "$work/header" | sort -u)
}

# An image that C made is checked by the program of the repository, and one that the program made is shown by C.
images() {
    local program=$1
    "$OUT/make_image" "$work/c.img" > "$work/wanted" && "$program" check "$work/c.img" > "$work/there" || return 1
    diff "$work/wanted" "$work/there" || return 1
    "$program" format "$work/program.img" > /dev/null || return 1
    printf 'mkdir /a\nopen /a/b wc\nwrite 0 hello\nclose 0\nlink /a/b /c\n' | "$program" run "$work/program.img" || return 1
    "$OUT/list" "$work/program.img" | tee "$work/tree"
    [ "$(awk '{ print $NF }' "$work/tree" | tr '\n' ' ')" = "/a/ /a/b /c " ] && [ "$("$OUT/list" "$work/program.img" /c)" = hello ]
}

# An image that the program of the repository made, which is among its tests, is shown by C.
image_of_program() {
    cp "$1" "$work/made.img" && "$OUT/list" "$work/made.img" > "$work/tree" && cat "$work/tree" && cmp "$1" "$work/made.img" &&
        [ "$(awk '{ print $NF }' "$work/tree")" = /a/ ]
}

# An image that C made is shown by C.
image_of_c() {
    "$OUT/make_image" "$work/own.img" && "$OUT/list" "$work/own.img" > "$work/tree" && [ "$(wc -l < "$work/tree")" -eq 32 ] &&
        [ "$("$OUT/list" "$work/own.img" /logs/old/29 | wc -c)" -eq 87000 ]
}

# Of an image of which a header and a page of another file are lost, which does not mount, all else is left.
left_of_image() {
    local image="$work/lost.img" headers
    "$OUT/make_image" "$image" && "$OUT/salvage" "$image" > "$work/wanted" || return 1
    headers=$(grep -abo NLFS "$image" | cut -d : -f 1) # the kind of a page is 49 bytes before its data; the pages take 49 + 2,048
    poke "$image" $(($(sed -n 5p <<< "$headers") - 49)) 002 && poke "$image" $(($(sed -n 30p <<< "$headers") + 2048)) 002 || return 1
    ! "$OUT/list" "$image" 2> "$work/said" && grep -q 'error -84' "$work/said" || return 1
    "$OUT/salvage" "$image" > "$work/there" || return 1
    diff "$work/wanted" "$work/there" | grep '^[<>]' > "$work/changes"
    cat "$work/changes"
    [ "$(wc -l < "$work/changes")" -eq 6 ] && [ "$(grep -c '^> lost page: block' "$work/changes")" -eq 2 ] &&
        grep -q '^> *[0-9]*: its header is lost  */logs/old/00$' "$work/changes" && grep -q '33000 bytes,  2048 lost /logs/old/11$' "$work/changes"
}

# A file in another form, and one byte of it changed: FILE PLACE BYTE (octal).
poke() { printf "\\$3" | dd of="$1" bs=1 seek="$2" conv=notrunc status=none; }

# An image as raw pages and back, over three layouts, one with tags of 24 bytes: the same image, also where bits of a tag flipped; a page whose data changed is lost; a
# marked block stays marked; and a volume whose erased blocks are left out, so that its blocks lie elsewhere, shows the same tree.
raw_pages() {
    local free raw="$OUT/flash-raw" image="$work/c.img" sizes="--page 2048 --block 64" page=$((2048 + 128)) from
    "$OUT/make_image" "$image" && "$OUT/list" "$image" > "$work/wanted" || return 1
    "$OUT/list" "$image" /logs/old/29 >> "$work/wanted"
    for free in "2+38 --tag 24" 2+74 4+20,36+20,68+20,100+20; do
        "$raw" to-pages --spare 128 --free $free "$image" "$work/pages" || return 1
        [ "$(stat -c %s "$work/pages")" -eq $((64 * 64 * page)) ] || return 1
        "$raw" to-image --spare 128 --free $free $sizes "$work/pages" "$work/back.img" || return 1
        shows "$work/back.img" && "$raw" to-pages --spare 128 --free $free "$work/back.img" "$work/again" || return 1
        cmp "$work/pages" "$work/again" || return 1
    done
    from=$(grep -abo -m 1 NLFS "$work/pages" | head -n 1 | cut -d : -f 1) # a page that is written
    poke "$work/pages" $((from + 2048 + 36)) 125 && poke "$work/pages" $((from + 2048 + 101)) 252 || return 1
    "$raw" to-image --spare 128 --free $free $sizes "$work/pages" "$work/other.img" && cmp "$work/back.img" "$work/other.img" || return 1
    poke "$work/pages" $((from + 9)) 125 || return 1
    "$raw" to-image --spare 128 --free $free $sizes "$work/pages" "$work/other.img" 2> "$work/said" || return 1
    grep -q ' 1 uncorrectable' "$work/said" || return 1
    poke "$work/back.img" $((32 + 63)) 001 || return 1
    "$raw" to-pages --spare 128 --free $free "$work/back.img" "$work/pages" || return 1
    "$raw" to-image --spare 128 --free $free $sizes "$work/pages" "$work/other.img" 2> "$work/said" || return 1
    grep -q '64 blocks, 1 of them bad' "$work/said" && shows "$work/other.img" || return 1
    "$raw" to-pages --skip-erased --spare 128 --free $free "$work/back.img" "$work/pages" || return 1
    [ "$(stat -c %s "$work/pages")" -lt $((64 * 64 * page)) ] || return 1
    "$raw" to-image --spare 128 --free $free $sizes --blocks 64 "$work/pages" "$work/other.img" && shows "$work/other.img" || return 1
    ! "$raw" to-pages --spare 64 --free 2+38 "$image" "$work/pages" && ! "$raw" to-pages --spare 128 --free 2+40,41+20 "$image" "$work/pages" &&
        ! "$raw" to-pages --spare 128 --free 0+74 "$image" "$work/pages" && ! "$raw" to-image --spare 64 --free 2+54 $sizes "$image" "$work/x"
}
# An image without its erased blocks, on a chip whose block PLACE is bad, for each place: the files are the same.
moved() {
    local raw="$OUT/flash-raw" words="--spare 128 --free 4+90 --page 512 --block 32" block=$((32 * (512 + 128))) place count
    "$OUT/make_image" "$work/files.img" rewritten && files "$work/files.img" > "$work/wanted" || return 1
    # shellcheck disable=SC2086 # words
    "$raw" to-pages --skip-erased $words "$work/files.img" "$work/pages" || return 1
    count=$(($(stat -c %s "$work/pages") / block))
    head -c $block /dev/zero | tr '\0' '\377' > "$work/erased"
    for ((place = 0; place <= count; place++)); do
        { head -c $((place * block)) "$work/pages"; cat "$work/erased"; tail -c +$((place * block + 1)) "$work/pages"; } > "$work/moved"
        # shellcheck disable=SC2086
        "$raw" to-image $words --blocks 32 "$work/moved" "$work/other.img" || return 1
        files "$work/other.img" > "$work/there" && cmp "$work/wanted" "$work/there" || return 1
    done
}
files() {
    local file
    "$OUT/list" "$1" || return 1
    for file in 0 1 2 3 4 5; do "$OUT/list" "$1" /f$file | cksum; done
}
shows() {
    "$OUT/list" "$1" > "$work/there" && "$OUT/list" "$1" /logs/old/29 >> "$work/there" && cmp "$work/wanted" "$work/there"
}

installed() {
    make -s OUT="$OUT" PREFIX="$work/prefix" install || return 1
    local words="-I$work/prefix/include -L$work/prefix/lib -lflashfs"
    if has pkg-config; then
        words=$(PKG_CONFIG_PATH="$work/prefix/lib/pkgconfig" pkg-config --cflags --libs flashfs) || return 1
    fi
    $CC -std=c11 -Idrivers -o "$work/hello" examples/hello.c drivers/ram_nand.c $words && $RUN "$work/hello"
}

with_cmake() {
    cmake -S test/cmake -B "$work/cmake" ${FLASH_C_ARCHIVE:+-DFLASH_C_ARCHIVE="$FLASH_C_ARCHIVE"} \
        ${TARGET:+-DCMAKE_TOOLCHAIN_FILE="$PWD/$TARGET.cmake"} &&
        cmake --build "$work/cmake" && $RUN "$work/cmake/hello"
}

cpp() {
    $CXX -std=c++14 -Wall -Wextra -Wpedantic -Werror -I. -Idrivers -o "$OUT/volume" examples/volume.cpp "$OUT/ram_nand.o" \
        "$OUT/libflashfs.a" && $RUN "$OUT/volume"
}
rust() { rustc --edition 2024 -D warnings -L "native=$OUT" --out-dir "$work" examples/volume.rs && [ "$("$work/volume")" = today ]; }

if [ -n "$RUN" ] && ! has "${RUN%% *}"; then
    echo "no ${RUN%% *}, which runs programs of $TARGET"
    exit 2
fi
run "the library, by make" make -s OUT="$OUT"
[ $failed -eq 0 ] || exit 1

HARNESS="test/commands.c test/model.c drivers/ram_nand.c"
CODED="test/coded_nand.c drivers/cut_nand.c drivers/page_code.c"
MTD="drivers/mtd_nand.c drivers/page_code.c"
LIBRARY="$OUT/libflashfs.a"
$CC $FLAGS -c -o "$OUT/ram_nand.o" drivers/ram_nand.c
builds() {
    build test_header test/test_header.c "$OUT/flash_port.o" "$OUT/libflash_c.a" "$OUT/flash_malloc.o" &&
        build test_heap test/test_heap.c test/commands.c test/model.c "$OUT/libflashfs_heap.a" "$LIBRARY" &&
        build test_page_code test/test_page_code.c drivers/page_code.c test/commands.c test/model.c "$LIBRARY" &&
        build test_drivers test/test_drivers.c drivers/driver_check.c drivers/file_nand.c $CODED $HARNESS "$LIBRARY" &&
        build test_tags test/test_tags.c drivers/packed_tag.c $HARNESS "$LIBRARY" &&
        build test_model test/test_model.c $HARNESS "$LIBRARY" &&
        build test_model_in_region -DREGION test/test_model.c $HARNESS "$OUT/libflashfs_heap.a" "$LIBRARY" &&
        build test_cuts test/test_cuts.c $HARNESS "$LIBRARY" &&
        build test_torn test/test_torn.c test/sessions.c $CODED test/commands.c test/model.c "$LIBRARY" &&
        build test_lies test/test_lies.c $HARNESS "$LIBRARY" &&
        build test_weak test/test_weak.c $HARNESS "$LIBRARY" &&
        build test_memory test/test_memory.c test/refused_memory.c $HARNESS "$LIBRARY" &&
        build test_salvage test/test_salvage.c test/refused_memory.c $HARNESS "$LIBRARY" &&
        build test_salvage_files test/test_salvage_files.c $HARNESS "$LIBRARY" &&
        build make_image test/make_image.c test/commands.c test/model.c drivers/file_nand.c "$LIBRARY" &&
        rm -f "$OUT/flash-raw" && make -s OUT="$OUT" CC="$CC" CFLAGS="-O2 -g -Werror" flash-raw && wrap "$OUT/flash-raw" &&
        build list examples/list.c drivers/file_nand.c "$LIBRARY" &&
        build hello examples/hello.c drivers/ram_nand.c "$LIBRARY" &&
        build power_loss examples/power_loss.c drivers/ram_nand.c "$LIBRARY" &&
        build salvage examples/salvage.c drivers/file_nand.c "$LIBRARY"
}
run "the tests and examples compile" builds
[ $failed -eq 0 ] || exit 1

run "the header's numbers" "$OUT/test_header"
run "the names of header and library" names
if [ -d ../crates/flash_c/src ]; then
    run "the header's errors and the library's" numbers ../crates/flash_c/src
else
    skip "the header's errors and the library's" "crates/flash_c is not here"
fi
run "the allocator over a region" "$OUT/test_heap"
run "the envelope of a page" "$OUT/test_page_code" $pages
run "tags of 24 bytes, and the same calls with either" "$OUT/test_tags" 3000
run "the drivers, and drivers that break a promise" "$OUT/test_drivers" "$work"
if includes mtd/mtd-user.h && echo '#include <sys/ioctl.h>
#include <mtd/mtd-user.h>
unsigned long command = MEMREAD;' | $CC -fsyntax-only -x c - 2> /dev/null; then
    run "the driver of Linux's devices compiles" eval 'build try_mtd test/try_mtd.c $MTD drivers/driver_check.c $HARNESS "$LIBRARY" &&
        build test_mtd test/test_mtd.c drivers/page_code.c drivers/driver_check.c test/commands.c test/model.c "$LIBRARY"'
    run "the driver of Linux's devices, over a kernel that is played" "$OUT/test_mtd"
else
    skip "the driver of Linux's devices" "no mtd/mtd-user.h with MEMREAD"
fi
run "the skeleton of an SPI driver compiles" $CC $FLAGS -c -o "$OUT/spi_nand.o" drivers/spi_nand.c
run "random calls beside the model" "$OUT/test_model" 2500
run "random calls beside the model, in a region of memory" "$OUT/test_model_in_region" 500 7
run "power that goes, and calls that fail" "$OUT/test_cuts" $cuts
run "pages and blocks that cuts leave torn" "$OUT/test_torn" $torn
run "drivers that lie" "$OUT/test_lies" 500
run "memory that is refused, many mounts, several volumes" "$OUT/test_memory" 60
run "what is left of damaged volumes" "$OUT/test_salvage"
run "what is left of 200 files" "$OUT/test_salvage_files" $every
run "weak pages, which are moved on" "$OUT/test_weak"
run "the example hello" "$OUT/hello"
run "the example power_loss" "$OUT/power_loss"
run "an image that C made, shown by C" image_of_c
run "what is left of an image, shown by the example salvage" left_of_image
run "an image that the program made, shown by C" image_of_program ../crates/program_scenarios/data/made.img
run "raw pages of an image, and back" raw_pages
run "raw pages on a chip with a bad block" moved
if [ -x ../crates/flashsh/out/flashsh ]; then
    run "images, with the program of the repository" images ../crates/flashsh/out/flashsh
else
    skip "images, with the program of the repository" "crates/flashsh is not built"
fi
run "make install" installed
if ! has cmake; then
    skip "with CMake" "no cmake"
elif [ -n "$TARGET" ] && [ ! -f "$TARGET.cmake" ]; then
    skip "with CMake" "no toolchain file for $TARGET"
else
    run "with CMake" with_cmake
fi
if has "${CXX%% *}"; then run "the wrapper for C++" cpp; else skip "the wrapper for C++" "no $CXX"; fi
if [ -n "$TARGET" ]; then
    skip "the wrapper for Rust" "it is compiled for this machine alone"
elif has rustc && [ "$(rustc --version | sed 's/rustc 1\.\([0-9]*\).*/\1/')" -ge 85 ]; then
    run "the wrapper for Rust" rust
else
    skip "the wrapper for Rust" "no rustc from 1.85 on"
fi
if includes sqlite3.h && compiles -lsqlite3; then
    run "SQLite compiles" build test_sqlite test/test_sqlite.c examples/sqlite_vfs.c $HARNESS "$LIBRARY" -lsqlite3
    run "SQLite, with power that goes" "$OUT/test_sqlite" 25
else
    skip "SQLite, with power that goes" "no sqlite3.h or no libsqlite3"
fi

if [ -n "$RUN" ]; then
    skip "sanitizer and valgrind" "programs are run by ${RUN%% *}"
elif [ "${1:-}" != quick ]; then
    sanitizer="-fsanitize=address,undefined -fno-sanitize-recover=all"
    if compiles $sanitizer; then
        sanitized() {
            build "$1_sanitized" $sanitizer "test/$1.c" drivers/driver_check.c drivers/file_nand.c $CODED $HARNESS flash_port.c "${@:2}" \
                "$OUT/libflash_c.a"
        }
        run "compiled with the sanitizer" eval 'sanitized test_model flash_malloc.c && sanitized test_lies flash_malloc.c &&
            sanitized test_cuts flash_malloc.c && sanitized test_memory test/refused_memory.c &&
            sanitized test_salvage test/refused_memory.c && sanitized test_salvage_files flash_malloc.c &&
            sanitized test_weak flash_malloc.c && sanitized test_drivers flash_malloc.c &&
            sanitized test_page_code flash_malloc.c'
        run "sanitizer: random calls" "$OUT/test_model_sanitized" 1000 3
        run "sanitizer: drivers that lie" "$OUT/test_lies_sanitized" 100 3
        run "sanitizer: power that goes" "$OUT/test_cuts_sanitized" 50 3
        run "sanitizer: memory that is refused" "$OUT/test_memory_sanitized" 20 3
        run "sanitizer: what is left of damaged volumes" "$OUT/test_salvage_sanitized"
        run "sanitizer: what is left of 200 files" "$OUT/test_salvage_files_sanitized" 10 30
        run "sanitizer: weak pages" "$OUT/test_weak_sanitized"
        run "sanitizer: the envelope of a page" "$OUT/test_page_code_sanitized" 20000 3
        run "sanitizer: the drivers" "$OUT/test_drivers_sanitized" "$work"
    else
        skip "sanitizer" "the compiler has none"
    fi
    if has valgrind; then
        checked() { valgrind -q --error-exitcode=9 --leak-check=full --show-leak-kinds=definite "$@"; }
        run "valgrind: random calls" checked "$OUT/test_model" 300 5
        run "valgrind: drivers that lie" checked "$OUT/test_lies" 60 5
        run "valgrind: memory that is refused" checked "$OUT/test_memory" 4 5
        run "valgrind: what is left of damaged volumes" checked "$OUT/test_salvage"
    else
        skip "valgrind" "it is not here"
    fi
    if [ -n "${RUN:-}" ]; then
        skip "a volume that is mounted on Linux, and the simulator of its devices" "the programs are for another processor"
    else
        others linux/test.sh 7
        others test/mtd/test.sh
    fi
fi

printf '%s passed, %s failed, %s skipped\n' $passed $failed $skipped
[ $failed -eq 0 ]
