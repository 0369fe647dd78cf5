#!/usr/bin/env bash
# Makes out/page.html, one file that opens from disk: the page, and in it the proved library with the glue as a WebAssembly
# module, out/flash.wasm. Asks for the kit.
#
#   bash web/build.sh
#
# FLASH_C_MODULE names the LLVM module of flash_c for 64-bit ARM, where one is there; else c/archive.sh makes one: of the libraries
# below flash_c it proves what was not proved in this checkout, half an hour the first time, and flash_c. OUT: where all is built.
set -eu
[ -z "${FLASH_C_MODULE:-}" ] || FLASH_C_MODULE=$(realpath "$FLASH_C_MODULE")
OUT=$(realpath -m "${OUT:-$(dirname "$0")/out}")
cd "$(dirname "$0")"
kit=$(dirname "$(dirname "$(readlink -f "$(command -v rt)")")")
clang=$kit/toolchain/bin/clang
target=wasm64-unknown-unknown
machine="--target=$target -mcpu=lime1 -msimd128 -ffunction-sections -fdata-sections"
mkdir -p "$OUT"

# The sum of the neighbours in two vectors, 16 bytes wide: the one instruction that the module has by its processor's name.
add_neighbours() {
    local even="i32 0" odd="i32 1" i
    for i in $(seq 2 2 30); do
        even="$even, i32 $i" odd="$odd, i32 $((i + 1))"
    done
    cat << END
define internal <16 x i8> @add_neighbours(<16 x i8> %a, <16 x i8> %b) alwaysinline {
  %even = shufflevector <16 x i8> %a, <16 x i8> %b, <16 x i32> <$even>
  %odd = shufflevector <16 x i8> %a, <16 x i8> %b, <16 x i32> <$odd>
  %sum = add <16 x i8> %even, %odd
  ret <16 x i8> %sum
}
END
}

# The trusted step. The module was made for another processor of 64 bits whose lowest byte comes first: what names that processor
# is taken out, and its one instruction by name is written out. What is compiled is the rest of the module, as it was.
retarget() {
    local layout
    layout=$("$clang" --target=$target -S -emit-llvm -x c /dev/null -o - | sed -n 's/^target datalayout = //p')
    "$clang" --target=aarch64-unknown-linux-gnu -S -emit-llvm -Xclang -disable-llvm-passes -x ir "$1" -o "$OUT/flash_c.ll"
    sed -e '/^; ModuleID = /d' -e "s/^target datalayout = .*/target datalayout = $layout/" -e "s/^target triple = .*/target triple = \"$target\"/" \
        -e '/^attributes /s/ "\(probe-stack\|stack-probe-size\|target-cpu\|frame-pointer\)"="[^"]*"//g' \
        -e '/^declare .*@llvm\.aarch64\.neon\.addp/d; s/@llvm\.aarch64\.neon\.addp\.v16i8/@add_neighbours/g' "$OUT/flash_c.ll" > "$2"
    add_neighbours >> "$2"
    if grep -i -e 'aarch64' -e 'neon' -e ' asm ' -e '"target-' "$2" >&2; then
        echo "the module has more of its processor by name than is known here" >&2
        return 1
    fi
}

# The C between the library and the page. The names by which the library asks for its port and its memory are given here, since
# objcopy knows no WebAssembly.
compile_glue() {
    local source
    for source in ../c/flash_port.c ../c/flash_heap.c ../c/drivers/ram_nand.c glue/libc.c glue/glue.c; do
        # shellcheck disable=SC2086
        "$clang" $machine -std=c11 -Wall -Wextra -Wpedantic -Werror -O2 -ffreestanding -nostdinc -Iglue/include -I../c -I../c/drivers \
            -Dflash_port_read=pread -Dflash_port_write=pwrite -Dflash_port_close=close -Dflash_memory_alloc=rattle_alloc \
            -Dflash_memory_realloc=rattle_realloc -Dflash_memory_dealloc=rattle_dealloc \
            -c "$source" -o "$OUT/$(basename "$source" .c).o"
    done
}

link() {
    rm -f "$OUT/all.a"
    "$kit/toolchain/bin/llvm-ar" rcs "$OUT/all.a" "$OUT"/{flash_c,flash_port,flash_heap,ram_nand,libc,glue}.o
    "$kit/bin/rattle-link" --target $target --toolchain "$kit/toolchain" --stack 262144 -o "$OUT/flash.wasm" "$OUT/all.a"
}

scripts() {
    printf '<script>\n"use strict"\nconst MODULE = "%s"\n' "$(base64 -w 0 "$OUT/flash.wasm")"
    cat src/module.js src/image.js src/tree.js src/commands.js src/session.js src/costs.js src/address.js src/picture.js \
        src/chip_view.js src/strip_view.js src/text_views.js src/acts.js src/page.js
    echo '</script>'
}

assemble() {
    local line
    while IFS= read -r line; do
        case $line in
        '<!-- style -->') echo '<style>' && cat page.css && echo '</style>' ;;
        '<!-- scripts -->') scripts ;;
        *) printf '%s\n' "$line" ;;
        esac
    done < page.html
}

# Whether the module is there, and newer than what it is made of.
is_current() {
    [ -e "$1" ] && [ -z "$(find ../crates.txt ../crates/*/{src,specs,proofs} -newer "$1" -print -quit)" ]
}

module=${FLASH_C_MODULE:-$OUT/flash_c.bc}
[ -n "${FLASH_C_MODULE:-}" ] || is_current "$module" || KEEP=$module PROVE=yes bash ../c/archive.sh aarch64-unknown-linux-gnu
retarget "$module" "$OUT/flash_c_wasm.ll"
# shellcheck disable=SC2086
"$clang" $machine -O3 -c -x ir "$OUT/flash_c_wasm.ll" -o "$OUT/flash_c.o"
compile_glue
link
assemble > "$OUT/page.html"
printf '%s bytes, %s by gzip: %s\n' "$(wc -c < "$OUT/flash.wasm")" "$(gzip -9 -c "$OUT/flash.wasm" | wc -c)" "$OUT/flash.wasm"
