#!/usr/bin/env bash
# Builds the proved library libflash_c.a for a target, over the libraries that a whole run of `rt ci` in this checkout proved and
# left in crates/*/out, so that the gate proves them once: only flash_c itself is proved again here, once for each target.
#
#   c/archive.sh                                    crates/flash_c/out/libflash_c.a, for x86-64
#   c/archive.sh aarch64-unknown-linux-gnu          crates/flash_c/out/aarch64-unknown-linux-gnu/libflash_c.a
#   c/archive.sh x86_64-unknown-linux-gnu x86-64    crates/flash_c/out/x86_64-unknown-linux-gnu-x86-64/libflash_c.a, for the
#                                                   oldest processors of x86-64
#
# PROVE=yes first proves by `rt lib` what changed of those libraries, and builds nothing where the archive was made of the same
# texts. KEEP=FILE keeps there the LLVM module that the archive is compiled from. JOBS: how many proofs at a time (2).
# OPTIMIZE=-Os compiles the module by this flag in place of -O3, for less code: the archive lies in a folder Os beside the other.
#
# The module goes through the optimizer twice, which merges functions of the same code (those of a container over types of one
# layout): 31 KB less. Before it three kinds of functions get an attribute in the module's text, and nothing else is changed there:
#   optsize        what is done seldom (a format, a mount, an unmount, a salvage, a list) and long loops of the kit's collections.
#                  Not the steps of a mount that move a volume and are called once: apart they would take more stack.
#   alwaysinline   what runs for each command or page, and has few callers.
#   noinline       a call that would widen the frame of its caller, as in a mount, whose stack is below 7 KB; and the answer of a
#                  volume, which its callers take better as a call.
set -eu
seldom='^(formatting|salvage|surviving_pages|volume_check|tree_walk|mount_scan|name_map)::'
seldom+='|^mounting::(going::(by_scan|open_volume)|going_on|mounted|prune|reading|tree_on)::'
seldom+='|^page_store::(opening|checkpoint_opening|summary_opening|first_pages|newest_pages|read_only)::'
seldom+='|^posix_calls::volume::Volume::(mount|over|scanned|in_memory)|^directories::(leaving|moving|taking)::'
seldom+='|^chunk_index::index::Index::(add_some|from_|retain)|^name_index::index::NameIndex::drop_directory'
seldom+='|^flash_(format|unmount|abandon|salvage|list)|^flash_c::(salvag|listing|names|volumes)'
seldom+='|::Node::(destroy|balance|peel_first|take_pair)|::Vec::remove|::insert_reserved|::Row::reverse|::sort::'
seldom+='|::BTreeMap::insert|::BTreeSet::|::btree::owned::|::iter::owned::'
often='^flash_c::commands::done_in|^object_commands::volume::Volume::carry_out::|^command_plans::place::find_place::'
often+='|^paged_objects::(changing::make|store::PagedObjectsObjectStore::read_into)::'
often+='|^object_store::(counted_facts::CountedFacts::edit|table::ObjectTable::apply)$'
often+='|^directories::(head::read_head|writing::(page_with|slot_page))::|^name_index::index::NameIndex::next_slot$'
often+='|^file_io::(head::read_head|chunk::tail_pages)::|^pages::frames::copied_page::'
often+='|^page_store::(flash_pages::FlashPagesPages::(page|return_frame)::|caching::drop_cuts|buffer::Buffer::cut_all)'
often+='|^chunk_index::(shelf::Shelf::prepare_object|object::ObjectEntries::insert_at)$|^lru::nodes::Nodes::(insert|remove_node)::'
often+='|^flash_log::take::take_block::|^transactions::page::write_page::|EitherNandNand::(program|read_data|read_page)::'
often+='|^port_nand::driver::Driver::(send|ask)::|^std::io::count_or_last_error|::slice.T::contains::'
often+='|^file_io::chunk::chunk_bytes::|^page_tags::header::decode_header|^flash_tree::slot::decode_tree_slot$'
apart='^posix_calls::volume::Volume::mount_(with|scanned_with)::|^object_commands::volume::Volume::answer::'
module=${KEEP:+$(realpath -m "$KEEP")}
cd "$(dirname "$0")/.."
kit=$(dirname "$(dirname "$(readlink -f "$(command -v rt)")")")
target=${1:-x86_64-unknown-linux-gnu}
folder=crates/flash_c/out${1:+/$1}${2:+-$2}${OPTIMIZE:+/${OPTIMIZE#-}}
archive=$PWD/$folder/libflash_c.a
words=()
formats=()

# The libraries that a crate stands on, by crates.txt.
libraries_of() {
    sed -n "s/#.*//; s/^$1\( staticlib\)\{0,1\}:\(.*\)/\2/p" crates.txt
}

declare -A seen
visit() {
    local name
    for name in $(libraries_of "$1"); do
        [ -z "${seen[$name]:-}" ] || continue
        seen[$name]=yes
        if [ -d "crates/$name/src" ]; then
            words+=(-L "dependency=$PWD/crates/$name/out/rlib")
            formats+=("crates/$name/out/rlib/$name.rlib/format")
            visit "$name"
        fi
    done
}

prove_libraries() {
    local name
    for name in $(libraries_of flash_c); do
        [ ! -d "crates/$name/src" ] || (cd "crates/$name" && rt lib)
    done
}

# A sum of this script, of the sources of flash_c and of the libraries, whose file `format` has the sum of theirs.
made_of() {
    { find c/archive.sh crates/flash_c/{src,specs,proofs} -type f | sort | xargs sha256sum; sha256sum "${formats[@]}"; cat "$kit/KIT-ID"; } |
        sha256sum
}

# A toolchain folder whose clang is the kit's, saves the module in the file of KEEP, gives functions their attributes, and
# compiles it by way of the optimizer, with the flag of OPTIMIZE in place of -O3. rattle clears the environment: paths and flags are
# in the script. The first word that rattle gives is the target's.
make_toolchain() {
    local tool
    mkdir "$1/bin"
    ln -s "$kit/toolchain/lib" "$1/lib"
    for tool in "$kit"/toolchain/bin/*; do
        [ "${tool##*/}" = clang ] || ln -s "$tool" "$1/bin/"
    done
    cat > "$1/mark.awk" << 'MARK'
/^define / && match($0, /@"[^"]*"|@[A-Za-z0-9_.$]+/) {
    name = substr($0, RSTART + 1, RLENGTH - 1)
    gsub(/"/, "", name)
    attribute = (name ~ often ? " alwaysinline" : name ~ apart ? " noinline" : "") (name ~ seldom ? " optsize" : "")
    sub(/ (#[0-9]+ )?\{$/, attribute "&")
}
{ print }
MARK
    cat > "$1/bin/clang" << WRAPPER
#!/usr/bin/env bash
set -eu
words=()
once=()
plain=
while [ \$# -gt 0 ]; do
    case \$1 in
    *.bc)
        plain=\$1
        words+=("$1/once.ll");;
    -O3)
        words+=("${OPTIMIZE:--O3}" -Xclang -fmerge-functions)
        once+=("${OPTIMIZE:--O3}" -Xclang -fmerge-functions);;
    -o)
        words+=("\$1" "\$2")
        shift;;
    *)
        words+=("\$1")
        [ "\$1" = -c ] || [ "\$1" = -S ] || once+=("\$1");;
    esac
    shift
done
if [ -n "\$plain" ]; then
    cat "\$plain" > "${module:-/dev/null}"
    "$kit/toolchain/bin/clang" "\${words[0]}" -S -emit-llvm -Xclang -disable-llvm-passes -o "$1/plain.ll" "\$plain"
    awk -v seldom='$seldom' -v often='$often' -v apart='$apart' -f "$1/mark.awk" "$1/plain.ll" > "$1/marked.ll"
    "$kit/toolchain/bin/clang" "\${once[@]}" -S -emit-llvm -o "$1/once.ll" "$1/marked.ll"
fi
exec -a clang "$kit/toolchain/bin/clang" "\${words[@]}"
WRAPPER
    chmod +x "$1/bin/clang"
}

visit flash_c
if [ -n "${PROVE:-}" ]; then
    prove_libraries
    if [ -z "$module" ] && [ -e "$archive.made_of" ] && [ "$(made_of)" = "$(cat "$archive.made_of")" ]; then exit; fi
fi
sum=$(made_of)
for name in std $(libraries_of flash_c); do
    if [ -d "crates/$name/src" ]; then
        words+=(--extern "$name=$PWD/crates/$name/out/rlib/$name.rlib")
    else
        words+=(--extern "$name=$kit/rlibs/$name.rlib")
    fi
done
toolchain=$(mktemp -d)
trap 'rm -rf "$toolchain"' EXIT
make_toolchain "$toolchain"
mkdir -p "$folder"
rm -f "$archive.made_of"
cd crates/flash_c
"$kit/bin/rattle" build --crate-name flash_c src/lib.rt "${words[@]}" -L "dependency=$kit/rlibs" \
    --antt-project "$kit/rattle/logic/antt-project.json" --logic-built "$kit/logic_built" --jobs "${JOBS:-2}" --links flash_c= \
    --crate-type staticlib --target "$target" ${2:+--cpu "$2"} --toolchain "$toolchain" -o "$archive"
echo "$sum" > "$archive.made_of"
