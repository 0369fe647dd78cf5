#!/usr/bin/env bash
# Programs on a volume that flash-fuse mounts, each beside a folder of the host, whose files are the expected value: a line for
# each test. Programs and erases of the flash fail, and the volume is remounted amid what the programs do. OUT: where all is built.
#
#   bash c/linux/test.sh [SEED]
#
# What is random follows from the seed, which is printed. FLASH_C_ARCHIVE names a libflash_c.a that is there, as for c/test.sh.
set -u
[ -z "${FLASH_C_ARCHIVE:-}" ] || export FLASH_C_ARCHIVE=$(realpath "$FLASH_C_ARCHIVE")
cd "$(dirname "$0")/.." || exit 2
OUT=$(realpath -m "${OUT:-out}")
CC=${CC:-gcc}
seed=${1:-$RANDOM}
work=$(mktemp -d)
log=$work/log image=$work/flash.img volume=$work/volume host=$work/host
failed=0

# Ends the mount of a test that did not come to its end.
end_mount() {
    if [ -s "$work/server" ]; then
        kill "$(cat "$work/server")"
        while kill -0 "$(cat "$work/server")"; do sleep 0.1; done
        rm "$work/server"
    fi 2> /dev/null
    ! mountpoint -q "$volume" || fusermount3 -u -z "$volume"
}

end() {
    end_mount
    rm -rf "$work"
}
trap end EXIT

skip() { printf 'skip  linux, %s: %s\n' "$1" "$2"; }
has() { command -v "$1" > /dev/null 2>&1; }

refused() { if "$@"; then return 1; fi; }

# Runs a command as a test: NAME COMMAND..
run() {
    local name=$1 begun=$SECONDS status
    shift
    (set -e; RANDOM=$seed; "$@") > "$log" 2>&1
    status=$?
    if [ $status -eq 0 ]; then
        printf 'ok    linux, %s (%s s)\n' "$name" $((SECONDS - begun))
        [ -z "${VERBOSE:-}" ] || cat "$log"
    else
        failed=1
        printf 'FAIL  linux, %s (status %s, seed %s)\n' "$name" $status "$seed"
        tail -n 30 "$log" | cut -c 1-200
        end_mount
    fi
}

# ---- Mounting.

# Mounts the image: PROGRAM WORDS..
mount_image() {
    "$@" -f "$image" "$volume" &
    server=$!
    echo "$server" > "$work/server"
    until mountpoint -q "$volume"; do
        kill -0 "$server"
        sleep 0.02
    done
}

unmount_image() {
    fusermount3 -u "$volume"
    wait "$server"
    rm "$work/server"
}

# A flash that fails, under a volume that is remounted.
mount_in_trouble() {
    export TROUBLE_SEED=$RANDOM TROUBLE_FAILURES=6 TROUBLE_EACH=200 TROUBLE_REMOUNT=1000 TROUBLE_REPORT=$work/report
    mount_image "$OUT/flash-fuse-trouble" --ignore-times
}

# ---- The same work in both places.

# The files of a folder: path, length, names, and if it is wanted the time. What is git's own differs by design.
files_of() { (cd "$1" && find . -path '*/.git' -prune -o -type f -printf "%p %s %n ${2:-}\n" | LC_ALL=C sort); }

# Does work in a folder of its own of the host, then of the volume, and compares: FACTS NAME WORDS..
beside() {
    local facts=$1 name=$2 place
    shift
    mount_in_trouble
    for place in "$host" "$volume"; do
        mkdir "$place/$name"
        (cd "$place/$name" && RANDOM=$seed && "$@")
    done
    diff -r --exclude=.git "$host/$name" "$volume/$name"
    diff <(files_of "$host/$name" "$facts") <(files_of "$volume/$name" "$facts")
    unmount_image
}

# Some of the random bytes: FROM COUNT
bytes() { tail -c +$((1 + $1)) "$work/random" | head -c "$2"; }

# All random numbers are made here: in a pipeline the shell makes them anew.
change_a_file() {
    local file=file-$((RANDOM % 30)) other=file-$((RANDOM % 30)) from=$RANDOM count=$RANDOM at=$((RANDOM % 40))
    case $((RANDOM % 7)) in
    0 | 1) bytes "$from" "$count" > "$file" ;;
    2) bytes "$from" "$count" >> "$file" ;;
    3) bytes "$from" 5000 | dd of="$file" bs=1000 seek=$at conv=notrunc status=none ;;
    4) truncate -s $((count * 2)) "$file" ;;
    5) mv "$file" "$other" 2> /dev/null || true ;;
    6) ln -f "$file" "$other" 2> /dev/null || rm -f "$other" ;;
    esac
}

copies() {
    cp -r "$work/tree" first
    cp -r first second
    rm -r first
    mv second third
    for _ in {1..150}; do change_a_file; done
    mkdir many $'odd \x01\xff\n*'
    echo odd > $'odd \x01\xff\n*/\xe2\x28\xa1 "'
    (cd many && seq 5000 | xargs touch && seq 1 2 5000 | xargs rm)
    [ "$(find many | wc -l)" -eq 2501 ]
}

tars() {
    tar -C "$work" -cf - tree | tar xf -
    tar cf all.tar --sort=name --owner=0 --group=0 --numeric-owner --mode=644 --mtime=@0 tree
    touch -d @1000000000.123456789 all.tar
}

rsyncs() {
    rsync -rtH --delete "$work/tree/" mirror
    for _ in {1..20}; do change_a_file; done
    rsync -rtH --delete --exclude=mirror ./ mirror/inner
    rsync -rtH --delete "$work/tree/drivers/" mirror/inner
    [ -z "$(rsync -rtHcO --delete --itemize-changes "$work/tree/drivers/" mirror/inner)" ]
}

gits() {
    export GIT_AUTHOR_NAME=name GIT_AUTHOR_EMAIL=mail GIT_COMMITTER_NAME=name GIT_COMMITTER_EMAIL=mail HOME=$work
    export GIT_AUTHOR_DATE=@1700000000 GIT_COMMITTER_DATE=@1700000000
    git init -q -b main repository
    cd repository
    cp -r "$work/tree/." .
    git add -A
    git commit -qm tree
    for i in {1..10}; do
        for _ in {1..5}; do change_a_file; done
        git add -A
        git commit -q --allow-empty -m "$i"
        [ "$i" -ne 5 ] || git checkout -q -b side
    done
    git checkout -q main
    echo main > main
    git add main
    git commit -qm main
    git merge -q -m merge side
    git gc -q
    git fsck --strict
    git clone -q . ../clone
    [ -z "$(git -C ../clone status --porcelain)" ]
    git log --format='%H %T' > ../log
}

statements() {
    local i
    echo "pragma journal_mode = $1; pragma cache_size = 20; pragma temp_store = file;"
    echo "create table rows (id integer primary key, text text); create index texts on rows (text);"
    for i in {1..40}; do
        echo "begin; insert into rows select $i * 100 + value, hex(value * $RANDOM) || '$RANDOM' from generate_series(1, 50);"
        echo "update rows set text = text || '$RANDOM' where id % 17 = $((RANDOM % 17)); delete from rows where id % 23 = $((RANDOM % 23));"
        if [ $((RANDOM % 4)) -eq 0 ]; then echo "rollback;"; else echo "commit;"; fi
    done
    echo "vacuum; create table sorted as select * from rows order by text desc; pragma integrity_check;"
}

sqlites() {
    for mode in delete truncate persist wal; do
        statements $mode > $mode.sql
        sqlite3 -bail $mode.db < $mode.sql > $mode.replies
        sqlite3 $mode.db .dump > $mode.dump
        grep -q '^ok$' $mode.replies
    done
    rm ./*.db*
}

# ---- What no program of the host compares.

# Files whose fsync returned are there after a kill.
writes_until_killed() {
    local round=$1 i=0
    while bytes $((i * 37)) $((i * 997 % 20000)) > "$volume/killed/new" && mv "$volume/killed/new" "$volume/killed/$round-$i" &&
        sync "$volume/killed/$round-$i"; do
        echo $i >> "$work/synced-$round"
        i=$((i + 1))
    done 2> /dev/null
}

kills() {
    local round i writer
    mkdir "$host/killed"
    for round in {1..8}; do
        mount_image "$OUT/flash-fuse" --commit=1
        mkdir -p "$volume/killed"
        : > "$work/synced-$round"
        writes_until_killed "$round" &
        writer=$!
        sleep $((RANDOM % 2)).$((RANDOM % 10))$((RANDOM % 10))
        kill -9 "$server"
        wait "$server" || true
        wait $writer || true
        fusermount3 -u -z "$volume"
        mount_image "$OUT/flash-fuse"
        for i in $(cat "$work/synced-$round"); do
            bytes $((i * 37)) $((i * 997 % 20000)) | cmp - "$volume/killed/$round-$i"
        done
        echo "round $round: $(wc -l < "$work/synced-$round") files were synced"
        rm -rf "$volume/killed"
        unmount_image
    done
}

# 1,000 files are open, and 63 of them without a name.
opens() {
    mkdir "$host/open"
    mount_in_trouble
    mkdir "$volume/open"
    [ "$("$OUT/open_files" "$host/open" 1000 70)" = 70 ]
    [ "$("$OUT/open_files" "$volume/open" 1000 70)" = 63 ]
    rm -r "$volume/open" "$host/open"
    unmount_image
}

# A full volume answers so, and goes on after a removal. A second program is refused its image.
fills() {
    local image=$work/small.img
    mount_image "$OUT/flash-fuse" --format
    refused "$OUT/flash-fuse" -f "$image" "$host"
    refused cp "$work/large" "$volume/full"
    [ "$(df --output=avail "$volume" | tail -n 1)" -eq 0 ]
    rm "$volume/full"
    cp "$work/random" "$volume/copy"
    cmp "$work/random" "$volume/copy"
    unmount_image
}

# The blocks of an image of 64 whose first page is erased, and so all: the byte of a page that says so is before its tag and data.
free_blocks() {
    local block place
    for block in {0..63}; do
        place=$((32 + 64 + block * 64 * (1 + 48 + 2048)))
        [ "$(od -An -tu1 -j $place -N 1 "$1")" -ne 0 ] || echo "$block"
    done
}

# With more bad blocks than spare ones a volume is read only.
wears() {
    local image=$work/worn.img block
    mount_image "$OUT/flash-fuse" --format --spare=2
    cp "$work/random" "$volume/copy"
    unmount_image
    for block in $(free_blocks "$image" | tail -n 3); do
        printf '\1' | dd of="$image" bs=1 seek=$((32 + block)) conv=notrunc status=none
    done
    mount_image "$OUT/flash-fuse"
    cmp "$work/random" "$volume/copy"
    refused rm "$volume/copy"
    refused touch "$volume/new"
    unmount_image
}

# The image as other programs of the repository show it: the tree that the host has. Of a name with a line's end the first line
# is compared.
is_shown() {
    local flashsh=../crates/flashsh/out/flashsh
    [ ! -x $flashsh ] || $flashsh check "$image"
    export LC_ALL=C
    diff <(cd "$host" && find . -path '*/.git' -prune -o -type f -printf '%s %P\n' | grep -a '^[0-9]' | sort) \
        <("$OUT/list" "$image" | sed -n 's|^ *\([0-9][0-9]*\)  *[0-9][0-9]* /|\1 |p' | grep -av '/\.git/' | sort)
}

begin() {
    mkdir "$volume" "$host" "$work/tree"
    cp -r drivers examples test linux ./*.c ./*.h "$work/tree"
    # git has the modes of files in its trees, and a volume has none.
    find "$work/tree" -type f -exec chmod 644 {} +
    seq "$seed" 7 1500000 > "$work/random"
    head -c 20M /dev/zero > "$work/large"
    mount_image "$OUT/flash-fuse" --format --blocks=1024 --spare=40
    unmount_image
}

builds() {
    make -s OUT="$OUT" linux-test
    $CC -std=c11 -O2 -D_GNU_SOURCE -D_FILE_OFFSET_BITS=64 -o "$OUT/open_files" linux/test/open_files.c
    $CC -std=c11 -O2 -I. -Idrivers -o "$OUT/list" examples/list.c drivers/file_nand.c "$OUT/libflashfs.a"
}

if ! pkg-config --exists fuse3 2> /dev/null; then
    skip "flash-fuse" "no libfuse3-dev or no pkg-config"
    exit 0
fi
run "flash-fuse compiles" builds
[ $failed -eq 0 ] || exit 1
mkdir "$work/tried"
if ! "$OUT/flash-fuse" --format "$work/tried.img" "$work/tried" 2> "$log"; then
    skip "mounted volumes" "a mount is refused: $(tail -n 1 "$log")"
    exit 0
fi
fusermount3 -u "$work/tried"

run "a volume is made, with seed $seed" begin
run "cp, mv, rm, dd, ln" beside '' copies
run "tar" beside '%T@' tars
if has rsync; then run "rsync" beside '' rsyncs; else skip "rsync" "it is not here"; fi
if has git; then run "git" beside '' gits; else skip "git" "it is not here"; fi
if has sqlite3; then run "SQLite's shell" beside '' sqlites; else skip "SQLite's shell" "no sqlite3"; fi
run "1,000 open files" opens
run "the image, by other programs" is_shown
run "kills at random moments" kills
run "a full volume" fills
run "a worn volume" wears
[ ! -e "$work/report" ] || printf '      %s\n' "$(awk '{ changes += $1; remounts += $3; fails += $5 } END { print changes " changes, " remounts " remounts, " fails " programs and erases failed" }' "$work/report")"
exit $failed
