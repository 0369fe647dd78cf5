#!/usr/bin/env bash
# The image that make_image writes is the same on two processors, and each shows it:
#
#   bash c/test/images_both_ways.sh c/out c/out/aarch64-linux-gnu     two folders in which test.sh built make_image and list
set -eu
work=$(mktemp -d)
trap 'rm -rf "$work"' EXIT

shown_by() {
    "$1/list" "$2" && "$1/list" "$2" /logs/old/29
}

"$1/make_image" "$work/one.img" > "$work/one.space"
"$2/make_image" "$work/other.img" > "$work/other.space"
cmp "$work/one.img" "$work/other.img"
cmp "$work/one.space" "$work/other.space"
shown_by "$1" "$work/other.img" > "$work/one.shown"
shown_by "$2" "$work/one.img" > "$work/other.shown"
cmp "$work/one.shown" "$work/other.shown"
[ "$(head -n 32 "$work/one.shown" | grep -c '/logs/old/')" -eq 30 ]
echo "ok    images of $1 and $2 are the same, and each shows the other's"
