#!/usr/bin/env bash
# Kills the machine at random moments and starts it again over the same flash. What it finds must be what it said last that it made durable,
# or that and the one step that was under way.
#
#   resets.sh FIRMWARE [RESETS [SEED]]
set -eu
firmware=$(realpath "$1")
cd "$(dirname "$0")"
resets=${2:-100}
RANDOM=${3:-1}
work=$(mktemp -d)
trap 'rm -rf "$work"' EXIT
head -c 64M /dev/zero | tr '\0' '\377' > "$work/flash.img"
mkfifo "$work/serial"
last="found 0 0"
declare -A reached

# Reads the lines of a start: what it found is compared with the last line of the start before.
read_lines() {
    local word boots length furthest=start
    while read -r word boots length <&3; do
        case $word in
        found) is_after "$boots" "$length" || wrong "found $boots $length after: $last" ;;
        durable | end) ;;
        *) wrong "$word $boots $length" ;;
        esac
        furthest=$word
        [ "$word" = end ] || last="$word $boots $length"
    done
    reached[$furthest]=$((${reached[$furthest]:-0} + 1))
}

is_after() {
    local word boots length
    read -r word boots length <<< "$last"
    [ "$1 $2" = "$boots $length" ] || case $word in
    found) [ "$1 $2" = "$((boots + 1)) 0" ] ;;
    durable) [ "$1 $2" = "$boots $((length + 64))" ] ;;
    esac
}

wrong() {
    echo "wrong: $*" >&2
    exit 1
}

for ((reset = 1; reset <= resets; reset++)); do
    bash start.sh "$firmware" "$work/flash.img" > "$work/serial" &
    machine=$!
    exec 3< "$work/serial"
    word=
    read -r -t 60 word <&3 || true
    sleep "0.$(printf %03d $((RANDOM % 250)))"
    kill -9 "$machine" 2> /dev/null || true
    wait "$machine" 2> /dev/null || true
    [ "$word" = start ] || wrong "the firmware does not start"
    read_lines
    exec 3<&-
done
echo "ok    $resets resets of a firmware: ${reached[start]:-0} before it had mounted, ${reached[found]:-0} before its start was" \
    "in its count, ${reached[durable]:-0} in its log, ${reached[end]:-0} after that; last: $last"
