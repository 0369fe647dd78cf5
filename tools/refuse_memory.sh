#!/usr/bin/env bash
# Runs the tests of want of memory with each growth refused in turn, one in each run, and prints a line for each test: how many growths
# there are, after how many the test passes, and after how many it ends for want of memory, which its set-up met. All else is
# wrong: it is printed, and the status is 1. The programs are those that `rt test` or `rt ci` leaves in crates/*/out.
#
#   tools/refuse_memory.sh [TEST..]     of the tests whose names have one of these in them; all by itself
set -u
cd "$(dirname "$0")/.." || exit 2
work=$(mktemp -d)
trap 'rm -rf "$work"' EXIT
${CC:-gcc} -std=c11 -O2 -shared -fPIC -o "$work/refuse.so" tools/refuse_memory.c -ldl || exit 2

TESTS="
page_tests refusals::a_refused_growth_changes_nothing
log_tests worked_index::a_refused_preparation_changes_nothing
store_tests refusals::a_refused_change_changes_nothing
command_tests shells::a_refused_allocation_ends_the_shell
volume_tests formats::a_format_that_is_refused_memory_changes_nothing
volume_tests altered::a_mount_that_is_refused_memory_has_its_fault_next
volume_tests refused::a_file_is_refused_memory
volume_tests refused::a_tree_is_refused_memory
volume_tests refused::a_run_that_is_refused_memory_goes_on
volume_tests refused::what_is_refused_memory_is_done_by_the_next_call
life_tests exercises::a_refused_allocation_tears_no_tree
"

# Whether a name has one of the words in it, or there are none.
is_meant() {
    local name=$1
    shift
    [ $# -gt 0 ] || return 0
    for word in "$@"; do
        case $name in *"$word"*) return 0 ;; esac
    done
    return 1
}

# Whether a test ended for want of memory, by its status and what it wrote: with an error, or by a panic.
is_want_of_memory() {
    case $1 in
    101) grep -q '^error: \(AllocError\|AllocFailed\|NoMemory\|Kind(OutOfMemory)\)' "$2" ;;
    134) grep -q '^\([a-z ]*: \)\?\(AllocError\|AllocFailed\|NoMemory\|Kind(OutOfMemory)\)' "$2" ;;
    *) return 1 ;;
    esac
}

# Refuses each growth of a test of a crate.
refuse() {
    local program=crates/$1/out/$1_tests test=$2 number=0 passed=0 ended=0 wrong=0 status
    [ -x "$program" ] || { echo "$1 $test: there is no $program"; return 1; }
    while :; do
        number=$((number + 1))
        { REFUSE=$number LD_PRELOAD=$work/refuse.so timeout 60 "$program" "$test" 9>"$work/mark" >"$work/told" 2>&1; } 2>/dev/null
        status=$?
        [ -s "$work/mark" ] || break
        if [ $status = 0 ]; then
            passed=$((passed + 1))
        elif is_want_of_memory "$status" "$work/told"; then
            ended=$((ended + 1))
        else
            wrong=$((wrong + 1))
            echo "growth $number: status $status: $(head -c 300 "$work/told" | tr '\n' ' ')"
        fi
    done
    [ $status = 0 ] || { echo "$1 $test: status $status with no growth refused"; return 1; }
    echo "$1 $test: $((number - 1)) growths: $passed passed, $ended ended for want of memory, $wrong wrong"
    [ $wrong = 0 ]
}

status=0
while read -r crate test; do
    [ -n "$crate" ] && is_meant "$crate $test" "$@" || continue
    refuse "$crate" "$test" || status=1
done <<<"$TESTS"
exit $status
