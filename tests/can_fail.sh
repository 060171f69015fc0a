#!/usr/bin/env bash
# Shows that compare can fail: each slip of slips.sh, built as the library, must be seen by it. So must a slip that both
# sides make, the library and the reference, where the tests ask for more than that both are equal.
#
#     tests/can_fail.sh
#
# Runs with this machine's own compiler where there is one, as no library is needed. Builds in
# target/tests/can_fail, where the log of each slip stays.
set -u
export LC_ALL=C             # the source is cut at each slip, and by bytes that is much faster
tests=$(cd "$(dirname "${BASH_SOURCE[0]}")" && pwd)
build=$tests/../target/tests/can_fail
compiler=${CC:-cc}
runner=()
flags=(-std=c99 -I "$tests/../include" -I "$tests")
parts=(compare calls lent words inputs group_blocks group_before group_files group_replace group_many group_salvage
    group_padded group_order group_damage group_far group_shortest)
at_once=2

if ! command -v "$compiler" >/dev/null; then
    echo "no compiler $compiler for this machine; taking the one for x86-64, which is slower"
    source "$tests/tools.sh"
    need_x86_tools || exit 1
    compiler=$CC_X86
    runner=($RUN_X86)
    flags+=(-static)
fi
rm -rf "$build"
mkdir -p "$build"
for part in "${parts[@]}" reference; do
    "$compiler" "${flags[@]}" -O1 -Wall -Wextra -Wpedantic -Werror \
        -c "$tests/$part.c" -o "$build/$part.o" || exit 1
done
objects=("${parts[@]/#/$build/}")
objects=("${objects[@]/%/.o}")

# Builds one stand-in library from a source and compares it with a reference, an object or a source, beginning with a
# group of comparisons. 0: compare passed, 1: failed, 2: not built.
try() {
    local name=$1 source=$2 reference=$3 begin=$4
    "$compiler" "${flags[@]}" -w -DREFERENCE_SOURCE="\"$source\"" -c "$tests/as_coil.c" -o "$build/$name.o" &&
        "$compiler" "${flags[@]}" -w "${objects[@]}" "$reference" "$build/$name.o" -o "$build/$name" || return 2
    "${runner[@]}" "$build/$name" 1 1 first "$begin" >"$build/$name.log" 2>&1 && return 0
    grep -q FAILED "$build/$name.log" && return 1
    return 2
}

if ! try without_slip "$tests/reference.c" "$build/reference.o" blocks; then
    echo "FAILED can_fail: the reference without a slip does not pass"
    exit 1
fi

right=$(<"$tests/reference.c")
slips=0

# The group in which a slip is likely to be seen soonest. Where it is not seen there, all the others follow, which takes
# longer: so the slips of a limit and of an order are sent to the groups of these.
group_of() {
    case $1 in
        *\ 65,536\ words* | *file\ limit* | *the\ limit\ * | replace:\ a\ full\ *) echo far ;;
        table\ *\ 32\ bits | slice\ *\ 32\ bits | open:\ length\ *\ 32\ bits | salvage:*\ 32\ bits) echo far ;;
        open:\ 1,025\ * | open:\ exam\ 0\ * | append_all:\ number\ * | *padded:*\ 16\ bits) echo far ;;
        *pack:*\ before\ * | fetch:*\ before\ * | append:*\ before\ * | replace:*\ before\ *) echo order ;;
        *\ 65,537\ words* | append_all:\ 11\ before\ *) echo order ;;
        create:* | append:* | find:* | fetch:*) echo files ;;
        open:*) echo damage ;;
        replace:*) echo replace ;;
        append_all:* | both:\ append_all:*) echo many ;;
        salvage:* | both:\ salvage:*) echo salvage ;;
        padded:* | both:\ padded:*) echo padded ;;
        both:*) echo shortest ;;
        *) echo blocks ;;
    esac
}

try_slip() {
    local number=$1 title=$2 reference=$build/reference.o result
    [[ $title == both:* ]] && reference=$build/slip$number.c
    try "slip$number" "$build/slip$number.c" "$reference" "$(group_of "$title")"
    case $? in
        1) result=seen ;;
        0) result="NOT SEEN" ;;
        *) result="NOT BUILT" ;;
    esac
    echo "$result: $title" >"$build/slip$number.result"
    rm -f "$build/slip$number" "$build/slip$number.o"
}

slip() {
    local title=$1 old=$2 new=$3
    # What follows is cut off by its length: a pattern would be tried at every place.
    local before=${right%%"$old"*}
    local after=${right:${#before}+${#old}}
    slips=$((slips + 1))
    if [[ $before == "$right" || $after == *"$old"* ]]; then
        echo "NOT FOUND ONCE: $title" >"$build/slip$slips.result"
        return
    fi
    printf '%s\n' "$before$new$after" >"$build/slip$slips.c"
    while (($(jobs -rp | wc -l) >= at_once)); do
        wait -n
    done
    try_slip "$slips" "$title" &
}

# shellcheck source=tests/slips.sh
source "$tests/slips.sh"
wait

seen=$(cat "$build"/slip*.result | grep -c '^seen: ')
cat "$build"/slip*.result | grep -v '^seen: ' | sed 's/^/FAILED can_fail: /'
echo "can_fail: $slips wrong versions of the reference, $seen of them seen by compare"
echo "$seen passed, $((slips - seen)) failed"
((seen == slips))
