#!/usr/bin/env bash
# Runs pairs of commands of `zenfs` at once on one image, and looks whether all that ended well is there afterwards, and
# all else ended with a device fault (3) or, where an image stood in the way, was refused (1). Lists at once all succeed,
# and a list beside changes is a device fault or shows a whole state. Build the program first, by ./quickstart.
#
# Usage: two_at_once.sh [PROGRAM [PAIRS]]
set -u
top=$(cd "$(dirname "$0")/.." && pwd)
program=$(realpath "${1:-$top/crates/zenfs/out/zenfs}") || exit 2
pairs=${2:-300}
[ -x "$program" ] || { echo "build the program first: ./quickstart"; exit 2; }
folder=$(mktemp -d) || exit 2
trap 'rm -rf "$folder"' EXIT
cd "$folder" || exit 2
failed=0

wrong() {
    echo "WRONG: $*"
    failed=1
}

# The names in the image, one a line.
names() {
    "$program" list --image=image | cut -f 3
}

# Runs two commands at once, and sets their statuses `left` and `right`.
at_once() { # COMMAND.. -- COMMAND..
    local first=() second=()
    while [ "$1" != -- ]; do
        first+=("$1")
        shift
    done
    shift
    second=("$@")
    "$program" "${first[@]}" >left.out 2>left.err &
    local one=$!
    "$program" "${second[@]}" >right.out 2>right.err &
    local other=$!
    wait $one
    left=$?
    wait $other
    right=$?
}

# A command that ended well has its name in the image, and one that didn't is a device fault.
judge() { # SIDE STATUS NAME
    case $2 in
    0) names | grep -qx "$3" || wrong "$3 was acknowledged, and isn't there" ;;
    3) grep -qx 'zenfs: device fault' "$1.err" || wrong "status 3 without a device fault: $(cat "$1.err")" ;;
    *) wrong "status $2: $(cat "$1.err")" ;;
    esac
}

both=0
for pair in $(seq "$pairs"); do
    cp "$top/examples/small.img" image
    at_once link --image=image --src_file=a.txt --dst_file="left$pair" -- \
        link --image=image --src_file=a.txt --dst_file="right$pair"
    judge left $left "left$pair"
    judge right $right "right$pair"
    [ $left = 0 ] && [ $right = 0 ] && both=$((both + 1))
    [ $left = 0 ] || [ $right = 0 ] || [ $left = 3 ] || wrong "both failed otherwise than for the lock"
done
echo "$pairs pairs of changes at once; in $both of them both ended well"

# Two images for one missing file: at most one is made, since neither is asked to replace the other. It is whole then.
shape=(--block=512 --zone_blocks=16 --capacity=16 --zones=32 --active=6)
larger=("${shape[@]/--zones=32/--zones=64}")
well=0
for pair in $(seq "$pairs"); do
    rm -f image
    at_once mkimage --image=image "${shape[@]}" -- mkimage --image=image "${larger[@]}"
    case $left,$right in
    0,1 | 0,3 | 1,0 | 3,0)
        well=$((well + 1))
        bytes=$([ $left = 0 ] && echo 270336 || echo 532480)
        [ "$(stat -c %s image)" = "$bytes" ] || wrong "the image has not the size of the one that was made"
        "$program" mkfs --image=image --aux_path=/aux >/dev/null || wrong "no whole image was made"
        ;;
    3,3) [ -s image ] && wrong "nobody made an image, and the file has bytes" ;;
    *) wrong "two mkimage ended with $left and $right" ;;
    esac
done
echo "$pairs pairs of mkimage at once; in $well of them one ended well"

cp "$top/examples/small.img" image
"$program" list --image=image >wanted
lists=()
for list in $(seq 20); do
    "$program" list --image=image >"list$list" &
    lists+=($!)
done
for list in $(seq 20); do
    wait "${lists[$((list - 1))]}" || wrong "a list beside lists ended with $?"
    cmp -s "list$list" wanted || wrong "a list beside lists shows something else"
done
echo "20 lists at once"

# Each state has two names: `notes/today`, and one that is renamed to and fro.
(
    from=a.txt
    to=b.txt
    for turn in $(seq "$pairs"); do
        "$program" rename --image=image --src_file=$from --dst_file=$to 2>/dev/null && {
            swap=$from
            from=$to
            to=$swap
        }
    done
) &
changes=$!
shown=0
refused=0
while kill -0 $changes 2>/dev/null; do
    "$program" list --image=image >list.out 2>list.err
    case $? in
    0)
        shown=$((shown + 1))
        [ "$(cut -f 3 list.out | tr '\n' ' ' | sed 's/^b/a/')" = 'a.txt notes/today ' ] || wrong "a list shows no whole state: $(cat list.out)"
        ;;
    3)
        refused=$((refused + 1))
        [ -s list.out ] && wrong "a list that is a fault prints"
        ;;
    *) wrong "a list beside changes is refused: $(cat list.err)" ;;
    esac
done
wait $changes
echo "lists beside $pairs renames: $shown shown, $refused device faults"

# A lock that somebody else holds.
cp "$top/examples/small.img" image
held() { # KIND STATUS COMMAND..
    local kind=$1 wanted=$2
    shift 2
    flock "$kind" image "$program" "$@" >/dev/null 2>held.err
    local status=$?
    [ $status = "$wanted" ] || wrong "beside a lock ($kind) $1 ended with $status, and not with $wanted"
    cmp -s image "$top/examples/small.img" || wrong "beside a lock ($kind) $1 changed the image"
}
for kind in -s -x; do
    held $kind "$([ $kind = -s ] && echo 0 || echo 3)" list --image=image
    held $kind "$([ $kind = -s ] && echo 0 || echo 3)" fs-info --image=image
    held $kind 3 delete --image=image --path=a.txt
    held $kind 3 delete --image=image --path=missing
    held $kind 3 mkfs --image=image --aux_path=/aux --force
    held $kind 3 mkimage --image=image "${shape[@]}" --force
done
echo "commands beside a shared and an exclusive lock"

[ $failed = 0 ] && echo "all right"
exit $failed
