#!/usr/bin/env bash
# Tries each command of `zenfs` with each set of closed standard streams, and compares what is left of the image with
# what the same command leaves with open streams. The image must be the same, and the status too, but that a closed
# output ends a command that prints with an output fault (3). Build the program first, by ./quickstart.
#
# Usage: streams.sh [PROGRAM]
set -u
top=$(cd "$(dirname "$0")/.." && pwd)
program=$(realpath "${1:-$top/crates/zenfs/out/zenfs}") || exit 2
[ -x "$program" ] || { echo "build the program first: ./quickstart"; exit 2; }
folder=$(mktemp -d) || exit 2
trap 'rm -rf "$folder"' EXIT
cd "$folder" || exit 2
failed=0
tried=0

# Runs a command with some of the streams 0, 1 and 2 closed. All others are files.
run() { # STREAMS COMMAND..
    local streams=$1
    shift
    (
        exec <"$folder/in" >"$folder/out" 2>"$folder/err"
        case $streams in *0*) exec <&- ;; esac
        case $streams in *2*) exec 2>&- ;; esac
        case $streams in *1*) exec >&- ;; esac
        exec "$program" "$@"
    )
}

# Lays the image out on which a command is run, or none.
lay() {
    rm -f image
    case $1 in
    none) ;;
    small) cp "$top/examples/small.img" image ;;
    text) printf 'some text\n' >image ;;
    esac
}

# The sum of the image's bytes. A new file system has a random identifier in its superblock: the two blocks of that, at
# the begin of zone 0, are left out where the command makes one.
sum() {
    if [ ! -e image ]; then
        echo none
    elif [ "$1" = mkfs ]; then
        { head -c 8192 image; tail -c +9217 image; } | sha256sum
    else
        sha256sum <image
    fi
}

# A command over an image, with open streams and then with each set of closed ones.
try() { # IMAGE PRINTS COMMAND..
    local image=$1 prints=$2
    shift 2
    lay "$image"
    run - "$@"
    local wanted_status=$? wanted
    wanted=$(sum "$1")
    local streams
    for streams in 0 1 2 01 02 12 012; do
        lay "$image"
        run $streams "$@"
        local status=$? left
        left=$(sum "$1")
        local right=$wanted_status
        [ "$wanted_status,$prints" = 0,prints ] && [[ $streams == *1* ]] && right=3
        tried=$((tried + 1))
        if [ $status -ne $right ] || [ "$left" != "$wanted" ]; then
            echo "streams $streams closed: $* over $image: status $status, wanted $right; image $([ "$left" = "$wanted" ] && echo right || echo WRONG)"
            failed=1
        fi
    done
}

: >in
shape=(--block=512 --zone_blocks=16 --capacity=16 --zones=32 --active=6)
for image in none small text; do
    try $image prints list --image=image
    try $image prints list --image=image --path=notes
    try $image prints fs-info --image=image
    try $image prints df --image=image
    try $image prints dump --image=image
    try $image silent delete --image=image --path=a.txt
    try $image silent delete --image=image --path=missing
    try $image silent link --image=image --src_file=a.txt --dst_file=b.txt
    try $image silent rename --image=image --src_file=a.txt --dst_file=b.txt
    try $image silent rename --image=image --src_file=missing --dst_file=b.txt
    try $image prints mkfs --image=image --aux_path=/aux
    try $image prints mkfs --image=image --aux_path=/aux --force
    try $image prints mkimage --image=image "${shape[@]}"
    try $image prints mkimage --image=image "${shape[@]}" --force
    try $image silent mkimage --image=image --block=513 "${shape[@]:1}"
    try $image silent no-such-command --image=image
done
echo "$tried runs with closed streams, $([ $failed = 0 ] && echo all right || echo some WRONG)"
exit $failed
