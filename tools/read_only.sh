#!/usr/bin/env bash
# Tries `zenfs` on images that can't be written or read: `list`, `fs-info`, `df` and `dump` work on those that can be read, and all other
# commands end with a device fault (3) and leave the image as it is. Permissions are tried as an unprivileged user, and a
# read-only mount and an immutable file where the machine lets them be made. Build the program first, by ./quickstart.
#
# Usage: read_only.sh [PROGRAM]
set -u
top=$(cd "$(dirname "$0")/.." && pwd)
[ -x "${1:-$top/crates/zenfs/out/zenfs}" ] || { echo "build the program first: ./quickstart"; exit 2; }
folder=$(mktemp -d) || exit 2
trap 'umount "$folder/mount" 2>/dev/null; chattr -i "$folder/image" 2>/dev/null; rm -rf "$folder"' EXIT
cp "${1:-$top/crates/zenfs/out/zenfs}" "$folder/zenfs"
cd "$folder" || exit 2
chmod 755 . zenfs
failed=0

# Runs the program as somebody for whom permissions count.
as_anybody() {
    if [ "$(id -u)" = 0 ]; then
        setpriv --reuid=65534 --regid=65534 --clear-groups ./zenfs "$@"
    else
        ./zenfs "$@"
    fi
}

# The commands over an image: the four that only read end with this status, and the others with 3.
try() { # WHAT RUNNER IMAGE STATUS
    local what=$1 runner=$2 image=$3 wanted=$4 before
    before=$(sha256sum <"$image")
    local words status
    for words in list fs-info df dump; do
        $runner $words --image="$image" >out 2>err
        status=$?
        if [ $status != "$wanted" ] || { [ "$wanted" = 3 ] && ! grep -qx 'zenfs: device fault' err; }; then
            echo "WRONG: $what: $words ended with $status, wanted $wanted: $(cat err)"
            failed=1
        fi
    done
    for words in 'delete --path=a.txt' 'link --src_file=a.txt --dst_file=b' 'rename --src_file=a.txt --dst_file=b' \
        'mkfs --aux_path=/aux --force' 'mkimage --block=512 --zone_blocks=16 --capacity=16 --zones=32 --active=6 --force'; do
        $runner $words --image="$image" >out 2>err
        status=$?
        if [ $status != 3 ] || ! grep -qx 'zenfs: device fault' err; then
            echo "WRONG: $what: $words ended with $status, wanted 3: $(cat err)"
            failed=1
        fi
    done
    [ "$(sha256sum <"$image")" = "$before" ] || { echo "WRONG: $what: the image changed"; failed=1; }
    echo "tried: $what"
}

cp "$top/examples/small.img" image
chmod 444 image
try "a file without the right to write" as_anybody image 0
chmod 000 image
[ "$(id -u)" = 0 ] && try "a file without any right" as_anybody image 3
chmod 644 image

mkdir mount
if mount --bind . mount 2>/dev/null && mount -o remount,ro,bind mount 2>/dev/null; then
    try "a read-only mount" ./zenfs mount/image 0
    umount mount
else
    echo "not tried: a read-only mount"
fi
if chattr +i image 2>/dev/null; then
    try "an immutable file" ./zenfs image 0
    chattr -i image
else
    echo "not tried: an immutable file"
fi
[ $failed = 0 ] && echo "all right"
exit $failed
