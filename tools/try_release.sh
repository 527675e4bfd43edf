#!/bin/sh
# try_release.sh: how long it takes from a fresh clone to the first answer, on a system without the kit.
#
#     tools/try_release.sh [RELEASE]
#
# The folder RELEASE, release/ where none is named, has the archive and its sum. It needs root, for a root folder in
# which nothing of this machine is seen but /usr without /usr/local.
set -eu
cd "$(dirname "$0")/.."
release=$(readlink -f "${1:-release}")
room=$(mktemp -d)
trap 'rm -rf "$room"' EXIT
begun=$(date +%s%N)
git clone -q . "$room/cti"
mkdir -p "$room/cti/release"
[ "$release" = "$PWD/release" ] || cp "$release"/* "$room/cti/release/"
cat > "$room/inside" << 'INSIDE'
set -eu
mkdir root
mount -t tmpfs none root
mkdir root/cti root/usr root/tmp root/dev
mount --bind cti root/cti
mount --bind -o ro /usr root/usr
mount -t tmpfs none root/usr/local
for it in bin lib lib64; do ln -s "usr/$it" "root/$it"; done
touch root/dev/null
mount --bind /dev/null root/dev/null
exec env -i PATH=/usr/bin:/bin "$(command -v chroot)" root sh -eu -c '
    cd /cti
    for it in rt rattle; do ! command -v $it || exit 1; done
    [ ! -e /opt ] && [ ! -e /root ]
    make -s install-release PREFIX=/tmp/somewhere
    /tmp/somewhere/bin/cti infer examples/quicksort.pl | grep "^terminates"'
INSIDE
(cd "$room" && unshare -m sh ./inside)
echo "from git clone to the answer: $(( ($(date +%s%N) - begun) / 1000000 )) milliseconds"
