#!/bin/bash
# digests.sh [FILES]: files of many lengths, with random bytes, and their digests by md5sum, sha1sum and xxhsum: `verify` must find each
# of them good, and each of them altered in every digest once its first byte is another.
# Build the program first: (cd crates/station_cli && rt run).
set -eu
here=$(cd "$(dirname "$0")" && pwd)
program=${PROGRAM:-$here/../crates/station_cli/out/station_cli}
files=${1:-300}
work=$(mktemp -d)
trap 'rm -rf "$work"' EXIT
mkdir "$work/card"
n=0
for length in 0 1 3 4 7 8 31 32 33 63 64 65 55 56 57 119 120 65535 65536 65537; do
    head -c "$length" /dev/urandom > "$work/card/edge $length"
    n=$((n + 1))
done
while [ "$n" -lt "$files" ]; do
    head -c $(((RANDOM * 32768 + RANDOM) % 300000)) /dev/urandom > "$work/card/file $n"
    n=$((n + 1))
done
"$here/make_list.sh" "$work/card" "$work/x.mhl" "md5 sha1 xxh"
mv "$work/x.mhl" "$work/card/x.mhl"
"$program" verify x.mhl "$work/card"
rm "$work/card/edge 0"
for file in "$work"/card/edge* "$work"/card/file*; do
    first=$(head -c 1 "$file" | od -An -tu1)
    printf "\\$(printf %03o $(((first + 1) % 256)))" | dd of="$file" conv=notrunc status=none
done
"$program" verify x.mhl "$work/card" | awk '/^altered/ { n[$2]++ } END { for (k in n) print "altered", k, n[k] }' | sort
