#!/bin/bash
# copying.sh [MIB] [ROUNDS]: one file of MIB mebibytes is read once, digested three ways and copied to 1, 2, 4 and 8 folders, against
# `md5sum` and `cp` of the same file, by processor time, the least of ROUNDS interleaved rounds. What is asked: about 2.4 times `md5sum` for
# the digests, and for each folder little more than a `cp`. Build the program first: (cd crates/whole_copy && rt run).
set -eu
here=$(cd "$(dirname "$0")" && pwd)
program=${PROGRAM:-$here/../crates/whole_copy/out/whole_copy}
mib=${1:-256} rounds=${2:-9}
. "$here/timing.sh"
mkdir "$work/card"
head -c "$((mib * 1048576))" /dev/urandom > "$work/card/a.mov"
size=$(stat -c %s "$work/card/a.mov")

fresh() { rm -rf "$work"/d*; for d in $(seq "$1"); do mkdir "$work/d$d"; done; }
by_program() { "$program" "$work/card" a.mov "$size" $(for d in $(seq "$1"); do echo "$work/d$d"; done); }
by_cp() { for d in $(seq "$1"); do cp "$work/card/a.mov" "$work/d$d/a.mov"; done; }

fresh 1
by_program 1
cmp "$work/card/a.mov" "$work/d1/.mhlstation/part"
for _ in $(seq "$rounds"); do
    cpu md5sum "$work/card/a.mov" >> "$work/md5sum"
    for n in 1 2 4 8; do
        fresh $n; cpu by_program $n >> "$work/copy$n"
        fresh $n; cpu by_cp $n >> "$work/cp$n"
    done
done
md5=$(least "$work/md5sum")
echo "bytes $size md5sum $md5"
for n in 1 2 4 8; do
    awk -v n=$n -v a="$(least "$work/copy$n")" -v m="$md5" -v c="$(least "$work/cp$n")" 'BEGIN { printf "folders %d copy %.2f cp %.2f to-md5sum %.2f to-md5sum-and-cp %.2f\n", n, a, c, a / m, a / (m + c) }'
done
