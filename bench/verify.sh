#!/bin/bash
# verify.sh [ROUNDS] [MIB] [KINDS]: the processor time of `verify` against that of `md5sum` over the same files, by a list with these
# digests ("md5" where they are left out, at most "md5 sha1 xxh"); with more than one also against `hashdeep`, where it is there.
# Makes a folder of about MIB mebibytes in files of mixed sizes, and a list of it outside the station; then runs all in turn, ROUNDS
# times, and says the least of each and their ratios. Build the program first: (cd crates/station_cli && rt run).
set -eu
here=$(cd "$(dirname "$0")" && pwd)
program=${PROGRAM:-$here/../crates/station_cli/out/station_cli}
rounds=${1:-9} mib=${2:-1100} kinds=${3:-md5}
. "$here/timing.sh"
card=$work/card
mkdir -p "$card/CLIP & SOUND" "$card/DÜRER <1>"

# 300 files: two thirds small ones, the rest by sizes that add up to the whole.
made=0 total=0
while [ "$made" -lt 300 ]; do
    case $((made % 3)) in
    0) size=$((mib * 10486)) path="$card/CLIP & SOUND/clip $made.mov" ;;
    1) size=$((made * 97)) path="$card/DÜRER <1>/ton $made.wav" ;;
    *) size=$((made * 1013 + 1)) path="$card/note $made.txt" ;;
    esac
    head -c "$size" /dev/urandom > "$path"
    made=$((made + 1)) total=$((total + size))
done
"$here/make_list.sh" "$card" "$work/card.mhl" "$kinds"
mv "$work/card.mhl" "$card/card.mhl"
echo "files $made bytes $total"

by_station() { "$program" verify card.mhl "$card"; }
by_md5sum() { find "$card" -type f ! -name card.mhl -print0 | xargs -0 md5sum; }
# hashdeep knows MD5 and SHA-1 alone, so it has less to do.
hashdeep -c md5,sha1 -r "$card" > "$work/known" 2> /dev/null || true
by_hashdeep() { hashdeep -c md5,sha1 -r -a -k "$work/known" "$card"; }

by_station > "$work/said" || { tail -1 "$work/said"; exit 1; }
tail -1 "$work/said"
for _ in $(seq "$rounds"); do
    cpu by_station >> "$work/station"
    cpu by_md5sum >> "$work/md5sum"
    if [ "$kinds" != md5 ] && [ -s "$work/known" ]; then cpu by_hashdeep >> "$work/hashdeep"; fi
done
ratio() { awk -v a="$(least "$1")" -v m="$(least "$work/md5sum")" -v what="$2" 'BEGIN { printf "%s %.2f md5sum %.2f ratio %.2f\n", what, a, m, a / m }'; }
echo "processor seconds, least of $rounds:"
ratio "$work/station" "verify $kinds"
if [ -e "$work/hashdeep" ]; then ratio "$work/hashdeep" "hashdeep md5,sha1"; fi
