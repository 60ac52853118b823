#!/bin/bash
# offload.sh [MIB] [SMALL] [ROUNDS]: a card of MIB mebibytes in 200 files of mixed sizes, and one of SMALL files of 4 KiB, are offloaded to 1, 2
# and 4 folders, by processor and elapsed time, the least of ROUNDS interleaved rounds, beside `cp` to each folder, the same with `md5sum` of the
# card and of each copy, and with `hashdeep -c md5,sha1` of them (copy, then check each copy); `pass` is one pass of our own three digests over a
# copy, by `verify`. What is asked of the large files: no more processor time than `cp` with `hashdeep`, and no more than 1.05 times a pass for
# the card and for each copy and those `cp`; the line ends with these two quotients. For small files the time is named, and that of four times as
# many, since nothing may grow with the square. Last the peak memory of an offload of 262,144 empty files. `hashdeep` is left out where it isn't
# there. Build the program first: (cd crates/station_cli && rt run). All is done on the disk of the temporary folder: set TMPDIR.
set -eu
here=$(cd "$(dirname "$0")" && pwd)
program=${PROGRAM:-$here/../crates/station_cli/out/station_cli}
mib=${1:-2048} small=${2:-20000} rounds=${3:-3}
. "$here/timing.sh"
TIMEFORMAT='%R %U %S'
both() { { time "$@" > /dev/null 2>&1; } 2>&1 | awk '{ printf "%.2f %.2f\n", $2 + $3, $1 }'; }
fresh() { rm -rf "$work"/d*; for d in $(seq "$1"); do mkdir "$work/d$d"; done; }
folders() { for d in $(seq "$1"); do echo "$work/d$d"; done; }
by_program() { "$program" offload A001 ana@cart1 "$2" "$work/$1" $(folders "$2"); }
by_cp() { for it in $(folders "$2"); do cp -r "$work/$1" "$it"; done; }
each_file() { find "$work/$1" $(folders "$2") -name '*.mov' -print0; }
by_md5sum() { by_cp "$@"; each_file "$@" | xargs -0 md5sum; }
by_hashdeep() { by_cp "$@"; each_file "$@" | xargs -0 hashdeep -c md5,sha1; }
by_pass() { "$program" verify "$(cd "$work/d1" && ls A001_*.mhl)" "$work/d1"; }
# quotients CARD FOLDERS: the program's processor time by that of cp with hashdeep, and by that of the passes with cp.
quotients() {
    for by in program cp hashdeep pass; do if [ -e "$work/$1.$by.$2" ]; then echo "$by $(least "$work/$1.$by.$2")"; fi; done |
        awk -v n="$2" '{ t[$1] = $2 } END { if (t["hashdeep"]) printf "of hashdeep %.2f ", t["program"] / t["hashdeep"]; printf "of passes %.2f", t["program"] / (t["cp"] + (n + 1) * t["pass"]) }'
}
peers="cp md5sum"
if command -v hashdeep > /dev/null; then peers="$peers hashdeep"; fi

# compare CARD ROUNDS: a line for each number of folders; each time as processor/elapsed seconds.
compare() {
    for n in 1 2 4; do
        for _ in $(seq "$2"); do
            for by in program $peers; do
                fresh $n
                both by_$by "$1" $n >> "$work/$1.$by.$n"
            done
        done
        fresh $n
        said=$(by_program "$1" $n | tail -1)
        for _ in $(seq "$2"); do both by_pass >> "$work/$1.pass.$n"; done
        line="$1 folders $n said \"$said\""
        for by in program $peers pass; do line="$line $by $(least "$work/$1.$by.$n" | tr ' ' /)"; done
        echo "$line $(quotients "$1" $n)"
    done
}

# 200 files: one of a quarter of all bytes, a few large ones, and many small ones.
mkdir "$work/large"
awk -v all=$((mib * 1048576)) 'BEGIN { left = all; for (i = 0; i < 200; i++) { size = i < 199 ? int(left / (i % 5 == 0 ? 4 : 60)) : left; left -= size; print i, size } }' | while read -r i size; do
    head -c "$size" /dev/urandom > "$work/large/C$i.mov"
done
compare large "$rounds"
rm -rf "$work/large"

# make_small CARD FILES: files of 4 KiB, a thousand in a folder.
make_small() {
    mkdir "$work/$1"
    head -c 4096 /dev/urandom > "$work/block"
    awk -v n="$2" 'BEGIN { for (i = 0; i < n; i++) printf "%d/C%d.mov\n", i / 1000, i }' > "$work/names"
    (cd "$work/$1" && cut -d/ -f1 "$work/names" | uniq | xargs mkdir && while read -r name; do cp "$work/block" "$name"; done < "$work/names")
}
make_small small "$small"
compare small 1
make_small four_times_small $((4 * small))
for card in small four_times_small; do fresh 1; echo "$card folders 1 program $(both by_program $card 1 | tr ' ' /)"; done
if command -v strace > /dev/null; then fresh 1; strace -f -c -o "$work/calls" "$program" offload A001 ana@cart1 1 "$work/small" "$work/d1" > /dev/null; head -12 "$work/calls"; fi
rm -rf "$work/small" "$work/four_times_small"

mkdir "$work/many"
awk 'BEGIN { for (i = 0; i < 262144; i++) printf "%d/C%d.mov\n", i / 1024, i }' > "$work/names"
(cd "$work/many" && cut -d/ -f1 "$work/names" | uniq | xargs mkdir && xargs touch < "$work/names")
fresh 1
awk -v who="$program" 'BEGIN { print "peak memory of 262144 files:" }'
/usr/bin/time -f '%M KiB, %e s elapsed, %U s user, %S s system' "$program" offload A001 ana@cart1 1 "$work/many" "$work/d1" 2>&1 >/dev/null
