#!/bin/bash
# offload_folders.sh: offloads of real folders, good ones and bad ones, and what the program says of each: every last line and status must be
# the one that stands here. The copies are compared with `cmp`, the lists with `md5sum`, `sha1sum`, `xxhsum` (where it is there) and the XML
# parser of Python. A full drive and one that can't be written need the right to mount, and another user's run the right to become one: without
# them these are left out, and that is said. Build the program first: (cd crates/station_cli && rt run).
set -eu
here=$(cd "$(dirname "$0")" && pwd)
program=${PROGRAM:-$here/../crates/station_cli/out/station_cli}
work=$(mktemp -d)
mounts=()
trap 'for it in "${mounts[@]}"; do umount "$it"; done; rm -rf "$work"' EXIT
chmod 755 "$work"
cp "$program" "$work/station"
cd "$work"
program=$work/station

wrong=0
# said WHAT WANTED GOT
said() { if [ "$2" = "$3" ]; then echo "as wanted: $1: $3"; else echo "WRONG: $1: $3, wanted: $2"; wrong=1; fi; }
# last WORD..: the last line of a run, and its status.
last() { { timeout 60 "$program" "$@" 2>&1 && echo "status 0" || echo "status $?"; } | tail -2 | tr '\n' ';'; }
fresh() { rm -rf d0 d1 d2 d3; mkdir d0 d1 d2 d3; }
# What lies in folders, by digest and name.
lies_in() { find "$@" -type f -exec md5sum {} + | sort; }

make_card() {
    rm -rf card
    mkdir -p "card/CLIPS 001" card/ÜBER "card/日本" card/DEEP/er/still
    for i in $(seq 90); do head -c $((i * i * 37)) /dev/urandom > "card/CLIPS 001/C$i.mov"; done
    printf abc > "card/a & b < c.mov"
    printf "" > card/empty.mov
    head -c 65536 /dev/urandom > card/ÜBER/größe.mov
    head -c 200000 /dev/urandom > "card/日本/撮影.mov"
    head -c 65537 /dev/urandom > card/DEEP/er/still/x.mov
}
make_card
files=$(find card -type f | wc -l)

# is_copied DRIVE: each file of the card is there, and the list says so.
cat > check_list.py <<'CHECK'
import hashlib, os, re, subprocess, sys
import xml.etree.ElementTree as tree
card, drive = sys.argv[1:]
(name,) = [it for it in os.listdir(drive) if it.endswith(".mhl")]
root = tree.parse(f"{drive}/{name}").getroot()
seen = {}
for it in root.findall("hash"):
    seen[it.find("file").text] = {kind: it.find(kind).text for kind in ("size", "md5", "sha1", "xxhash64be") if it.find(kind) is not None}
there = sorted(os.path.relpath(f"{at}/{file}", card) for at, _, names in os.walk(card) for file in names)
assert sorted(seen) == there, "the list names other files than the card has"
def told(tool, path):
    return subprocess.run([*tool, path], capture_output=True, text=True, check=True).stdout.lstrip("\\").split()[0]
for path in there:
    data = f"{drive}/{path}"
    assert open(f"{card}/{path}", "rb").read() == open(data, "rb").read(), path
    assert seen[path]["size"] == str(os.path.getsize(data))
    kinds = {"md5": ["md5sum"], "sha1": ["sha1sum"], "xxhash64be": ["xxhsum", "-H64"]}
    for kind in seen[path].keys() - {"size"}:
        try:
            assert seen[path][kind] == told(kinds[kind], data), (path, kind)
        except FileNotFoundError:
            pass
extra = sorted(os.path.relpath(f"{at}/{file}", drive) for at, _, names in os.walk(drive) for file in names)
assert sorted([*there, name, ".mhlstation/journal"]) == extra, extra
print(len(there), "files,", " ".join(sorted(seen[there[0]].keys())))
CHECK
is_copied() { said "the copy on $1, by the list" "$files files, $2" "$(python3 check_list.py card "$1" 2>&1 | tail -1)"; }
all="md5 sha1 size xxhash64be"

fresh; said "one drive" "clear 1 1;status 0;" "$(last offload A001 ana@cart1 1 card d0)"; is_copied d0 "$all"
fresh; said "two drives" "clear 2 2;status 0;" "$(last offload A001 ana@cart1 2 card d0 d1)"; is_copied d0 "$all"; is_copied d1 "$all"
said "a drive that was used before" "refused begun 0;status 3;" "$(last offload A001 ana@cart1 1 card d0 d2)"
said "nothing was changed on the other" "" "$(lies_in d2)"
fresh; said "four drives, one copy required, MD5 alone" "clear 4 1;status 0;" "$(last offload A001 ana@cart1 1:md5 card d0 d1 d2 d3)"; is_copied d3 "md5 size"
list=$(basename d3/*.mhl)
said "verify of that list" "verdict good $files entries 0 missing 0 altered 0 unchecked 0 unlisted;status 0;" "$(last verify "$list" d3)"

fresh; rmdir d1; said "a drive folder is missing" "failed attach drive 1;status 4;" "$(last offload A001 ana@cart1 2 card d0 d1)"; said "nothing was changed" "" "$(lies_in d0)"
fresh; said "the card is missing" "failed attach card;status 4;" "$(last offload A001 ana@cart1 1 nowhere d0)"
said "the same folder twice" "refused words;status 2;" "$(last offload A001 ana@cart1 2 card d0 d0)"
said "more copies than drives" "refused words;status 2;" "$(last offload A001 ana@cart1 3 card d0 d1)"
said "no copy" "refused words;status 2;" "$(last offload A001 ana@cart1 0 card d0)"
said "kinds in another order" "refused words;status 2;" "$(last offload A001 ana@cart1 1:sha1+md5 card d0)"
said "no host" "refused words;status 2;" "$(last offload A001 ana 1 card d0)"
fresh; mkdir -p d1/ÜBER; printf old > d1/ÜBER/größe.mov
before=$(lies_in d0 d1)
said "a drive holds one of the files" "refused occupied 1 ÜBER/größe.mov;status 3;" "$(last offload A001 ana@cart1 1 card d0 d1)"; said "nothing was changed" "$before" "$(lies_in d0 d1)"
fresh; mkdir d0/.mhlstation; printf nonsense > d0/.mhlstation/journal
said "a journal that is none" "refused notajournal 0 0;status 3;" "$(last offload A001 ana@cart1 1 card d0 d1)"
fresh; mkdir none; said "a card with no file" "refused emptycard;status 3;" "$(last offload A001 ana@cart1 1 none d0)"
fresh; mkdir odd; printf abc > "odd/$(printf 'b\377.mov')"; said "a name that is not UTF-8" "failed card;status 4;" "$(last offload A001 ana@cart1 1 odd d0)"; said "nothing was changed" "" "$(lies_in d0)"
fresh; mkdir linked; printf abc > linked/a.mov; ln -s ../card/empty.mov linked/b.mov
said "a card with a link, which is left out" "clear 1 1;status 0;" "$(last offload A001 ana@cart1 1 linked d0)"; said "what is there" "1" "$(find d0 -name '*.mov' | wc -l)"
fresh; mkdir clash; printf abc > clash/a; mkdir clash/dir; printf abc > "clash/dir/b"
said "standard output is closed" "5" "$("$program" offload A001 ana@cart1 1 clash d0 >&- 2> /dev/null && echo 0 || echo $?)"

fresh
if mount -t tmpfs -o size=1m none d1 2> /dev/null; then
    mounts+=("$work/d1")
    said "a drive that fills up, while the others go on" "clear 2 2;status 1;" "$(last offload A001 ana@cart1 2 card d0 d1 d2)"; is_copied d0 "$all"; is_copied d2 "$all"
    said "its list has no name" "" "$(find d1 -name '*.mhl')"
    mount -o remount,ro d1; rm -rf d0 d2; mkdir d0 d2
    said "that drive again, read-only" "refused begun 1;status 3;" "$(last offload A001 ana@cart1 1 card d0 d1)"
    umount d1; mounts=()
    mount -t tmpfs -o size=1m,ro none d1; mounts+=("$work/d1"); rm -rf d0; mkdir d0
    said "a drive that can't be written" "clear 1 1;status 1;" "$(last offload A001 ana@cart1 1 card d0 d1)"; is_copied d0 "$all"
    umount d1; mounts=()
else
    echo "left out: mounting is not allowed"
fi

fresh
if command -v setpriv > /dev/null && [ "$(id -u)" = 0 ]; then
    as() { timeout 60 setpriv --reuid 65534 --regid 65534 --clear-groups "$program" "$@" 2>&1 && echo "status 0" || echo "status $?"; }
    said "a user without rights on the drive" "dropped 0 fault;status 1;" "$(as offload A001 ana@cart1 1 card d0 | tail -2 | tr '\n' ';')"
    chown 65534 d0 d1; chmod 000 "card/CLIPS 001/C50.mov"
    said "a file of the card can't be read" "failed card;status 4;" "$(as offload A001 ana@cart1 1 card d0 d1 | tail -2 | tr '\n' ';')"
    said "files before it are whole" "same" "$(cmp -s "card/CLIPS 001/C1.mov" "d0/CLIPS 001/C1.mov" && echo same)"
    chmod 644 "card/CLIPS 001/C50.mov"
else
    echo "left out: becoming another user is not allowed"
fi

if command -v strace > /dev/null; then
    fresh
    mkdir tiny; printf abc > tiny/a.mov
    strace -f -e trace=openat,write,pwrite64,fsync,fdatasync,syncfs,sync,rename,renameat,renameat2,pread64 -o calls "$program" offload A001 ana@cart1 1 tiny d0
    echo "the calls of the system of an offload of one file:"
    grep -v '/proc\|/etc\|ld.so\|/lib' calls | sed 's/^[0-9]* *//' | cut -c1-150
fi
exit $wrong
