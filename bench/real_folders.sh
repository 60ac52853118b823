#!/bin/bash
# real_folders.sh: folders with links, a pipe and a name that is not UTF-8, and what the program and each call of the bay over real folders
# say of them: every line must be the one that stands here, what lies outside must stay as it was, and, where `strace` is there, no call of
# the system may name anything behind a link. Build the program first: (cd crates/station_cli && rt run). The small program below, which
# makes the calls, is built (not proved) in a folder of its own.
set -eu
here=$(cd "$(dirname "$0")" && pwd)
program=${PROGRAM:-$here/../crates/station_cli/out/station_cli}
work=$(mktemp -d)
trap 'rm -rf "$work"' EXIT
mkdir "$work/trial"
cd "$work/trial"

wrong=0
# said WHAT WANTED GOT
said() { if [ "$2" = "$3" ]; then echo "as wanted: $1: $3"; else echo "WRONG: $1: $3, wanted: $2"; wrong=1; fi; }
# A folder `dev` with a file, four links, a pipe, and a folder `out` beside it.
fresh() {
    rm -rf dev out
    mkdir -p dev/real out
    printf abc > dev/real/a.mov; printf theirs > out/x
    ln -s ../out dev/DCIM; ln -s ../out dev/.mhlstation; ln -s ../out/x dev/file; ln -s ../out/y dev/hollow
    mkfifo dev/pipe
}
outside() { (cd out && find . -type f -exec sh -c 'echo "$1" "$(cat "$1")"' _ {} \;) | sort; }

# verify WHAT WANTED FOLDER: the lines and the status.
verify() { said "$1" "$2" "$({ timeout 20 "$program" verify x.mhl "$3" 2>&1; echo "status $?"; } | tr '\n' ';')"; }
fresh
"$here/make_list.sh" dev x.mhl
cp x.mhl dev/x.mhl
ln -s dev root
good='verdict good 1 entries 0 missing 0 altered 0 unchecked 0 unlisted;status 0;'
verify "links and a pipe are left out" "$good" dev
verify "the folder may be a link" "$good" root
sed -i 's,<file>real/a.mov,<file>DCIM/x,' dev/x.mhl
verify "a file behind a link" 'missing DCIM/x;unlisted real/a.mov;verdict bad 1 entries 1 missing 0 altered 0 unchecked 1 unlisted;status 1;' dev
rm dev/x.mhl
ln -s ../x.mhl dev/x.mhl
verify "a list that is a link" 'unreadable absent;status 7;' dev
rm dev/x.mhl
cp x.mhl dev/x.mhl
odd=$(printf 'b\377.mov')
printf abc > "dev/real/$odd"
verify "a name that is not UTF-8" 'failed drive;status 8;' dev
said "the table there" 'failed drive' "$("$program" print x.mhl dev)"
said "it is found" "dev/real/$odd" "$(find dev | LC_ALL=C.UTF-8 grep -axv '.*')"

mkdir -p "$work/crates/sample/src"
cp -r "$here/../crates/bay_core" "$here/../crates/bay_host" "$work/crates"
rm -rf "$work"/crates/*/out
cat > "$work/crates/sample/src/main.rt" <<'PROGRAM'
//! Attaches a folder as a card and a drive for each of the paths, makes each call with it, and says which were Ok.
#![tactic(auto)]

use bay_core::Bay;
use bay_host::HostBay;
use std::alloc::{AllocError, Global};
use std::env::Env;
use std::io;
use std::process::ExitCode;

fn word(env: &impl Env, alloc: Global, i: usize) -> Result<String, AllocError> {
    let mut buffer = [0u8; 256];
    match env.arg(i, &mut buffer) {
        Ok(len) => str::from_utf8(&buffer[..len]).unwrap_or("").to_owned(alloc),
        Err(_) => Ok(String::new(alloc)),
    }
}

fn calls(rt: &HostRuntime, root: &str, path: &str) -> io::Result<()> {
    let alloc = rt.alloc();
    let mut bay = HostBay::new(rt.clone()?, alloc);
    let Ok(s) = bay.attach_source(root) else {
        return Ok(println!(rt; "card not attached")?);
    };
    let Ok(d) = bay.attach_drive(root) else {
        return Ok(println!(rt; "drive not attached")?);
    };
    let mut got = [0; 4];
    let lists = (bay.source_list(alloc, s).is_ok(), bay.drive_list(alloc, d).is_ok());
    let reads = (bay.source_read(s, path, 0, &mut got).is_ok(), bay.drive_read(d, path, 0, &mut got).is_ok());
    let renames = (bay.rename(d, "real/a.mov", path).is_ok(), bay.rename(d, path, "moved").is_ok());
    let write = bay.write(d, path, 0, b"ours").is_ok();
    let remove = bay.remove(d, path).is_ok();
    let sync = bay.sync(d).is_ok();
    println!(rt; "{path} lists {lists:?} reads {reads:?} renames {renames:?} write {write} remove {remove} sync {sync}")?;
    Ok(())
}

fn every(rt: &HostRuntime) -> io::Result<()> {
    let root = word(rt, rt.alloc(), 1)?;
    for i in 2..100 {
        let path = word(rt, rt.alloc(), i)?;
        if path.is_empty() {
            return Ok(());
        }
        calls(rt, &root, &path)?;
    }
    Ok(())
}

fn main(rt: HostRuntime) -> ExitCode {
    match every(&rt) {
        Ok(()) => ExitCode::SUCCESS,
        Err(_) => ExitCode::FAILURE,
    }
}
PROGRAM
cp "$here/../HANDLES" "$work"
printf 'bay_core: thiserror\nbay_host: bay_core\nsample: bay_core bay_host\n' > "$work/crates.txt"
git -C "$work" init -q
trace=
if strace true 2> /dev/null; then trace="strace -f -qq --seccomp-bpf -e trace=%file -o $work/calls"; fi
# each PATH..: what the calls with each path came to.
each() { (cd "$work/crates/sample" && $trace rt try -- "$work/trial/dev" "$@" 2> "$work/log" | sed '/^run=ended/d') || tail -5 "$work/log"; }

paths='DCIM/x DCIM/y DCIM/a/y .mhlstation/journal .mhlstation/new file hollow pipe real real/a.mov/x ../out/x absent/../../out/x'
fresh
there=$(ls -lR --time-style=+ dev)
each $paths > "$work/got"
for path in $paths; do
    said "calls" "$path lists (true, true) reads (false, false) renames (false, false) write false remove false sync true" "$(awk -v path="$path" '$1 == path' "$work/got")"
done
said "the folder outside" "./x theirs" "$(outside)"
if [ "$there" = "$(ls -lR --time-style=+ dev)" ]; then echo "as wanted: the folder is as it was"; else echo "WRONG: the folder changed"; wrong=1; fi
if [ -n "$trace" ]; then
    said "looks at a link" true "$(grep -q 'dev/DCIM",' "$work/calls" && echo true)"
    said "calls of the system behind a link" 0 "$(grep -v execve "$work/calls" | grep -cE 'trial/dev/(DCIM|\.mhlstation|file|hollow)/|trial/dev/.*\.\./|trial/out' || true)"
fi
printf abc > "dev/real/$odd"
said "a name that is not UTF-8" "absent lists (false, false) reads (false, true) renames (true, true) write true remove true sync true" "$(each absent)"
exit $wrong
