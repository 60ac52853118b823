#!/bin/bash
# sealing.sh [FILES] [ROUNDS]: the inventory of FILES files, from a listing held in memory, against `sort` of the same paths; and the seal
# of a folder by a list of as many entries against `cp` of that list, and against `cp` with a `sync` of the copy. Says the processor
# seconds and the seconds of each, the medians of ROUNDS interleaved rounds, and their ratios. The program's parts are taken one behind
# another: what one of them costs is what a run with it costs more than a run without it. The program is built, and so proved, in a
# folder of its own; that takes what was proved here before, so prove first: (cd crates/seal_step && rt lib).
set -eu
here=$(cd "$(dirname "$0")" && pwd)
files=${1:-262144} rounds=${2:-5}
. "$here/timing.sh"
mkdir "$work/build"
cat > "$work/main.rt" <<'PROGRAM'
//! Makes a listing of many files, takes its inventory, makes a plan of it with a record for each file, and seals a folder by that. Ends
//! behind the part that the first word names.
#![tactic(auto)]

ghost use Rattle.std.specs.Prelude.{◌≡◌, ◌<◌, ◌-◌, ◌^◌, length, true, IfOk};
ghost use Rattle.path_text.specs.Kinds.{has_kind};

use bay_core::{Bay, FileInfo, NameText};
use bay_host::HostBay;
use block_pool::Pool;
use card_inventory::inventory_of;
use copy_plan::{Inventory, Plan};
use digest_set::Triple;
use drive_journal::Rec;
use path_text::{Kinds, Label, Moment, Scratch};
use seal_step::seal;
use std::alloc::{AllocError, Global};
use std::env::Env;
use std::process::ExitCode;

// 2014-10-24T12:00:00Z.
const NOON: u64 = 1_414_152_000;

fn word(env: &impl Env, alloc: Global, i: usize) -> Result<String, AllocError> {
    let mut buffer = [0u8; 256];
    match env.arg(i, &mut buffer) {
        Ok(len) => str::from_utf8(&buffer[..len]).unwrap_or("").to_owned(alloc),
        Err(_) => Ok(String::new(alloc)),
    }
}

// The listing of so many files, in no order.
fn listing(alloc: Global, files: u32) -> Result<Vec<FileInfo>, AllocError> {
    let mut listing = Vec::new(alloc);
    for i in 0..files {
        let n = u64::from(i) * 7919 % u64::from(files);
        let folder = n / 1024;
        let path = format!(in alloc; "CLIPS/{folder:03}/C{n:06}.MOV")?;
        listing.push(FileInfo {
            path: NameText::of(alloc, &path)?,
            size: n,
            modified: NOON - n % 86_400,
        })?;
    }
    Ok(listing)
}

fn plan(alloc: Global, inventory: Inventory) -> Option<Plan> {
    let kinds = Kinds {
        md5: true,
        sha1: true,
        xxh: true,
    };
    let name = Label::read("A001").ok()?;
    let user = Label::read("ana").ok()?;
    let host = Label::read("cart1").ok()?;
    Plan::make(
        alloc,
        name,
        user,
        host,
        Moment::new(NOON)?,
        kinds,
        None,
        inventory,
    )
    .ok()
}

fn records(alloc: Global, plan: &Plan) -> Option<Vec<Rec>> {
    let hashed = Moment::new(NOON)?;
    let mut records = Vec::new(alloc);
    let mut index = 0u32;
    for file in plan.files() {
        let byte = (index % 251) as u8;
        let triple = Triple {
            md5: [byte; 16],
            sha1: [byte; 20],
            xxh: [byte; 8],
        };
        records
            .push(Rec {
                index,
                size: file.size,
                triple,
                hashed,
            })
            .ok()?;
        index = index.saturating_add(1);
    }
    Some(records)
}

fn seal_folder<B: Bay>(
    alloc: Global,
    bay: &mut B,
    folder: &str,
    plan: &Plan,
    records: &[Rec],
) -> Option<()>
    requires { (B.world bay.old).attached.drives < 2 ^ 32 - 1 }
{
    if records.len() != plan.files().len() {
        return None;
    }
    let mut scratch = Scratch::new(alloc).ok()?;
    let mut pool = Pool::new(alloc, 1).ok()?;
    let slot = pool.take()?;
    let finish = Moment::new(NOON)?;
    let d = bay.attach_drive(folder).ok()?;
    seal(
        bay,
        d,
        plan,
        records,
        finish,
        &mut pool,
        &slot,
        &mut scratch,
    )
    .ok()
}

fn parts<B: Bay>(alloc: Global, bay: &mut B, last: &str, files: &str, folder: &str) -> Option<()>
    requires { (B.world bay.old).attached.drives < 2 ^ 32 - 1 }
{
    let listing = listing(alloc, files.parse().ok()?).ok()?;
    if last == "listing" {
        return Some(());
    }
    let inventory = inventory_of(alloc, listing).ok()?;
    if last == "inventory" {
        return Some(());
    }
    let plan = plan(alloc, inventory)?;
    let records = records(alloc, &plan)?;
    if last == "records" {
        return Some(());
    }
    seal_folder(alloc, bay, folder, &plan, &records)
}

fn main(rt: HostRuntime) -> ExitCode {
    let alloc = rt.alloc();
    let (Ok(last), Ok(files), Ok(folder)) = (
        word(&rt, alloc, 1),
        word(&rt, alloc, 2),
        word(&rt, alloc, 3),
    ) else {
        return ExitCode::FAILURE;
    };
    let mut bay = HostBay::new(rt, alloc);
    match parts(alloc, &mut bay, &last, &files, &folder) {
        Some(()) => ExitCode::SUCCESS,
        None => ExitCode::FAILURE,
    }
}
PROGRAM
# Makes the program in a folder of its own, over the crates as they stand.
make_program() {
    tar -C "$here/.." --exclude=out -c crates crates.txt HANDLES | tar -C "$work/build" -x
    mkdir -p "$work/build/crates/many_files/src"
    mv "$work/main.rt" "$work/build/crates/many_files/src"
    printf 'many_files: bay_core bay_host block_pool card_inventory copy_plan digest_set drive_journal path_text seal_step\n' >> "$work/build/crates.txt"
    git -C "$work/build" init -q
    (cd "$work/build/crates/many_files" && rt run -- listing 1 > "$work/log" 2>&1) || { tail -20 "$work/log"; exit 1; }
}
program=${PROGRAM:-$work/build/crates/many_files/out/many_files}
if [ -z "${PROGRAM:-}" ]; then make_program; fi

list=$work/drive/A001_2014-10-24_120000.mhl
awk -v n="$files" 'BEGIN { for (i = 0; i < n; i++) { k = i * 7919 % n; printf "CLIPS/%03d/C%06d.MOV\n", k / 1024, k } }' > "$work/paths"
by_listing() { "$program" listing "$files"; }
by_inventory() { "$program" inventory "$files"; }
by_records() { "$program" records "$files"; }
by_seal() { "$program" seal "$files" "$work/drive"; }
by_sort() { LC_ALL=C sort -o "$work/sorted" "$work/paths"; }
by_cp() { cp "$list" "$work/copy"; }
by_cp_and_sync() { cp "$list" "$work/copy" && sync "$work/copy"; }
fresh() { rm -rf "$work/drive"; mkdir "$work/drive"; }

fresh
by_seal
by_sort
grep -o '<file>[^<]*' "$list" | cut -c7- | cmp - "$work/sorted"
echo "files $files bytes of the list $(stat -c %s "$list")"
# The processor seconds and the seconds of one run.
TIMEFORMAT='%U %S %R'
timed() { { time "$1" > /dev/null 2>&1; } 2>&1 | awk '{ printf "%.3f %.3f\n", $1 + $2, $3 }' >> "$work/time_$1"; }
for _ in $(seq "$rounds"); do
    for what in listing inventory records; do timed by_$what; done
    timed by_sort
    fresh
    timed by_seal
    for what in cp cp_and_sync; do rm -f "$work/copy"; timed by_$what; done
done
# median WHAT FIELD
median() { awk -v f="$2" '{ print $f }' "$work/time_by_$1" | sort -n | awk '{ a[NR] = $1 } END { print a[int((NR + 1) / 2)] }'; }
# compare WHAT WITHOUT PEER: how much more the first costs than the second, to the third.
compare() {
    for field in 1 2; do
        awk -v a="$(median "$1" $field)" -v b="$(median "$2" $field)" -v c="$(median "$3" $field)" -v what="$1" -v peer="$3" -v field=$field \
            'BEGIN { unit = field == 1 ? "processor" : "elapsed"; printf "%s %s %.3f %s %.3f ratio %.2f\n", what, unit, a - b, peer, c, (a - b) / c }'
    done
}
compare inventory listing sort
compare seal records cp
compare seal records cp_and_sync
