#!/bin/bash
# written_list.sh: writes a list by `write_list`, with texts that must be escaped, and reads it with Python's XML parser: every text must
# come out as it was put in. The small program below is built (not proved) in a folder of its own.
set -eu
here=$(cd "$(dirname "$0")" && pwd)
work=$(mktemp -d)
trap 'rm -rf "$work"' EXIT
mkdir -p "$work/crates/sample/src"
cp -r "$here/../crates/path_text" "$here/../crates/mhl_writer" "$work/crates"
rm -rf "$work"/crates/*/out
cat > "$work/crates/sample/src/main.rt" <<'PROGRAM'
//! Writes a list with names that an XML text must escape.
#![tactic(auto)]

use mhl_writer::{Creator, HashEntry, HashList, NoteText, write_list};
use path_text::{Moment, PathText};
use std::alloc::Global;
use std::io::{self, Write};
use std::process::ExitCode;

fn entry(alloc: Global, path: &str, xxh: [u8; 8]) -> Option<HashEntry> {
    Some(HashEntry {
        path: PathText::read(alloc, path).ok()?,
        size: Some(3),
        modified: Moment::new(1_414_108_800),
        hashed: Moment::new(1_414_152_000),
        md5: Some([0x5a; 16]),
        sha1: Some([0xa5; 20]),
        xxh: Some(xxh),
    })
}

fn note(alloc: Global, text: &str) -> Option<NoteText> {
    NoteText::read(alloc, text).ok()?
}

fn text(alloc: Global) -> Option<Vec<u8>> {
    let creator = Creator {
        name: note(alloc, "A & <B>"),
        username: note(alloc, "ana"),
        hostname: note(alloc, "cart1"),
        tool: note(alloc, "mhlstation 1"),
        started: Moment::new(0),
        finished: Moment::new(253_402_300_799),
    };
    let mut entries = Vec::new(alloc);
    for path in ["x & <y>.mov", "DÜRER/'q'\"z\".mov", "日本/&amp;.mov", "a ]]> b"] {
        entries.push(entry(alloc, path, [1, 2, 3, 4, 5, 6, 7, 8])?).ok()?;
    }
    write_list(alloc, &HashList { creator, entries }).ok()
}

fn main(rt: HostRuntime) -> ExitCode {
    let Some(text) = text(rt.alloc()) else {
        return ExitCode::FAILURE;
    };
    match io::writer(&rt).write_all(&text) {
        Ok(()) => ExitCode::SUCCESS,
        Err(_) => ExitCode::FAILURE,
    }
}
PROGRAM
cp "$here/../HANDLES" "$work"
printf 'path_text: thiserror jiff\nmhl_writer: path_text hex itoa\nsample: path_text mhl_writer\n' > "$work/crates.txt"
git -C "$work" init -q
(cd "$work/crates/sample" && rt try 2> "$work/log" | sed '/^run=ended/d' > "$work/list.xml") || { tail -5 "$work/log"; exit 1; }
python3 - "$work/list.xml" <<'PYTHON'
import sys
import xml.etree.ElementTree as tree
root = tree.parse(sys.argv[1]).getroot()
text = lambda element, name: element.find(name).text
creator = root.find("creatorinfo")
assert root.tag == "hashlist" and root.get("version") == "1.1"
assert [text(creator, n) for n in ("name", "username", "hostname", "tool")] == ["A & <B>", "ana", "cart1", "mhlstation 1"]
assert [text(creator, n) for n in ("startdate", "finishdate")] == ["1970-01-01T00:00:00Z", "9999-12-31T23:59:59Z"]
entries = root.findall("hash")
assert [text(e, "file") for e in entries] == ["x & <y>.mov", "DÜRER/'q'\"z\".mov", "日本/&amp;.mov", "a ]]> b"]
for e in entries:
    assert text(e, "size") == "3" and text(e, "md5") == "5a" * 16 and text(e, "sha1") == "a5" * 20
    assert text(e, "xxhash64be") == "0102030405060708"
    assert text(e, "lastmodificationdate") == "2014-10-24T00:00:00Z" and text(e, "hashdate") == "2014-10-24T12:00:00Z"
print("well-formed, every text as it was put in:", len(entries), "entries")
PYTHON
