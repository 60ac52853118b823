#!/usr/bin/env python3
"""gate.py: what the gate costs, crate by crate.

Runs `rt ci --anew` at the top of this checkout, which proves and tries everything, and looks twice a second at the processes of the
prover that it starts. The table has for each crate the processor seconds of its proof, of the proof of its tests, and of its
must-fail edits, and the seconds from the first of these processes to the last one; a process that ends between two looks loses at
most half a second. Then the sums, what `rt ci` took in all, and what of the proofs the first command of the README needs. The output
of `rt ci` goes to a file, which is named first. Nothing else should run beside it.
"""

import os
import re
import resource
import subprocess
import tempfile
import time
from collections import defaultdict
from pathlib import Path

TOP = Path(__file__).resolve().parent.parent
TICKS = os.sysconf("SC_CLK_TCK")
KINDS = ("proof", "tests", "edits")
FIRST = "station_cli"


def of_session(session):
    """The processes of this session: number, processor seconds, words, folder."""
    for entry in os.listdir("/proc"):
        if not entry.isdigit():
            continue
        try:
            fields = Path(f"/proc/{entry}/stat").read_text().rsplit(")", 1)[1].split()
            if int(fields[3]) != session:
                continue
            words = Path(f"/proc/{entry}/cmdline").read_bytes().decode(errors="replace").split("\0")
            folder = os.readlink(f"/proc/{entry}/cwd")
        except (OSError, IndexError):
            continue
        yield int(entry), (int(fields[11]) + int(fields[12])) / TICKS, words, folder


def kind_of(words, folder):
    if "/rt-edit-" in folder:
        return "edits"
    return "tests" if "--test" in words else "proof"


def crates_below(name):
    """The crates that this one stands on, and itself, by crates.txt."""
    uses = dict(re.findall(r"^(\w+):(.*)$", (TOP / "crates.txt").read_text(), re.M))
    below, more = set(), [name]
    while more:
        crate = more.pop()
        if crate in uses and crate not in below:
            below.add(crate)
            more += uses[crate].split()
    return below


def main():
    log = tempfile.NamedTemporaryFile(prefix="gate-", suffix=".log", delete=False)
    print(log.name, flush=True)
    start = time.time()
    gate = subprocess.Popen(["rt", "ci", "--anew"], cwd=TOP, stdout=log, stderr=log, start_new_session=True)
    spent, seen = {}, defaultdict(lambda: [float("inf"), 0.0])
    while gate.poll() is None:
        for number, seconds, words, folder in of_session(gate.pid):
            if "--crate-name" not in words:
                continue
            crate = words[words.index("--crate-name") + 1]
            spent[number, crate, kind_of(words, folder)] = seconds
            times = seen[crate]
            times[0], times[1] = min(times[0], time.time()), time.time()
        time.sleep(0.5)
    elapsed, all_of_it = time.time() - start, resource.getrusage(resource.RUSAGE_CHILDREN)
    table = defaultdict(lambda: dict.fromkeys(KINDS, 0.0))
    for (_, crate, kind), seconds in spent.items():
        table[crate][kind] += seconds
    print(f"{'crate':18}{'proof':>8}{'tests':>8}{'edits':>8}{'elapsed':>9}")
    for crate in sorted(table, key=lambda c: -sum(table[c].values())):
        row = table[crate]
        print(f"{crate:18}" + "".join(f"{row[kind]:8.0f}" for kind in KINDS) + f"{seen[crate][1] - seen[crate][0]:9.0f}")
    print(f"{'sum':18}" + "".join(f"{sum(row[kind] for row in table.values()):8.0f}" for kind in KINDS))
    print(f"rt ci in all: {all_of_it.ru_utime + all_of_it.ru_stime:.0f} s of processor time, {elapsed:.0f} s elapsed")
    print(f"the proofs below {FIRST}: {sum(table[crate]['proof'] for crate in crates_below(FIRST) if crate in table):.0f} s of processor time")
    print(Path(log.name).read_text(errors="replace").rstrip().rsplit("\n", 1)[-1])
    return gate.returncode


if __name__ == "__main__":
    raise SystemExit(main())
