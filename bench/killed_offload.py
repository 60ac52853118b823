#!/usr/bin/env python3
"""Kills an offload at random moments, and takes the drives apart after each.

    bench/killed_offload.py PROGRAM FOLDER [ROUNDS [FILES]]

Makes a card of some hundred files in FOLDER, offloads it to two empty folders, kills the program with SIGKILL at a random
moment of the run, and looks at what it left: by the formats of docs/FORMATS.md alone, which are written here once more, and
with digests of Python's own library and an XXH64 of its own. Each drive has to hold a prefix of the offload's steps (the
journal, then each file in order with its record, then the list), every step that a whole line on standard output announced,
and at most one more; nothing else may lie there but the station's scratch files and the file under way; and a list under its
name has to be whole and true.
"""
import hashlib, os, random, shutil, signal, struct, subprocess, sys, time

M = (1 << 64) - 1
P1, P2, P3, P4, P5 = 0x9E3779B185EBCA87, 0xC2B2AE3D27D4EB4F, 0x165667B19E3779F9, 0x85EBCA77C2B2AE63, 0x27D4EB2F165667C5


def rotl(v, n):
    return ((v << n) | (v >> (64 - n))) & M


def mixed(v, w):
    return rotl((v + w * P2) & M, 31) * P1 & M


def xxh64(data):
    at, n = 0, len(data)
    if n >= 32:
        v = [(P1 + P2) & M, P2, 0, -P1 & M]
        while at + 32 <= n:
            for i, w in enumerate(struct.unpack_from("<4Q", data, at)):
                v[i] = mixed(v[i], w)
            at += 32
        h = (rotl(v[0], 1) + rotl(v[1], 7) + rotl(v[2], 12) + rotl(v[3], 18)) & M
        for x in v:
            h = ((h ^ mixed(0, x)) * P1 + P4) & M
    else:
        h = P5
    h = (h + n) & M
    while at + 8 <= n:
        h = (rotl(h ^ mixed(0, struct.unpack_from("<Q", data, at)[0]), 27) * P1 + P4) & M
        at += 8
    if at + 4 <= n:
        h = (rotl(h ^ (struct.unpack_from("<I", data, at)[0] * P1 & M), 23) * P2 + P3) & M
        at += 4
    for b in data[at:]:
        h = rotl(h ^ (b * P5 & M), 11) * P1 & M
    h = (h ^ (h >> 33)) * P2 & M
    h = (h ^ (h >> 29)) * P3 & M
    return h ^ (h >> 32)


def moment(t):
    return time.strftime("%Y-%m-%dT%H:%M:%SZ", time.gmtime(t))


class Wrong(Exception):
    pass


def need(holds, what):
    if not holds:
        raise Wrong(what)


class Plan:
    """A plan, as a journal begins with it."""

    def __init__(self, data):
        self.at, self.data = 0, data
        need(self.take(8) == b"MHLPLAN1", "the journal does not begin with a plan")
        self.start = self.number(8)
        self.name, self.user, self.host = (self.take(self.number(1)).decode() for _ in range(3))
        self.files = []
        for _ in range(self.number(4)):
            path = self.take(self.number(2)).decode()
            self.files.append((path, self.number(8), self.number(8)))
        self.list = f"{self.name}_{time.strftime('%Y-%m-%d_%H%M%S', time.gmtime(self.start))}.mhl"

    def take(self, count):
        need(self.at + count <= len(self.data), "the plan is cut off")
        self.at += count
        return self.data[self.at - count : self.at]

    def number(self, count):
        return int.from_bytes(self.take(count), "big")


def records_behind(plan):
    """The records behind a plan, each under an open gate, up to the gate that is closed."""
    records, at, data = [], plan.at, plan.data
    while True:
        need(at < len(data), "a gate is not there")
        if data[at] != 1:
            return records
        need(at + 65 <= len(data), "a record under an open gate is not whole")
        raw = data[at + 1 : at + 65]
        records.append((int.from_bytes(raw[:4], "big"), int.from_bytes(raw[4:12], "big"), raw[12:28].hex(), raw[28:48].hex(), raw[48:56].hex(), int.from_bytes(raw[56:], "big")))
        at += 65


def escaped(text):
    return text.replace("&", "&amp;").replace("<", "&lt;").replace(">", "&gt;")


def list_text(plan, records, finish):
    """The list of a plan and its records with this finish date, as the layout has it."""
    out = ['<?xml version="1.0" encoding="UTF-8"?>\n<hashlist version="1.1">\n  <creatorinfo>\n']
    for tag, text in [("name", plan.name), ("username", plan.user), ("hostname", plan.host), ("tool", "mhlstation 1"), ("startdate", moment(plan.start)), ("finishdate", finish)]:
        out.append(f"    <{tag}>{escaped(text)}</{tag}>\n")
    out.append("  </creatorinfo>\n")
    for (path, size, modified), record in zip(plan.files, records):
        out.append("  <hash>\n")
        for tag, text in [("file", path), ("size", size), ("lastmodificationdate", moment(modified)), ("md5", record[2]), ("sha1", record[3]), ("xxhash64be", record[4]), ("hashdate", moment(record[5]))]:
            out.append(f"    <{tag}>{escaped(str(text))}</{tag}>\n")
        out.append("  </hash>\n")
    out.append("</hashlist>\n")
    return "".join(out).encode()


def files_of(folder):
    return {os.path.relpath(f"{at}/{name}", folder): open(f"{at}/{name}", "rb").read() for at, _, names in os.walk(folder) for name in names}


def steps_on(drive, card, dates, digests):
    """How many steps of an offload of the card stand on a drive; Wrong if what stands there is no prefix of them."""
    there = files_of(drive)
    there.pop(".mhlstation/part", None)
    there.pop(".mhlstation/new", None)
    journal = there.pop(".mhlstation/journal", None)
    if journal is None:
        need(not there, f"no journal, but {sorted(there)[:3]}")
        return 0
    plan = Plan(journal)
    records = records_behind(plan)
    n, k = len(plan.files), len(records)
    want = sorted((path.encode(), len(data), dates[path]) for path, data in card.items())
    need([(path.encode(), size, date) for path, size, date in plan.files] == want, "the plan is not that of the card")
    need(k <= n, "more records than files")
    for j, (path, size, _) in enumerate(plan.files):
        found = there.pop(path, None)
        if j < k:
            need(records[j][:5] == (j, size, *digests[path]), f"record {j} is not true of the card's {path}")
            need(found == card[path], f"{path} is recorded and not whole")
        elif j == k:
            need(found is None or found == card[path], f"{path}, which is under way, is there and not whole")
        else:
            need(found is None, f"{path} is there before its turn")
    sealed = there.pop(plan.list, None)
    need(not there, f"there is more: {sorted(there)[:3]}")
    if sealed is None:
        return k + 1
    need(k == n, "there is a list before all files are recorded")
    finish = sealed.decode().split("<finishdate>")[1].split("<")[0]
    need(sealed == list_text(plan, records, finish), "the list is not whole and true")
    return n + 2


def announced(lines, d, n):
    """The steps of a drive that lines announce, which have to come in their order."""
    steps = 0
    for line in lines:
        words = line.split(" ")
        if len(words) < 2 or words[1] != str(d) or words[0] not in ("begun", "done", "sealed"):
            continue
        told = n + 2 if words[0] == "sealed" else int(words[2]) + 1
        need(told == steps + 1 or steps == 0, f"{line} follows {steps} steps")
        steps = told
    return steps


def make_card(folder, files, random):
    for i in range(files):
        path = f"{folder}/CLIPS {i % 7}/C{i:05} & Ü.mov"
        os.makedirs(os.path.dirname(path), exist_ok=True)
        with open(path, "wb") as it:
            it.write(random.randbytes(random.choice([0, 1, 1000, 65_535, 65_536, 65_537, 200_000])))
        os.utime(path, (1_400_000_000 + i, 1_400_000_000 + i))


def main():
    if len(sys.argv) not in (3, 4, 5):
        sys.exit(__doc__)
    program, folder = os.path.abspath(sys.argv[1]), os.path.abspath(sys.argv[2])
    rounds, files = int((sys.argv[3:4] or ["1000"])[0]), int((sys.argv[4:5] or ["300"])[0])
    chance = random.Random(7)
    card_at, drives = f"{folder}/card", [f"{folder}/d0", f"{folder}/d1"]
    shutil.rmtree(card_at, ignore_errors=True)
    make_card(card_at, files, chance)
    card = files_of(card_at)
    dates = {path: int(os.stat(f"{card_at}/{path}").st_mtime) for path in card}
    digests = {path: (hashlib.md5(it).hexdigest(), hashlib.sha1(it).hexdigest(), f"{xxh64(it):016x}") for path, it in card.items()}

    def run(stop):
        for it in drives:
            shutil.rmtree(it, ignore_errors=True)
            os.makedirs(it)
        with open(f"{folder}/said", "wb") as said:
            began = time.monotonic()
            it = subprocess.Popen([program, "offload", "A001", "ana@cart1", "2", card_at, *drives], stdout=said)
            try:
                it.wait(stop)
            except subprocess.TimeoutExpired:
                it.send_signal(signal.SIGKILL)
                it.wait()
        return it.returncode, time.monotonic() - began

    status, whole = run(None)
    if status:
        sys.exit(f"the whole run ended with status {status}")
    print(f"a whole run takes {whole:.2f} s")
    wrong, seen, ended = 0, {}, 0
    for number in range(rounds):
        status, _ = run(chance.uniform(0, whole))
        ended += status == 0
        lines = open(f"{folder}/said", "rb").read().decode().split("\n")[:-1]
        for d, drive in enumerate(drives):
            try:
                steps, told = steps_on(drive, card, dates, digests), announced(lines, d, len(card))
                need(told <= steps <= told + 1, f"{steps} steps stand there, and {told} were announced")
                seen[steps - told] = seen.get(steps - told, 0) + 1
            except Wrong as why:
                wrong += 1
                print(f"round {number}, drive {d}: {why}")
    print(f"{rounds} runs were stopped ({ended} had ended), {2 * rounds} drives looked at, {wrong} wrong; steps beyond the announced: {dict(sorted(seen.items()))}")
    sys.exit(wrong > 0)


main()
