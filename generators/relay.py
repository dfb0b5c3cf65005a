#!/usr/bin/env python3
"""relay.py [--every N | --sync] [--join N] [FOLDER ..] -- ORACLE..: prints what the program `relay` has to print for these arguments, from the root.

crates/relay/stdout is what it prints for crates/relay/args: `python3 generators/relay.py --join 2 -- ORACLE.. > crates/relay/stdout`. ORACLE.. is a command that
answers the line protocol of another implementation of the rules (`open SIDE SLOT ..`, `enc SLOT full|delta ROOM HEX`, `rec SLOT ROOM HEX`, `ref SIDE SLOT`,
`new`). Kinds, lengths, numbers, bytes and references are the oracle's word, the words of a number are those of include/locmaf.h; sums, shares and what a
receiver that joins late has in common with the first are reckoned here."""
import fractions
import os
import re
import sys

from conversation import Conversation

ROOM = 1 << 20
WORDS = {int(n): " ".join(text.split()) for n, text in re.findall(r"LOCMAF_\w+ = (\d+),? +/\* (.*?) \*/", open("include/locmaf.h").read(), re.S)}


def box_in(data, start, end, kind):
    """The place of the first box of a type in a list of boxes, each found by the size of the one before it."""
    while data[start + 4 : start + 8] != kind:
        start += int.from_bytes(data[start : start + 4], "big")
        if end < start + 8:
            sys.exit(f"no box {kind}")
    return start


def number_cut(front):
    """The number of the `mfhd`, and the front with 0 in its place."""
    moof = box_in(front, 0, len(front), b"moof")
    at = box_in(front, moof + 8, moof + int.from_bytes(front[moof : moof + 4], "big"), b"mfhd") + 12
    return int.from_bytes(front[at : at + 4], "big"), front[:at] + bytes(4) + front[at + 4 :]


def varint(data, at):
    """RFC 9000's: the number and the place behind it."""
    n = 1 << (data[at] >> 6)
    return int.from_bytes(data[at : at + n], "big") & ((1 << (8 * n - 2)) - 1), at + n


def ids(front):
    """The ids of an object's tuples: an even one has one number, an odd one a length and bytes."""
    _, at = varint(front, 0)
    end, at = varint(front, at)
    end += at
    while at < end:
        i, at = varint(front, at)
        n, at = varint(front, at)
        at += n if i % 2 else 0
        yield i


class Join:
    """A second receiver, in slot 1, that gets the objects of a track from an accepted full object on."""

    def __init__(self, relay, at):
        self.relay, self.at, self.full, self.chunk, self.less = relay, at, 0, 0, []

    def follow(self, i, kind, lent, n, front, payload):
        """After an object of which the first receiver said this."""
        self.full += n == 0 and kind == "full"
        if self.chunk == 0 and (n, kind, self.full) == (0, "full", self.at):
            self.chunk = i
        if self.chunk == 0:
            return
        m, second, media = self.relay.whole("rec 1", lent)
        (a, first), (b, other) = number_cut(front), number_cut(second)
        self.less.append((a - b) % 2**32)
        one, two = (self.relay.oracle.ask(f"ref r {slot}") for slot in (0, 1))
        if (n, len(front), payload, first, one, self.less[0]) != (m, len(second), media, other, two, self.less[-1]):
            sys.exit(f"the oracle's own receivers differ at chunk {i}")


class Relay:
    def __init__(self, oracle):
        self.oracle = Conversation("e", oracle)

    def whole(self, command, lent):
        """The number, the front and the payload of a call."""
        n, _, front, at, length = self.oracle.ask(f"{command} {ROOM} {lent.hex()}")
        front = b"" if front == "-" else bytes.fromhex(front)
        return int(n), front, lent[int(at) : int(at) + int(length)]

    def open(self, params):
        self.oracle.ask("new")
        words = " ".join(map(str, params))
        return {self.oracle.ask(f"open {side} {slot} {words}")[0] for side, slot in (("e", 0), ("r", 0), ("r", 1), ("e", 1), ("e", 2))}

    def is_sync(self, chunk, flags):
        """By the reference that a spare slot keeps of the chunk: the first sample's flags are id 12, the first of id 7, id 8, or the track's."""
        if self.whole("enc 2 full", chunk)[0] != 0:
            return False
        fields = dict(f.split("=") for f in self.oracle.ask("ref e 2")[0].split("|")[0].split(";"))
        first = next((fields[i].split(",")[0] for i in ("12", "7", "8") if i in fields), flags)
        return fields["14"] != "0" and int(first) % 2 == 0

    def chunk(self, wish, chunk, i, join):
        """The number, the kind, the three lengths, and whether the rebuilt chunk gives the same object; the receiver that joins late is asked too."""
        n, front, payload = self.whole(f"enc 0 {wish}", chunk)
        if n:
            return n, "refused", 0, 0, 0, True, False, 0
        kind = {0x17: "full", 0x19: "delta"}[front[0]]
        number, head, media = self.whole("rec 0", front + payload)
        join.follow(i, kind, front + payload, number, head, media)
        _, second, last = self.whole(f"enc 1 {wish}", head + media)
        same = front + payload == second + last
        ivs = dict(f.split("=") for f in self.oracle.ask("ref e 0")[0].split("|")[0].split(";")).get("9")
        home = added(varint(front, 1)[0], len(ivs) // 2) if ivs and 9 not in ids(front) else 0
        return 0, kind, len(chunk) - len(payload), len(front), len(payload), same, bool(ivs), home


def size(n):
    return next(k for k in (1, 2, 4, 8) if n < 1 << (8 * k - 2))


def added(block, n):
    """What id 9's tuple with n bytes of IVs would add to a block: itself, and what the block's length would take more."""
    longer = block + 1 + size(n) + n
    return size(longer) + longer - size(block) - block


def saved(before, after):
    tenths = int(fractions.Fraction(1000 * abs(before - after), before or 1) + fractions.Fraction(1, 2))
    return f"saved {'-' if before < after else ''}{tenths // 10}.{tenths % 10} %"


def totals(rows):
    kinds = [r[1] for r in rows]
    print(f"  chunks {len(rows)}: full {kinds.count('full')}, delta {kinds.count('delta')}, refused {kinds.count('refused')}")
    if set(kinds) == {"refused"}:
        print("  no chunk was accepted, so nothing is compared")
        return
    cmaf, locmaf, payload = (sum(r[i] for r in rows) for i in (2, 3, 4))
    print(f"  heads: CMAF {cmaf} bytes, LOCMAF {locmaf} bytes, {saved(cmaf, locmaf)}")
    print(f"  payload: {payload} bytes; of all bytes, {saved(cmaf + payload, locmaf + payload)}")
    if any(r[6] for r in rows):
        print(f"  counters: chunks with IVs {sum(r[6] for r in rows)}, left at home by {sum(r[7] > 0 for r in rows)}, saved {sum(r[7] for r in rows)} bytes")
    if not all(r[5] for r in rows):
        sys.exit("the oracle's own objects differ")
    print("  each rebuilt chunk gave the same object again: yes")


def line(i, row):
    n, kind, *lengths = row[:5]
    print(f"{i:8}  {kind:7}" + "".join(f"{x if n == 0 else '-':>{w}}" for x, w in zip(lengths, (11, 13, 10))) + f"{n:8}" + (f"  {WORDS[n]}" if n else ""))


def joined(join):
    if join.chunk == 0:
        print(f"  not joined: the track has fewer than {join.at} full objects")
        return
    print(f"  joined at full object {join.at}, chunk {join.chunk}: objects {len(join.less)}, "
          f"each chunk the same but for an mfhd number {join.less[0]} less, each reference the same")


def all_joined(at, joins):
    lengths = [len(join.less) for join in joins if join.chunk]
    if not lengths:
        print(f"  not joined: each track has fewer than {at} full objects")
        return
    print(f"  joined at full object {at}: tracks {len(lengths)}, objects {sum(lengths)}, each chunk the same but for its mfhd number, each reference the same")


def track(relay, folder, every, sync, at):
    params = list(map(int, open(os.path.join(folder, "params.txt")).read().split()))
    data = open(os.path.join(folder, "chunks.bin"), "rb").read()
    if relay.open(params) != {"0"}:
        sys.exit(f"{folder}: parameters refused")
    protection = ("not protected", f"cenc with IVs of {params[7]} bytes", "cbcs")[params[6]]
    names = "track_ID", "timescale", "defaults: description", "duration", "size", "flags"
    print(f"track {folder}: " + ", ".join(f"{name} {v}" for name, v in zip(names, params)) + f", {protection}")
    print("   chunk  kind     CMAF head  LOCMAF head   payload  number")
    rows, p, join = [], 0, Join(relay, at)
    for i, row in enumerate(open(os.path.join(folder, "chunks.txt"))):
        n = int(row.split()[0])
        c, p = data[p : p + n], p + n
        full = relay.is_sync(c, params[5]) if sync else i % every == 0
        rows.append(relay.chunk("full" if full else "delta", c, i + 1, join))
        line(i + 1, rows[-1])
    totals(rows)
    if at:
        joined(join)
    return rows, join


def main():
    cut = sys.argv.index("--")
    words, oracle = sys.argv[1:cut], sys.argv[cut + 1 :]
    every, at = (int(words.pop(words.index(name) + 1)) if name in words else usual for name, usual in (("--every", 8), ("--join", 0)))
    folders = [w for w in words if not w.startswith("--")] or ["captures/" + name.strip() for name in open("captures/tracks.txt")]
    relay = Relay(oracle)
    rows, joins = zip(*[track(relay, folder, every, "--sync" in words, at) for folder in folders])
    if len(rows) > 1:
        print(f"all {len(rows)} tracks")
        totals(sum(rows, []))
        if at:
            all_joined(at, joins)
    print("all is well")


main()
