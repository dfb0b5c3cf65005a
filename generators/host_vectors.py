#!/usr/bin/env python3
"""host_vectors.py CAPTURES ORACLE..: writes host/test/vectors.h, the conversations of the test in C.

CAPTURES is a folder of tracks as codec_vectors.py has it. ORACLE.. is a command that answers the line protocol of another implementation of the
rules on standard input and output: every answer is its word. Bytes are written as host/test/bytes.c reads them."""
import os
import re
import struct
import sys

from chunks import box, chunk
from conversation import Conversation
from objects import raw, varint, whole, zigzag

CLEAR = (1, 48000, 1, 1024, 0, 0, 0, 0)
ROOM = 20000


def scalar(i, v):
    return varint(i) + varint(v)


def numbers(i, *vs):
    return raw(i, b"".join(map(varint, vs)))


def full(count, *more, pay=0):
    """A full object of so many samples, with more tuples and so many bytes of payload."""
    return whole(23, scalar(10, 96000) + scalar(14, count) + b"".join(more), b"abcd" * (pay // 4) + b"efg"[: pay % 4])


def delta(*tuples, pay=4):
    return whole(25, b"".join(tuples), b"abcdefgh"[:pay])


def spell(data):
    """Hex, but for the names of boxes and for three zero bytes."""
    parts = re.finditer(rb"(moof|mfhd|traf|tfhd|tfdt|trun|mdat|senc|saiz|saio|styp|prft|emsg)|(\0\0\0)|.", data, re.S)
    return "".join(f"'{p[0].decode()}'" if p[1] else "z" if p[2] else p[0].hex() for p in parts)


def compact(data):
    """Bytes as a word, in which a long run of one byte is N*HH."""
    runs = re.finditer(rb"(.)\1{15,}|(?:(?!(.)\2{15}).)+", data, re.S)
    return "+".join(f"{len(r[0])}*{r[0][0]:02x}" if r[1] is not None else spell(r[0]) for r in runs) or "-"


def expand(word):
    """The bytes of a word."""
    first, _, rest = word.partition("+")
    if first[:1] in ("m", "n"):
        inside, depth = expand(rest), int(first[1:])
        kinds = (b"moof", b"traf" if first[0] == "n" else b"moof")
        return b"".join(struct.pack(">I", len(inside) + 8 * (depth - i)) + kinds[i % 2] for i in range(depth)) + inside
    times, star, digits = first.rpartition("*")
    digits = re.sub("'(.*?)'", lambda m: m[1].encode().hex(), digits).replace("z", "000000")
    return bytes.fromhex(digits.strip("-")) * int(times or 1) + (expand(rest) if rest else b"")


class Talk(Conversation):
    """Collects the steps of one conversation after another."""

    def __init__(self, oracle):
        super().__init__("", oracle)
        self.conversations = []

    def start(self, name):
        self.ask("new")
        self.steps = []
        self.conversations.append((name, self.steps))

    def step(self, command, word=None):
        answer = self.ask(command + ("" if word is None else " " + (expand(word).hex() or "-")))
        kept = answer if word is None else answer[:2] + [compact(bytes.fromhex(answer[2].strip("-")))] + answer[3:]
        self.steps.append((command + ("" if word is None else " " + word), " ".join(kept)))
        self.saw(int(answer[0]))
        return answer

    def both(self, call, slot, *more):
        for side in "er":
            self.step(" ".join(map(str, (call, side, slot) + more)))

    def encode(self, slot, wish, c, room=ROOM):
        return self.step(f"enc {slot} {wish} {room}", c if isinstance(c, str) else compact(c))

    def receive(self, slot, o, room=ROOM):
        return self.step(f"rec {slot} {room}", o if isinstance(o, str) else compact(o))

    def pass_on(self, slot, wish, c):
        """Encoded, and what comes of it received."""
        number, _, front, at, _ = self.encode(slot, wish, c)
        if number != "0" or self.receive(slot, bytes.fromhex(front) + c[int(at) :])[0] != "0":
            sys.exit("a chunk that should pass does not")


def worked(s):
    s.start("worked sums")
    s.both("open", 0, *CLEAR)
    s.pass_on(0, "full", chunk(1, 96000, [4], payload=b"abcd"))
    s.pass_on(0, "delta", chunk(1, 97024, [4], payload=b"efgh"))  # 19 00
    s.pass_on(0, "full", chunk(1, 96000, [3, 3], first=0x02000000, payload=b"abcdef"))
    s.pass_on(0, "delta", chunk(1, 98048, [3, 3], payload=b"abcdef"))  # 1b 01 0c
    s.pass_on(0, "delta", chunk(1, 100096, [3, 3], first=0, payload=b"abcdef"))  # 0c 00
    s.pass_on(0, "full", chunk(1, 0, [10, 20, 30]))
    s.pass_on(0, "delta", chunk(1, 3072, [12, 5]))  # 19 05 01 01 04 0e 01
    s.both("close", 0)
    s.both("open", 1, 2, 90000, 1, 0, 0, 0, 1, 16)
    for count in (39, 40):
        entries = [(bytes(range(16)), [(0, 1)] * count)]
        s.encode(1, "full", chunk(2, 0, [count], entries=entries))
    for count in (39, 40):
        maps = numbers(11, count) + numbers(13, *[0] * count) + numbers(15, *[1] * count)
        s.receive(1, full(1, raw(9, bytes(range(16))), maps, pay=count))


def slips(s):
    s.start("slip: deltas against the last full object")
    s.both("open", 0, *CLEAR)
    for i, wish in enumerate(["full", "delta", "delta", "delta", "delta"]):
        s.pass_on(0, wish, chunk(1, 2048 * i, [3 + i, 3], duration=1000 + 100 * min(i, 3), index=1 + min(i, 2), offsets=[-i * 7, i], payload=bytes(6 + i)))
    s.start("slip: old fields kept at a new full object")
    s.both("open", 0, *CLEAR)
    s.pass_on(0, "full", chunk(1, 0, [5, 9], first=0x02000000, offsets=[1, 2], durations=[7, 8], index=2, duration=3, flags=0x01010000))
    s.pass_on(0, "full", chunk(1, 9, [5, 9]))
    s.pass_on(0, "delta", chunk(1, 9 + 2048, [5, 9]))
    s.pass_on(0, "delta", chunk(1, 9 + 4096, [5, 9], offsets=[1, 2]))
    s.start("slip: a lone sample with the size of trex")
    s.both("open", 0, 1, 48000, 1, 1024, 7, 0, 0, 0)
    s.pass_on(0, "full", chunk(1, 0, [4], payload=b"abcd"))
    s.pass_on(0, "delta", chunk(1, 1024, [7], payload=b"abcdefg"))
    s.pass_on(0, "delta", chunk(1, 2048, [9], payload=b"abcdefghi"))
    s.pass_on(0, "delta", chunk(1, 3072, [7, 7], payload=bytes(14)))  # here trex gives the size
    s.pass_on(0, "delta", chunk(1, 5120, [3], payload=b"abc"))
    s.start("slip: yesterday's IVs")
    s.both("open", 0, 1, 48000, 1, 1024, 0, 0, 1, 8)
    for i, wish in enumerate(["full", "delta", "delta"]):
        s.pass_on(0, wish, chunk(1, 1024 * i, [4], entries=[(bytes([i % 2] * 8), None)], payload=b"abcd"))
    s.receive(0, delta())  # 14: no id 9
    s.receive(0, delta(raw(9, b"ijklmnop")))  # 11: the reference is gone


def states(s):
    """Each leaves slot 3 of both tables as its name says, after a chunk and an object that it accepts again."""
    s.start("state open")
    s.both("open", 3, *CLEAR)
    s.pass_on(3, "full", chunk(1, 96000, [4], payload=b"abcd"))
    s.both("group", 3)
    s.start("state clear")
    s.both("open", 3, 1, 48000, 1, 1024, 0, 3, 0, 0)
    for i, wish in enumerate(["full", "delta", "full"]):
        s.pass_on(3, wish, chunk(1, 5 + i, [4, 6, 4], flags=0x01010000, offsets=[-5, 2**31 - 1, i], durations=[7, 9, 1], index=2, duration=3, first=0))
    s.start("state prft")
    s.both("open", 3, 7, 90000, 1, 0, 0, 0, 0, 0)
    events = [(b"urn:a", b"1", 90000, 2**33, 5, 6, b"xyz"), (b"urn:b", b"", 1000, 77, 0, 1, b"")]
    for i, wish in enumerate(["full", "delta", "delta", "full"]):
        prft = (2**61 + i, 2**40 + 9 * i, 24, 1)
        s.pass_on(3, wish, chunk(7, 2**33 + i, [4, 4], default=4, durations=[3000, 3600], prft=prft, events=events[: 1 + i % 2], styp=b"cmf2iso8"))
    for name, track, iv in (("state cenc", (1, 48000, 1, 1024, 0, 0, 1, 16), 16), ("state cbcs", (1, 48000, 1, 1024, 0, 0, 2, 0), 0)):
        s.start(name)
        s.both("open", 3, *track)
        for i, wish in enumerate(["full", "delta", "full"]):
            entries = [(bytes(range(1 + k + i, 1 + k + i + iv)), [(2, 8), (k, 10 - k)]) for k in range(3)]
            s.pass_on(3, wish, chunk(1, 1024 * i, [20, 20, 20], entries=entries))
    s.start("state cenc whole")
    s.both("open", 3, 1, 48000, 1, 1024, 0, 0, 1, 8)
    for i, wish in enumerate(["full", "delta", "full"]):
        s.pass_on(3, wish, chunk(1, 1024 * i, [20 + i], entries=[(bytes([9 + i]) * 8, None)]))


BAD_TRACKS = [(0, 48000, 1, 0, 0, 0, 0, 0), (2**32, 48000, 1, 0, 0, 0, 0, 0), (1, 0, 1, 0, 0, 0, 0, 0), (1, 2**32, 1, 0, 0, 0, 0, 0), (1, 1, 0, 0, 0, 0, 0, 0),
              (1, 1, 2**32, 0, 0, 0, 0, 0), (1, 1, 1, 2**32, 0, 0, 0, 0), (1, 1, 1, 0, 2**64 - 1, 0, 0, 0), (1, 1, 1, 0, 0, 32, 0, 0), (1, 1, 1, 0, 0, 0, 3, 0),
              (1, 1, 1, 0, 0, 0, 0, 8), (1, 1, 1, 0, 0, 0, 1, 0), (1, 1, 1, 0, 0, 0, 1, 9), (1, 1, 1, 0, 0, 0, 2, 16)]


def of_the_table(s):
    s.start("numbers 1 to 4")
    for track in BAD_TRACKS:
        s.both("open", 0, *track)
    for slot in (8, 2**32, 2**61, 2**64 - 1):
        s.both("open", slot, *CLEAR)
        s.both("close", slot)
        s.both("group", slot)
        s.encode(slot, "full", "-")
        s.receive(slot, "-")
    s.both("close", 0)
    s.both("group", 0)
    s.encode(0, "delta", "-")
    s.receive(0, "-")
    s.both("open", 0, *CLEAR)
    s.both("open", 0, *CLEAR)
    s.both("open", 0, *BAD_TRACKS[0])
    s.both("group", 0)
    s.both("close", 0)


def of_chunks(s):
    """Each refusal is followed by a chunk that is still a delta against what was before it."""
    good = chunk(1, 96000, [4], payload=b"abcd")
    entries = [(b"12345678", None)]
    refused = [
        good[:-1], good + b"\0", good[:4] + b"free" + good[8:-4], good[:3] + b"\7" + good[4:],  # 5, and once 6
        b"", box(b"free") + good, good + box(b"free"), good.replace(b"mfhd\0", b"mfhd\1"), good.replace(b"trun\1", b"trun\2"),  # 6
        chunk(2, 96000, [4]), chunk(1, 5, [4], flags=0x04000000), chunk(1, 5, [4], payload=b"abc"), chunk(1, 5, [4], entries=entries),  # 7, 6
        chunk(1, 0, [1] * 65), chunk(1, 0, [4], styp=b"cmf2" * 17), chunk(1, 0, [], events=[(b"a", b"", 1, 0, 0, 0, b"")] * 17),  # 8
        chunk(1, 2**62, [4]), chunk(1, 2**62, [4], index=2), chunk(1, 0, [4], prft=(2**62, 0, 0, 1)),  # 9
    ]
    s.start("numbers 5 to 9, and 17")
    s.both("open", 0, *CLEAR)
    s.pass_on(0, "full", good)
    for i, c in enumerate(refused):
        if s.encode(0, ("full", "delta")[i % 2], c)[0] == "0":
            sys.exit(f"chunk {i} of those to refuse passes")
        s.encode(0, "delta", chunk(1, 97024 + 1024 * i, [4], payload=b"abcd"))  # 19 00
    for i, (wish, least) in enumerate((("full", 9), ("delta", 2))):
        c = chunk(1, 97024 + 1024 * (len(refused) + i), [4], payload=b"abcd")
        for room in (0, least - 1, least):
            s.encode(0, wish, c, room)


UNREADABLE = [b"", b"\x57", b"\x17", b"\x17\x40", b"\x17\x08" + full(1)[2:9], b"\x17\x01\x0a", b"\x17\x03\x01\x0a\xff", delta(raw(25, bytes(6)))]
IDS = [full(1, b"\x1a\0"), delta(scalar(28, 0)), full(1, scalar(14, 1)), b"\x17\x02\x0a\0", b"\x17\x02\x0e\1", delta(scalar(18, 0)),
       delta(scalar(22, 0), scalar(24, 1)), delta(scalar(18, 0), scalar(20, 0)), delta(raw(23, b"cmf2")), full(1, numbers(27, 2)), full(1, scalar(22, 1))]
SETS = [delta(numbers(27, 2)), delta(numbers(27, 10)), delta(numbers(27, 2, 2)), delta(numbers(3, 1, 1)), full(2, numbers(1, 5), scalar(6, 5), pay=10),
        delta(scalar(14, 2)), full(1, scalar(6, 4), pay=4), full(0, scalar(12, 0)), full(1, raw(9, bytes(8)), pay=4), full(1, raw(23, b"cmf"), pay=4),
        full(2, numbers(1, 1, 1), pay=4)]
RANGES = [full(65, pay=4), full(1, scalar(8, 32), pay=4), full(1, scalar(4, 2**32), pay=4), full(1, numbers(7, 32), pay=4), delta(scalar(8, zigzag(-1))),
          delta(scalar(2, zigzag(-2))), full(1, raw(23, b"cmf2" * 17), pay=4), full(0, raw(25, bytes(7 * 17))),
          full(1, scalar(18, 1), scalar(20, 1), scalar(22, 2), pay=4), b"\x17\x80\0\x40\1" + bytes(16385), full(0, raw(25, b"\1\0" + bytes(6))),
          delta(raw(25, b"\0\0\0" + varint(zigzag(-200000)) + bytes(3)))]
SUMS = [full(2, scalar(6, 3), pay=5), full(0, pay=1), full(2, scalar(6, 3), pay=7), full(3, numbers(1, 4, 5), pay=8)]


def of_objects(s):
    """After 12 to 16 a delta is 11, after any other refusal it stands."""
    s.start("numbers 10 to 17")
    s.both("open", 0, *CLEAR)
    s.receive(0, delta())  # 11
    skipped = [b"\x16\0", b"\x40\xff\0", b"\xbf\xff\xff\xff"]
    for number, refused in ((10, skipped), (12, UNREADABLE), (13, IDS), (14, SETS), (15, RANGES), (16, SUMS)):
        for i, o in enumerate(refused):
            s.receive(0, full(1, pay=4))
            found, after = int(s.receive(0, o)[0]), int(s.receive(0, delta())[0])
            if (found, after) != (number, 0 if number == 10 else 11):
                sys.exit(f"object {i} of those for {number} gives {found}, and a delta then {after}")
    s.receive(0, full(1, pay=4))
    for room in (0, 99, 100):
        s.receive(0, delta(), room)


def of_counters(s):
    """IVs that follow are left out and derived, one past its size is 21, after which a delta is 11."""
    for size in (8, 16):
        s.start(f"numbers 21, with {size} bytes")
        s.both("open", 1, 1, 48000, 1, 1024, 0, 0, 1, size)
        n = 2**64 - 3
        for i, wish in enumerate(["full", "delta", "delta", "full", "delta"]):
            counters = [n, n + 2, n + 4]
            s.pass_on(1, wish, chunk(1, 1024 * i, [20, 32, 33], entries=[(c.to_bytes(16, "big")[-size:], None) for c in counters]))
            n = (n + 7) % 256**size
        last = (256**size - 1).to_bytes(size, "big")
        for room in (ROOM, 0):
            s.receive(1, full(1, raw(9, last), pay=4))
            found, after = int(s.receive(1, delta(), room)[0]), int(s.receive(1, delta())[0])
            if (found, after) != (21, 11):
                sys.exit(f"an IV past {size} bytes gives {found}, and a delta then {after}")


def deep(s):
    """Long and deep chunks and objects, and hostile lists of events."""
    example = compact(chunk(1, 96000, [4], payload=b"abcd"))
    whole = chunk(1, 0, [2**24], payload=b"")
    sized = whole[:-8] + struct.pack(">I", 8 + 2**24) + b"mdat"
    s.start("deep and long chunks")
    s.both("open", 0, *CLEAR)
    empty = "z0866726565"
    for c in (example, f"131072*{empty}", f"n1+131071*{empty}", f"n2+131070*{empty}", "m131072", "n131072", "n131072+00", f"n60000+30000*{empty}",
              f"100000*{chunk(1, 0, [], events=[(b'', b'', 1, 0, 0, 0, b'')])[:34].hex()}+{example}", "0010000c'emsg'01z+1048576*61",
              f"00100010'styp'636d666300z+262144*636d6663+{example}", compact(sized) + "+16777216*61", example):
        s.encode(0, "delta", c)
    s.start("deep and long objects")
    s.both("open", 0, *CLEAR)
    for o in ("17070a800177000e01+61626364", "177ffe+8191*0201+78", "177ffe+8191*0100+78", "177ff8+0a000e0201+7ff1+16369*00+78", "1780100000+524288*0201",
              "17ffffffffffffffff+100*00", "17040a000e01+16777216*61", "17040a000e01+16777217*61"):
        s.receive(0, o)
    s.start("hostile events")
    s.both("open", 0, *CLEAR)
    record, count = b"\0\0\0\0\1\0\0", 2338  # no strings, no message, a duration of 1
    whole_list = full(0, raw(25, record * count))
    for o in (full(0, raw(25, bytes(7 * count))), full(0, raw(25, bytes(7 * count + 1))), compact(whole_list[: -7 * count]) + f"+{count}*{record.hex()}"):
        s.receive(0, o)
    s.receive(0, full(1, pay=4))


def captured(s, folder):
    """The first chunks of tracks that other tools made; of the payload only the length is kept."""
    for name in ("d-aac-emsg", "d-avc-prft-emsg", "d-gpac-avc-cbcs", "d-gpac-avc-cenc16", "ff9-aac-cenc-1", "gpac-avc-b-5", "ff5-tx3g-1"):
        at = os.path.join(folder, name)
        data = open(os.path.join(at, "chunks.bin"), "rb").read()
        rows = open(os.path.join(at, "chunks.txt")).read().split("\n")
        s.start("captured " + name)
        s.both("open", 5, *open(os.path.join(at, "params.txt")).read().split())
        for i, wish in enumerate(("full", "delta", "delta", "delta")):
            n = int(rows[i].split()[0])
            c, data = data[:n], data[n:]
            payload = int(s.ask("enc 5 full 0 " + c.hex())[4]) or n - c.index(b"mdat") - 4
            s.encode(5, wish, c[: n - payload] + bytes([0x61 + i]) * payload)


def main():
    s = Talk(sys.argv[2:])
    worked(s)
    slips(s)
    of_the_table(s)
    of_chunks(s)
    of_objects(s)
    of_counters(s)
    states(s)
    deep(s)
    captured(s, sys.argv[1])
    most = max(len(steps) for _, steps in s.conversations)
    with open("host/test/vectors.h", "w") as f:
        f.write("/* Calls and answers, by generators/host_vectors.py from another implementation of the rules. A call of 0 ends a conversation. */\n")
        f.write(f"static const struct {{\n  const char *name, *lines[{2 * most + 1}];\n}} conversations[] = {{\n")
        for name, steps in s.conversations:
            f.write(f'{{"{name}", {{\n' + "".join(f' "{call}", "{answer}",\n' for call, answer in steps) + " 0}},\n")
        f.write("};\n")
    print(f"{len(s.conversations)} conversations, {os.path.getsize('host/test/vectors.h')} bytes, numbers {dict(sorted(s.seen.items()))}")


main()
