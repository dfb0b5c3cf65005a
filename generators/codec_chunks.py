"""Chunks for the program codec_vectors, with what an encoder answers to each.

Chunks are made here, by chance from a fixed seed, or are those of captured tracks; what each answers is the oracle's word, but for number 18, which is a matter
of the table's words and follows from 01 alone. The numbers of the tracks are also held to their chunks.txt."""
import os
import random
import sys

from chunks import chunk
from conversation import Conversation

R = random.Random(20261115)
HELD = 9
ROOM = 65536


def total(front):
    h = 1
    for b in front:
        h = (h * 65599 + b) % 2**40
    return h


class Chunks(Conversation):
    def __init__(self, oracle):
        super().__init__("e", oracle)

    def open(self, slot, track):
        self.saw(super().open(slot, track))

    def answer(self, slot, wish, c, room, show):
        n, front, data, _, payload = self.ask(f"enc {slot} {wish} {room} {c.hex() or '-'}")
        self.saw(int(n))
        self.count += 1
        shown = "" if data == "-" else data
        return int(n), f"{n} {front} {payload} {show(shown)}"

    def encode(self, slot, wish, c, room=ROOM):
        n, line = self.answer(slot, wish, c, room, lambda front: front)
        self.add(b"d" if wish == "delta" else b"f", slot, room, c, line)
        return n

    def both(self, c):
        """As a full object on slot 0, and with the wish for a delta on slot 1."""
        found = [self.answer(slot, wish, c, ROOM, lambda front: str(total(bytes.fromhex(front)))) for slot, wish in ((0, "full"), (1, "delta"))]
        self.add(b"b", 0, ROOM, c, *[line for _, line in found])
        return [n for n, _ in found]

    def refused_18(self, slot, c, call=b"f"):
        """The table is one word short (call s), or a word of the share was damaged: the oracle knows nothing of it."""
        self.saw(18)
        self.count += 1
        self.add(call, slot, ROOM, c, "18 0 0 ")


def examples(s):
    """01's example and what comes after it, and what the table's own numbers answer."""
    track = (1, 48000, 1, 1024, 0, 0, 0, 0)
    example = chunk(1, 96000, [4], payload=b"abcd")
    s.encode(0, "full", example)  # 2: not open
    s.open(0, (1, 0, 1, 1024, 0, 0, 0, 0))  # 4
    s.open(0, track)
    s.open(0, track)  # 3
    s.encode(0, "full", example)
    s.encode(0, "delta", chunk(1, 97024, [4], payload=b"efgh"))  # 19 00
    s.refused_18(0, example, b"s")
    s.encode(8, "full", example)
    s.encode(2**64 - 1, "full", example)
    # a first-sample flag that stands, is dropped, and stands again as 0
    s.encode(0, "full", chunk(1, 96000, [3, 3], first=0x02000000, payload=b"abcdef"))
    s.encode(0, "delta", chunk(1, 98048, [3, 3], payload=b"abcdef"))
    s.encode(0, "delta", chunk(1, 100096, [3, 3], first=0, payload=b"abcdef"))
    # sizes 10, 20, 30 and then 12, 5
    s.encode(0, "full", chunk(1, 0, [10, 20, 30]))
    s.encode(0, "delta", chunk(1, 3072, [12, 5]))
    # a damaged word: the mark of the reference is 2
    s.poke(HELD, 2)
    s.refused_18(0, example)
    s.poke(HELD, 1)
    s.encode(0, "full", example, 8)
    s.encode(0, "full", example, 9)
    s.group(0)
    s.encode(0, "delta", example)  # a full object: no reference
    s.encode(0, "full", b"")
    s.encode(0, "full", chunk(1, 2**62 - 1, [4]))
    s.encode(0, "delta", chunk(1, 2**62, [4]))  # 9
    s.encode(0, "full", chunk(1, 0, [1] * 64))
    s.encode(0, "full", chunk(1, 0, [1] * 65))  # 8
    s.encode(0, "full", chunk(1, 5, [4, 4], flags=0x01010000, offsets=[-5, 2**31 - 1], durations=[7, 9], index=2, duration=3, default=4))
    s.encode(0, "full", chunk(1, 5, [4], flags=0x04000000))  # 7: is_leading
    s.close(0)
    for count in (39, 40):
        s.open(1, (2, 90000, 1, 0, 0, 0, 1, 16))
        s.encode(1, "full", chunk(2, 0, [count], entries=[(bytes(range(16)), [(0, 1)] * count)]))
        s.close(1)


def captures(s, folder):
    for name in sorted(os.listdir(folder)):
        at = os.path.join(folder, name)
        if not os.path.isdir(at):
            continue
        params = tuple(map(int, open(os.path.join(at, "params.txt")).read().split()))
        data = open(os.path.join(at, "chunks.bin"), "rb").read()
        s.open(0, params)
        s.open(1, params)
        p = 0
        for row in open(os.path.join(at, "chunks.txt")):
            n, number = map(int, row.split())
            if s.both(data[p : p + n]) != [number, number]:
                sys.exit(f"{name}: chunks.txt has another number than {number} at {p}")
            p += n
        s.close(0)
        s.close(1)


def by_chance(s, count):
    """Chunks with a byte or two of their boxes changed, each from a few lawful ones."""
    end = s.count + count
    while s.count < end:
        iv = R.choice([0, 0, 8, 16])
        track = (1, 48000, 1, R.choice([1024, 0]), R.choice([0, 3]), R.randrange(32), 1 if iv else 0, iv)
        s.open(2, track)
        for _ in range(6):
            sizes = [R.randrange(1, 6) for _ in range(R.choice([0, 1, 2, 3, 5]))]
            entries = [(bytes(R.randrange(256) for _ in range(iv)), R.choice([[(0, x)], [(1, 0), (0, x - 1)]])) for x in sizes] if iv and sizes else None
            prft = (R.choice([5, 2**62]), R.choice([7, 2**32 - 1]), R.choice([0, 8]), R.choice([0, 1])) if R.random() < 0.3 else None
            events = [(b"urn:x", b"v", R.choice([0, 1000, 48000]), R.choice([0, 96000, 2**63]), 1, 2, b"m")] * R.choice([0, 0, 1, 2])
            c = chunk(1, R.choice([0, 96000, 2**33]), sizes, first=0 if sizes and R.random() < 0.3 else None, entries=entries, prft=prft, events=events,
                      durations=[5] * len(sizes) if sizes and R.random() < 0.3 else None, styp=R.choice([None, b"cmf2", b"cmf2iso6"]),
                      offsets=[R.choice([-1, 0, 9]) for _ in sizes] if sizes and R.random() < 0.3 else None)
            if R.random() < 0.6:
                c = bytearray(c)
                for _ in range(R.choice([1, 1, 2])):
                    c[R.randrange(len(c) - sum(sizes))] = R.choice([0, 1, 2, 8, 255, R.randrange(256)])
                c = bytes(c)
            s.encode(2, R.choice(["full", "delta", "delta"]), c, R.choice([ROOM] * 12 + [0, 8, 20]))
            if R.random() < 0.05:
                s.group(2)
        s.close(2)


def asked(oracle, folder):
    """The commands for an encoder's table, and the lines that they answer; the folder has the tracks."""
    s = Chunks(oracle)
    s.ask("new")
    examples(s)
    by_chance(s, 400)
    captures(s, folder)
    s.tell("chunks", set(range(10)) | {17, 18})
    return s
