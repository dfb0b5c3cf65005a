#!/usr/bin/env python3
"""workloads.py [LETTERS]: writes, in C, the chunks that the growth of cost is measured on.

For each length two chunks that take turns, as in a group: video with a size and a composition offset for each sample (v1 to v64), cenc with three
subsamples for each (c1 to c64), audio whose samples are so small, and so much alike, that every number of a delta has one byte (a1 to a64), the same with a
duration for each sample (d2 to d64), audio of one sample with a list of events (e0 to e16), and cenc with counters that follow, so that deltas leave them at
home (f1 to f64). Without letters it writes all but the last, which the benchmark's peer answers otherwise: it knows no order 6. The form is that of the benchmark's
own workloads.h: name, parameters, ticks, and of each chunk the bytes up to and with the `mdat` header, the payload's length, and where BMDT stands."""
import struct
import sys

LENGTHS = (1, 2, 4, 8, 16, 32, 64)
EVENTS = (0, 1, 2, 4, 8, 16)


def u32(*vs):
    return struct.pack(">%dI" % len(vs), *vs)


def box(kind, *parts):
    body = b"".join(parts)
    return u32(8 + len(body)) + kind + body


def full_box(kind, version, flags, *parts):
    return box(kind, u32(version << 24 | flags), *parts)


def event(k):
    return full_box(b"emsg", 1, 0, u32(48000), struct.pack(">Q", 1 << 20), u32(960, k), b"urn:scte:scte35:2013:bin\0", b"%d\0" % k, bytes(range(40)))


def chunk(sizes, offsets=None, subsamples=None, iv=0, step=1, events=0, durations=None):
    """The bytes up to the payload, with BMDT 0, and where BMDT stands."""
    front = b"".join(event(k) for k in range(events))
    flags = 0x201 | (0x100 if durations else 0) | (0x800 if offsets else 0)
    rows = b"".join((u32(durations[i]) if durations else b"") + u32(s) + (u32(offsets[i]) if offsets else b"") for i, s in enumerate(sizes))
    moof = box(b"moof")
    for _ in range(2):
        data = len(moof) + 8
        parts = [full_box(b"tfhd", 0, 0x20000, u32(1)), full_box(b"tfdt", 1, 0, bytes(8)), full_box(b"trun", 1, flags, u32(len(sizes), data), rows)]
        if subsamples:
            entries = b"".join(bytes([iv + step * k + 1]) * 16 + struct.pack(">H", len(m)) + b"".join(struct.pack(">HI", *p) for p in m) for k, m in enumerate(subsamples))
            at = 8 + 16 + 8 + sum(map(len, parts)) + 16
            parts.append(full_box(b"senc", 0, 2, u32(len(sizes)), entries))
            parts.append(full_box(b"saiz", 0, 0, b"\0", u32(len(sizes)), bytes(18 + 6 * len(m) for m in subsamples)))
            parts.append(full_box(b"saio", 0, 0, u32(1, at)))
        moof = box(b"moof", full_box(b"mfhd", 0, 0, u32(1)), box(b"traf", *parts))
    head = front + moof + u32(8 + sum(sizes)) + b"mdat"
    return head, sum(sizes), head.index(b"tfdt") + 8


def video(n, i):
    return chunk([1200 + 377 * (k + i) % 900 for k in range(n)], offsets=[(k + i) % 4 * 3000 for k in range(n)])


def cenc(n, i):
    subsamples = [[(9 + j, 16 * (20 + k * 7 % 5 + i)) for j in range(3)] for k in range(n)]
    return chunk([sum(a + b for a, b in m) for m in subsamples], subsamples=subsamples, iv=i)


def following(n, i):
    """Counters that follow each other in both turns: none of the bytes is protected, so that they stand still."""
    subsamples = [[(200 + 16 * (20 + k * 7 % 5 + i) + j, 0) for j in range(3)] for k in range(n)]
    return chunk([sum(a + b for a, b in m) for m in subsamples], subsamples=subsamples, step=0)


def short(n, i):
    return chunk([40 + 7 * (k + i) % 16 for k in range(n)])


def timed(n, i):
    return chunk([40 + 7 * (k + i) % 16 for k in range(n)], durations=[1000 + (k + i) % 2 * 48 for k in range(n)])


def audio(n, i):
    return chunk([300], events=n)


def main():
    rows = []
    print("/* Made by bench/workloads.py. */")
    kinds = (("v", LENGTHS, video, (1, 90000, 1, 3000, 0, 3, 0, 0), 3000), ("c", LENGTHS, cenc, (1, 48000, 1, 1024, 0, 0, 1, 16), 1024),
             ("f", LENGTHS, following, (1, 48000, 1, 1024, 0, 0, 1, 16), 1024),
             ("a", LENGTHS, short, (1, 48000, 1, 1024, 0, 0, 0, 0), 1024), ("d", LENGTHS[1:], timed, (1, 48000, 1, 0, 0, 0, 0, 0), 1024), ("e", EVENTS, audio, (1, 48000, 1, 1024, 0, 0, 0, 0), 0))
    letters = sys.argv[1] if len(sys.argv) > 1 else "vcade"
    for letter, lengths, make, params, ticks in (kind for kind in kinds if kind[0] in letters):
        for n in lengths:
            name = letter + str(n)
            two = [make(n, i) for i in range(2)]
            for i, (head, _, _) in enumerate(two):
                print("static const uint8_t %s_%d[] = {%s};" % (name, i, ", ".join(map(str, head))))
            pairs = ["{%d, %d}" % (a, b) for a, b in zip(*((len(h), p, t) for h, p, t in two))]
            rows.append('    {"%s", {%s}, %d, {%s_0, %s_1}, %s},' % (name, ", ".join(map(str, params)), ticks * n or 1024, name, name, ", ".join(pairs)))
    print("static const struct workload workloads[] = {\n%s\n};" % "\n".join(rows))


main()
