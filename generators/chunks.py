"""Chunks for the scripts that ask another implementation."""
import struct


def box(kind, *parts):
    body = b"".join(parts)
    return struct.pack(">I", 8 + len(body)) + kind + body


def full_box(kind, version, flags, *parts):
    return box(kind, struct.pack(">I", version << 24 | flags), *parts)


def u32(*vs):
    return struct.pack(">%dI" % len(vs), *vs)


def chunk(track, bmdt, sizes, first=None, offsets=None, durations=None, default=0, index=None, duration=None, flags=None, styp=None, prft=None, events=(),
          entries=None, iv=0, payload=None):
    """A chunk as another packager could write it: `tfdt` of version 0 where that is enough, sizes in the `tfhd` if they are equal and not `trun`'s."""
    tf, tail = 0x20000, b""
    for flag, v in ((0x2, index), (0x8, duration), (0x10, default or None), (0x20, flags)):
        if v is not None:
            tf, tail = tf | flag, tail + u32(v)
    tr = 0x1 | (0x4 if first is not None else 0) | (0x100 if durations else 0) | (0 if default or not sizes else 0x200) | (0x800 if offsets else 0)
    head = [full_box(b"mfhd", 0, 0, u32(7))]
    tfdt = full_box(b"tfdt", 0, 0, u32(bmdt)) if bmdt < 2**32 else full_box(b"tfdt", 1, 0, struct.pack(">Q", bmdt))

    def trun(offset):
        rows = b""
        for i, size in enumerate(sizes):
            rows += (u32(durations[i]) if durations else b"") + (u32(size) if tr & 0x200 else b"")
            rows += struct.pack(">i", offsets[i]) if offsets else b""
        return full_box(b"trun", 1, tr, u32(len(sizes), offset), u32(first) if first is not None else b"", rows)

    def moof(offset, at):
        last = b""
        if entries is not None:
            data = b"".join(e + (b"" if m is None else struct.pack(">H", len(m)) + b"".join(struct.pack(">HI", *p) for p in m)) for e, m in entries)
            mapped = any(m is not None for _, m in entries)
            sizes_of = bytes((len(e) + (0 if m is None else 2 + 6 * len(m))) % 256 for e, m in entries)
            last = full_box(b"saio", 0, 0, u32(1, at)) + full_box(b"saiz", 0, 0, b"\0", u32(len(entries)), sizes_of)
            last += full_box(b"senc", 0, 2 if mapped else 0, u32(len(entries)), data)
        traf = box(b"traf", full_box(b"tfhd", 0, tf, u32(track), tail), tfdt, trun(offset), last)
        return box(b"moof", *head, traf), len(last)

    made, _ = moof(0, 0)
    senc = made.find(b"senc")
    made, _ = moof(len(made) + 8, senc + 12 if entries is not None else 0)
    before = b"" if styp is None else box(b"styp", styp[:4], u32(0), styp[4:])
    before += b"" if prft is None else full_box(b"prft", prft[3], prft[2], u32(track), struct.pack(">Q", prft[0]), struct.pack(">Q" if prft[3] else ">I", prft[1]))
    for scheme, value, scale, time, length, number, message in events:
        before += full_box(b"emsg", 1, 0, u32(scale), struct.pack(">Q", time), u32(length, number), scheme, b"\0", value, b"\0", message)
    return before + made + box(b"mdat", bytes(sum(sizes)) if payload is None else payload)
