"""Objects for the program codec_vectors, with what a receiver answers to each.

Objects and their order are made here, by chance from a fixed seed; what each answers is the oracle's word, but for number 18, which is a matter of the table's
words and follows from 01 alone."""
import random

from conversation import Conversation
from objects import raw, varint, whole, zigzag

R = random.Random(20261115)
HELD = 9
ROOM = 4096


def some_form(forms):
    return R.choice(forms) if R.random() < 0.2 else forms[0]


def scalar(i, v):
    return varint(i) + varint(v, some_form)


def numbers(i, vs):
    return raw(i, b"".join(varint(v, some_form) for v in vs))


def text(b):
    return varint(len(b)) + b


class Objects(Conversation):
    def __init__(self, oracle):
        super().__init__("r", oracle)

    def told(self, number, line):
        self.saw(number)
        self.count += 1
        return line

    def receive(self, slot, o, room=ROOM):
        n, front, data, _, payload = self.ask(f"rec {slot} {room} {o.hex() or '-'}")
        line = f"{n} {front} {payload} " + ("" if data == "-" else data)
        self.add(b"r", slot, room, o, self.told(int(n), line))
        return int(n)

    def refused_18(self, slot, o, call=b"r"):
        """The table is one word short (call s), or a word of the share was damaged: the oracle knows nothing of it."""
        self.add(call, slot, ROOM, o, self.told(18, "18 0 0 "))


def examples(s):
    """01's example and the objects after it, the bound of subsamples, and what the table's own numbers answer."""
    track = (1, 48000, 1, 1024, 0, 0, 0, 0)
    example = bytes.fromhex("17070a800177000e01") + b"abcd"
    s.receive(0, example)  # 2: not open
    s.open(0, track)
    for o in (example, bytes.fromhex("1900") + b"efgh"):
        s.receive(0, o)
    s.refused_18(0, example, b"s")
    s.receive(8, example)
    s.receive(2**64 - 1, example)
    # a first-sample flag that stands, is dropped, and stands again as 0
    s.receive(0, whole(23, scalar(10, 96000) + scalar(14, 2) + scalar(6, 3) + scalar(12, 4), b"abcdef"))
    s.receive(0, bytes.fromhex("19031b010c") + b"abcdef")
    s.receive(0, bytes.fromhex("19020c00") + b"abcdef")
    # sizes 10, 20, 30 and then 12, 5
    s.receive(0, whole(23, scalar(10, 0) + scalar(14, 3) + numbers(1, [10, 20]), bytes(60)))
    s.receive(0, bytes.fromhex("1905010104") + bytes.fromhex("0e01") + bytes(17))
    # a damaged word: the mark of the reference is 2
    s.poke(HELD, 2)
    s.refused_18(0, example)
    s.poke(HELD, 1)
    s.receive(0, example, 99)
    s.receive(0, example, 100)
    s.group(0)
    s.receive(0, bytes.fromhex("1900") + b"efgh")
    s.receive(0, example)
    s.receive(0, b"")
    s.receive(0, bytes.fromhex("1900") + b"efgh")  # 11: the reference was dropped by 12
    s.close(0)
    for count in (39, 40):
        s.open(1, (2, 90000, 1, 0, 0, 0, 1, 16))
        clear = numbers(13, [0] * count) + numbers(15, [1] * count)
        s.receive(1, whole(23, scalar(10, 0) + scalar(14, 1) + raw(9, bytes(range(16))) + numbers(11, [count]) + clear, bytes(count)))
        s.close(1)


def counters(s):
    """02, order 6: IVs that follow, are derived, carried from one word into the next, and pass their size."""

    def full(count, ivs, payload, *others):
        return whole(23, scalar(10, 0) + scalar(14, count) + raw(9, b"".join(ivs)) + b"".join(others), bytes(payload))

    def iv(n, size):
        return n.to_bytes(size, "big")

    for size in (8, 16):
        most = 256**size - 1
        s.open(2, (3, 90000, 1, 0, 0, 0, 1, size))
        # two samples, sizes 20 and the rest; then as many, and three, and one
        s.receive(2, full(2, [iv(5, size), iv(9, size)], 50, numbers(1, [20])))
        s.receive(2, whole(25, b"", bytes(55)))
        s.receive(2, whole(25, scalar(14, 2) + numbers(1, [2, 33]), bytes(60)))
        s.receive(2, whole(25, scalar(14, 3) + numbers(27, [1]), bytes(16)))
        # subsamples: the sum is rounded once, and clear bytes don't count
        pairs = numbers(11, [2]) + numbers(13, [7, 9]) + numbers(15, [1, 16])
        s.receive(2, full(1, [iv(0, size)], 33, pairs))
        s.receive(2, whole(25, b"", bytes(33)))
        # sent though it follows, and then another
        s.receive(2, whole(25, raw(9, iv(4, size)), bytes(33)))
        s.receive(2, whole(25, raw(9, iv(most, size)), bytes(33)))
        # past its size: 21 before 17, and the reference is dropped
        s.receive(2, whole(25, b"", bytes(33)), 0)
        s.receive(2, whole(25, b"", bytes(33)))
        # up to its size, and past it at the second sample
        s.receive(2, full(1, [iv(most - 3, size)], 48))
        s.receive(2, whole(25, scalar(14, 2) + numbers(1, [32]), bytes(32)))
        s.receive(2, full(1, [iv(most - 3, size)], 48))
        s.receive(2, whole(25, scalar(14, 2) + numbers(1, [2]), bytes(32)))
        # from one word into the next
        s.receive(2, full(1, [iv(2**64 - 1, size)], 1))
        s.receive(2, whole(25, b"", bytes(1)))
        # nothing protected: the same again; nothing to follow from; deleted
        s.receive(2, full(1, [iv(7, size)], 0))
        s.receive(2, whole(25, b"", b""))
        s.receive(2, whole(25, scalar(14, 1) + numbers(27, [9]), b""))
        s.receive(2, whole(25, scalar(14, 2), b"a"))
        s.receive(2, full(1, [iv(7, size)], 1))
        s.receive(2, whole(25, numbers(27, [9]), b"a"))
        s.receive(2, whole(23, scalar(10, 0) + scalar(14, 1), b"a"))
        s.close(2)


class Track:
    def __init__(self):
        self.protection = R.choice([0, 0, 1, 1, 2])
        self.iv = R.choice([8, 16]) if self.protection == 1 else 0
        self.size = R.choice([0, 0, 5])
        self.words = (1, 48000, 1, R.choice([1024, 0, 2**32 - 1]), self.size, R.randrange(32), self.protection, self.iv)
        self.count = 0
        self.held = False


def event(bad):
    scheme = b"urn:x" if R.random() < 0.9 else b"a\0b"
    value = bytes(R.choice(b"abc") for _ in range(R.randrange(3)))
    scale = R.choice([0, 0, 1000, 90000, 2**32 - 1] + ([2**32] if bad else []))
    time = R.choice([0, 5, 9, zigzag(-100), zigzag(-(10**6)), 2**62 - 1] if bad else [0, 2, 10, 100])
    duration = R.choice([0, 1, 2**32 - 1] + ([2**32] if bad else []))
    number = R.choice([0, 7] + ([2**40] if bad else []))
    message = bytes(R.randrange(256) for _ in range(R.randrange(6)))
    return text(scheme) + text(value) + b"".join(map(varint, (scale, time, duration, number))) + text(message)


def sizes(track, delta, count):
    """A tuple for the sizes of the samples, or none; the sizes; and the length of the payload."""
    each = [R.randrange(9) for _ in range(count)]
    if count < 2 or delta and R.random() < 0.4:
        return [], each, sum(each)
    way = R.random()
    if way < 0.5:
        return [numbers(1, [zigzag(x) if delta else x for x in each[:-1]])], each, sum(each)
    if way < 0.8:
        return [scalar(6, zigzag(5 - track.size) if delta else 5)], each, 5 * count
    return [], each, track.size * count


def subsamples(delta, bad, each):
    """Ids 11, 13 and 15 for samples of these sizes."""
    counts = [R.choice([0, 1, 1, 2, 3] + ([39, 40, 41, 63] if bad else [])) for _ in each]
    clear, protected = [], []
    for size, k in zip(each, counts):
        for j in range(k):
            c = R.randrange(size + 1)
            clear.append(c)
            protected.append(size - c if j == k - 1 else 0)
            size -= c
    if bad and clear and R.random() < 0.3:
        clear[0] += R.choice([1, 65536])
    if bad and R.random() < 0.2:
        clear = clear[:-1]
    coded = (lambda vs: [zigzag(v) for v in vs]) if delta else (lambda vs: vs)
    return [numbers(i, coded(vs)) for i, vs in ((11, counts), (13, clear), (15, protected)) if not (bad and R.random() < 0.1)]


def times(delta):
    one = R.random()
    found = []
    if one < 0.9:
        found.append(scalar(18, R.choice([0, 5, 2**61, 2**62 - 1])))
    if one > 0.1:
        found.append(scalar(20, R.choice([0, 7, 2**32 - 1, 2**33, 2**62 - 1])))
    if R.random() < 0.5:
        found.append(scalar(22, R.choice([0, 1, 2, 3] if delta else [0, 1, 2])))
    if R.random() < 0.4:
        found.append(scalar(24, R.choice([0, 8, 2**24 - 1, 2**24])))
    return found


def lists(track, delta, bad, count, each):
    found = []
    chance = 0.35 if delta else 0.3
    for i in (2, 4, 8):
        if R.random() < chance:
            found.append(scalar(i, R.choice([1, 2, 3, 4, 5] + ([2**32, 2**33 + 1, 40] if bad else []))))
    for i in (3, 5, 7):
        if R.random() < chance:
            k = max(count + (R.choice([-1, 1, 0, 0]) if bad else 0), 0)
            found.append(numbers(i, [R.choice([0, 1, 2, 3] + ([2**32, 2**35, 70] if bad else [])) for _ in range(k)]))
    if R.random() < chance * 0.6:
        found.append(scalar(12, R.choice([0, 1, 2, 31] + ([32, 64] if bad else []))))
    if track.protection == 1 and count and not (bad and R.random() < 0.2) or bad and R.random() < 0.1:
        k = max(count * track.iv + (R.choice([0, 0, 0, 1, -1, 8]) if bad else 0), 0)
        found.append(raw(9, bytes(R.randrange(256) for _ in range(k))))
    if track.protection and count and R.random() < 0.5 or bad and R.random() < 0.07:
        found += subsamples(delta, bad, each)
    if R.random() < 0.1:
        found.append(scalar(16, R.choice([8, 16, 0, 300]) if bad else 0 if delta else track.iv))
    return found


def others(delta, bad):
    found = times(delta) if R.random() < 0.2 else []
    if not delta and R.random() < 0.2 or bad and R.random() < 0.05:
        found.append(raw(23, b"cmf2" * R.choice([1, 2, 3, 16] + ([0, 17] if bad else [])) + (b"x" if bad and R.random() < 0.3 else b"")))
    if R.random() < 0.2:
        found.append(raw(25, b"".join(event(bad) for _ in range(R.choice([0, 1, 2, 3] + ([16, 17] if bad else []))))))
    if delta and R.random() < 0.3 or bad and R.random() < 0.05:
        ids = R.sample([1, 2, 3, 4, 5, 6, 7, 8, 11, 12, 13, 15] + ([9, 10, 14, 16] if bad else []), R.randrange(1, 4))
        found.append(numbers(27, [11, 13, 15] if R.random() < 0.3 else ids))
    if bad and R.random() < 0.05:
        found.append(varint(R.choice([0, 17, 19, 21, 26, 28, 29, 10, 14])) + varint(1) + b"\1")
    return found


def an_object(track):
    bad = R.random() < 0.35
    delta = R.random() < 0.6 and (track.held or R.random() < 0.1)
    count = R.choice([track.count] * 5 + [0, 1, 2, 3, 4]) if delta else R.choice([0, 1, 1, 2, 3, 4, 5])
    if bad and R.random() < 0.05:
        count = R.choice([64, 65])
    found = []
    if delta:
        if count != track.count:
            found.append(scalar(14, zigzag(count - track.count)))
        if R.random() < 0.2:
            found.append(scalar(10, R.choice([0, 10**6, 2**62 - 1])))
    else:
        found += [t for t in (scalar(14, count), scalar(10, R.choice([0, 96000, 2**62 - 1]))) if not (bad and R.random() < 0.05)]
    more, each, payload = sizes(track, delta, count)
    found += more + lists(track, delta, bad, count, each) + others(delta, bad)
    R.shuffle(found)
    block = b"".join(found)
    if bad and block and R.random() < 0.08:
        block = block[:-1]
    if bad and R.random() < 0.1:
        payload = max(payload + R.choice([1, -1]), 0)
    header = R.choice([22, 24, 26, 500]) if bad and R.random() < 0.03 else 25 if delta else 23
    track.count = count
    return varint(header, some_form) + varint(len(block), some_form) + block + bytes(R.randrange(256) for _ in range(payload))


def by_chance(s, count):
    while s.count < count:
        slot, track = R.randrange(8), Track()
        s.open(slot, track.words)
        for _ in range(R.randrange(2, 9)):
            n = s.receive(slot, an_object(track), R.choice([ROOM] * 20 + [0, 50, 99, 100, 200]))
            track.held = n == 0 or track.held and not (12 <= n <= 16 or n == 21)
            if R.random() < 0.03:
                s.group(slot)
                track.held = False
        s.close(slot)


def asked(oracle):
    """The commands for a receiver's table, and the lines that they answer."""
    s = Objects(oracle)
    s.ask("new")
    examples(s)
    counters(s)
    by_chance(s, 650)
    s.tell("objects", {0, 1, 2, 10, 11, 12, 13, 14, 15, 16, 17, 18, 21})
    return s
