#!/usr/bin/env python3
"""Prints what the program wire_vectors has to write: its output is crates/wire_vectors/stdout.

Written from the rules' text and not from the code: varints from RFC 9000, section 16 ("1, 2, 4 or 8 bytes, prefix 00, 01, 10, 11, 62 bits
at most"), zigzag ("n at or above 0 gives 2n, below gives -2n-1") and what is said of runs:
- a number too wide counts as the longest varint in a size, and nothing is written of it;
- in a run, writing stops at it, and measuring says that it is too wide;
- a delta is a value less the old one at its place, and where there is none, less the base;
- reading stops at the first trouble: a cut varint or bytes left over are a misfit, a value outside 0..bound is outside.
"""

WIDEST = 2 ** 62 - 1
MOVED = 2 ** 31
TOP = 2 ** 64 - 1


# Varints and zigzag

def length_of(number):
    """The two bits of the prefix leave 6, 14, 30 or 62 for the number."""
    for length in (1, 2, 4, 8):
        if number < 1 << (8 * length - 2):
            return length
    return 8


def in_form(number, length):
    """The number in the form of 1, 2, 4 or 8 bytes, whose prefix is the logarithm of the length."""
    prefix = (1, 2, 4, 8).index(length)
    return (prefix << (8 * length - 2) | number).to_bytes(length, "big")


def write(number):
    return in_form(number, length_of(number)) if number <= WIDEST else b""


def read(data, place, end):
    """The number and the place after it, or None where the bytes end before it does."""
    if end > len(data) or place >= end:
        return None
    length = (1, 2, 4, 8)[data[place] >> 6]
    if end - place < length:
        return None
    number = data[place] & 0x3F
    for byte in data[place + 1:place + length]:
        number = number << 8 | byte
    return number, place + length


def zigzag(n):
    return 2 * n if n >= 0 else -2 * n - 1


def unzigzag(z):
    return -(z + 1) // 2 if z & 1 else z // 2


# Runs

def against(old, index, base):
    return old[index] if index < len(old) else base


def numbers_of(coding, new, old, base):
    """The numbers that stand on the wire for the values of new."""
    if coding == "plain":
        return list(new)
    return [zigzag(value - against(old, index, base)) for index, value in enumerate(new)]


def measure_run(numbers):
    if any(number > WIDEST for number in numbers):
        return "too wide"
    return sum(map(length_of, numbers))


def write_run(numbers):
    data = b""
    for number in numbers:
        if number > WIDEST:
            break
        data += write(number)
    return data


def fill_run(coding, data, place, end, old, base, bound, wanted):
    """The answer, and the values that were read before it."""
    values = []
    if end > len(data):
        return "misfit", values
    for index in range(wanted):
        got = read(data, place, end)
        if got is None:
            return "misfit", values
        value, place = got
        if coding == "delta":
            value = against(old, index, base) + unzigzag(value)
        if not 0 <= value <= bound:
            return "outside", values
        values.append(value)
    return ("misfit" if place < end else "done"), values


# Lines

def hexed(data):
    return data.hex() or "-"


def got_text(got):
    return " cut" if got is None else " reads %d next %d" % got


def joined(numbers):
    return "".join(" %s" % number for number in numbers)


def vector(place, number):
    """A number written at a place among other bytes, read back, and read up to each shorter end."""
    varint = write(number)
    data = b"\xee" * place + varint + b"\xee" * (16 - place - len(varint))
    last = place + len(varint)
    ends = "".join(" end %d%s" % (end, got_text(read(data, place, end))) for end in range(place, last))
    print("varint %d size %d bytes %s%s%s" % (number, length_of(number), hexed(varint), got_text(read(data, place, last)), ends))


def chain(varints):
    """Varints that stand one after another, each read where the one before it ends."""
    data, place = b"".join(varints), 0
    for varint in varints:
        got = read(data, place, len(data))
        last = len(data) if got is None else got[1]
        print("bytes %s%s" % (hexed(varint), got_text(got)))
        assert data[place:last] == varint
        place = last


def place_line(place, end):
    print("place %d end %d%s" % (place, end, got_text(read(bytes([0x40, 0x25, 0x3F]), place, end))))


def fill_line(coding, data, place, end, old, base, bound, wanted):
    answer, values = fill_run(coding, data, place, end, old, base, bound, wanted)
    unread = ["_"] * (wanted - len(values))
    print("  fill end %d bound %d wanted %d %s%s" % (end, bound, wanted, answer, joined(values + unread)))


def run(coding, base, new, old):
    """A run written at the place 3, and read back as it is and with one thing wrong."""
    numbers = numbers_of(coding, new, old, base)
    written = write_run(numbers)
    print(" %s base %d measure %s bytes %s" % (coding, base, measure_run(numbers), hexed(written)))
    place, last, most, count = 3, 3 + len(written), max(new, default=0), len(new)
    data = b"\xee" * place + written + b"\xee" * (520 - last)
    fill_line(coding, data, place, last, old, base, most, count)
    if most > 0:
        fill_line(coding, data, place, last, old, base, most - 1, count)
    fill_line(coding, data, place, last, old, base, most, count + 1)
    if count > 0:
        fill_line(coding, data, place, last, old, base, most, count - 1)
    if written:
        fill_line(coding, data, place, last - 1, old, base, most, count)


def pair(new, old):
    print("list%s against%s" % (joined(new), joined(old)))
    for base in (0, MOVED):
        for coding in ("plain", "delta"):
            run(coding, base, new, old)


def made(coding, data, place, end, old, base, bound, wanted):
    print("made %s place %d against%s %s base %d" % (hexed(data), place, joined(old), coding, base))
    fill_line(coding, data, place, end, old, base, bound, wanted)


def made_distance(n, old, base, bound):
    data = write(zigzag(n))
    made("delta", data, 0, len(data), old, base, bound, 1)


# Cases

def numbers():
    for k in range(64):
        for number in (2 ** k - 1, 2 ** k, 2 ** k + 1):
            vector(3, number)
    for number in (63, 64, 16383, 16384, 2 ** 30 - 1, 2 ** 30, 2 ** 62 - 1, 2 ** 62, TOP):
        vector(8, number)


def padded():
    # RFC 9000, A.1
    chain([bytes.fromhex(text) for text in ("c2197c5eff14e88c", "9d7f3e7d", "7bbd", "25", "4025")])
    for number in (0, 1, 37, 63, 64, 15293, 16383, 16384, 494878333, 2 ** 30 - 1):
        chain([in_form(number, length) for length in (2, 4, 8) if length > length_of(number)])


def places():
    for place in range(6):
        for end in range(6):
            place_line(place, end)
    place_line(0, TOP)
    place_line(TOP, 3)
    place_line(TOP, TOP)


def lists():
    pair([], [])
    pair([], [5])
    pair([7], [])
    pair([63, 64, 16383, 16384], [64, 0])
    pair([10, 20, 30], [11, 19, 500, 7])
    pair([2 ** 30 - 1, 2 ** 30, 2 ** 61 - 1, 2 ** 62 - 1], [2 ** 30])
    pair([1, 2 ** 62, 3], [])
    pair([1, 2 ** 62, 3], [1, 2 ** 62, 3, 4])
    pair([TOP], [0])
    pair([0], [TOP])
    pair([2 ** 61 - 1, 0, 9], [0, 2 ** 61, 9, 9])
    pair([5, 2 ** 61], [5, 0])
    pair([6, 0], [6, 2 ** 61 + 1])
    pair([MOVED + 2 ** 61 - 1, MOVED + 2 ** 61], [])
    pair([MOVED - 32, MOVED - 1, MOVED, MOVED + 31, MOVED + 32], [])
    climbing = [300 * i for i in range(64)]
    scattered = [7919 * i % 20011 for i in range(66)]
    pair(climbing, scattered[:40])
    pair(climbing, scattered)


def made_lists():
    made("plain", in_form(37, 2) + in_form(63, 4), 0, 6, [], 0, 63, 2)
    for text, wanted in (("0540", 2), ("0340", 2), ("0506", 1), ("0306", 1)):
        made("plain", bytes.fromhex(text), 0, 2, [], 0, 4, wanted)
    for place, end in ((0, 0), (0, 2), (5, 1)):
        for wanted in (0, 1):
            made("plain", b"\x01", place, end, [], 0, 4, wanted)
    for old, base, bound in (([], 0, 9), ([], MOVED, 2 ** 32 - 1)):
        made_distance(-1, old, base, bound)
    for n, old, bound in ((-1, 1, 9), (1, 8, 9), (1, 9, 9), (0, 10, 9), (-1, 11, 9), (1, TOP, TOP)):
        made_distance(n, [old], 0, bound)
    for n, old, bound in ((-2 ** 61, 2 ** 61, 9), (-2 ** 61, 2 ** 61 - 1, 9), (2 ** 61 - 1, 1, 2 ** 61), (2 ** 61 - 1, 1, 2 ** 61 - 1)):
        made_distance(n, [old], 0, bound)


if __name__ == "__main__":
    numbers()
    padded()
    places()
    lists()
    made_lists()
