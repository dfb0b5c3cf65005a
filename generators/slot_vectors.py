#!/usr/bin/env python3
"""Prints what the program slot_vectors has to write: its output is crates/slot_vectors/stdout. It takes half a minute.

Written from the text of documents 01 and 02, with the layout of docs/ARCHITECTURE.md and the list "Which rules a lawful share keeps" of
docs/DECISIONS.md, and not from the code:
- "Order: 18 for length, 1, 18 for the share, 2 or 3, 4", and a refusal changes nothing;
- "A share is lawful if its numbers keep this page's rules and every place not in use is 0";
- "Store the expected BMDT in each share, encoder's and receiver's: the sum it replaces wherever a reference is held, else 0; a sum past 2^64-1
  is kept as a mark from which no BMDT is derived. A share where it differs is unlawful, 18." (document 02, order 7)
- "The last sample's protected bytes (0 without a reference, off cenc and without samples; never above the payload's maximum; with subsamples that
  sample's sum) join the reference in both shares .. A share where they aren't so is unlawful, 18." (document 02, order 6)
"""

NONE, CENC, CBCS = 0, 1, 2
U5, U8, U16, U24, U32, U62, U64 = (2 ** bits - 1 for bits in (5, 8, 16, 24, 32, 62, 64))

# The words of a share, the last 981 of them a set's
DURATION, ACCEPTED, HELD, PRFT, PRFT_END, PAST, EXPECTED, LAST, SET = 3, 8, 9, 10, 15, 15, 16, 17, 18
SHARE = SET + 981

# The words of a set: BMDT, the sample count, and a region for each other id: mark at, room, values in use, largest value
BMDT, COUNT = 0, 1
REGIONS = {
    1: (2, 63, "count less one", U32),
    2: (66, 1, "one", U32),
    3: (68, 64, "count", U32),
    4: (133, 1, "one", U32),
    5: (135, 64, "count", U32),
    6: (200, 1, "one", U32),
    7: (202, 64, "count", U5),
    8: (267, 1, "one", U5),
    9: (269, 128, "count x IV size / 8", U64),
    11: (398, 64, "count", U16),
    12: (463, 1, "one", U5),
    13: (465, 256, "sum of id 11", U16),
    15: (722, 256, "sum of id 11", U32),
    16: (979, 1, "one", U8),
}
LISTS = {1, 3, 5, 7, 11, 13, 15}
PAYLOAD = 16777216


# What is lawful

def good_parameters(parameters):
    track, timescale, description, duration, size, flags, protection, iv_size = parameters
    return (1 <= track <= U32 and 1 <= timescale <= U32 and 1 <= description <= U32 and duration <= U32 and size <= U32 and flags <= U5
            and protection in (NONE, CENC, CBCS) and iv_size in ((8, 16) if protection == CENC else (0,)))


def lawful_prft(mark, ntp, media_time, version, flags):
    if mark == 0:
        return ntp == media_time == version == flags == 0
    return mark == 1 and version in (0, 1) and ntp <= U62 and media_time <= (U62 if version else U32) and flags <= U24


def lawful_ids(ids, count, trex_size, protection):
    """The paragraph "Resulting set", sentence by sentence."""
    if count == 0 and ids & (LISTS | {9, 12}):
        return False
    if count == 1 and ids & {1, 6}:
        return False
    if {1, 6} <= ids or {7, 12} <= ids:
        return False
    if ids & {11, 13, 15} and (not {11, 13, 15} <= ids or protection == NONE):
        return False
    if (9 in ids) != (protection == CENC and count > 0):
        return False
    return count <= 1 or bool(ids & {1, 6}) or trex_size != 0


def field(words, i, count):
    first = REGIONS[i][0] + 1
    return words[first:first + count]


def sizes_agree(words, ids, trex_size):
    """Sizes and protected sums as far as the words tell them. Of several samples id 1 tells all sizes but the last, id 6 or trex all of them; of a lone sample
    none is told. With subsamples each sample has as many bytes as they have."""
    count, told = words[COUNT], []
    if count > 1:
        told = field(words, 1, count - 1) if 1 in ids else [field(words, 6, 1)[0] if 6 in ids else trex_size] * count
    if 11 not in ids:
        return sum(told) <= PAYLOAD
    sizes, pairs = [], list(zip(field(words, 13, 256), field(words, 15, 256)))
    for n in field(words, 11, count):
        sizes.append(sum(map(sum, pairs[:n])))
        pairs = pairs[n:]
    return told == sizes[:len(told)] and sum(sizes) <= PAYLOAD


def lawful_set(words, trex_size, protection, iv_size):
    count = words[COUNT]
    marks = {i: words[region[0]] for i, region in REGIONS.items()}
    ids = {i for i, mark in marks.items() if mark}
    if words[BMDT] > U62 or count > 64 or max(marks.values()) > 1 or not lawful_ids(ids, count, trex_size, protection):
        return False
    subsamples = field(words, 11, count) if 11 in ids else [0]
    if count and (iv_size + 2 + 6 * max(subsamples) > 255 or sum(subsamples) > 256):
        return False
    lengths = {"one": 1, "count": count, "count less one": count - 1, "count x IV size / 8": count * iv_size // 8,
               "sum of id 11": sum(subsamples)}
    for i, (mark, room, values, largest) in REGIONS.items():
        used = mark + 1 + (lengths[values] if i in ids else 0)
        if max(words[mark + 1:used], default=0) > largest or any(words[used:mark + 1 + room]):
            return False
    return (16 not in ids or field(words, 16, 1) == [iv_size]) and sizes_agree(words, ids, trex_size)


def durations(words, trex_duration):
    """The sum of the effective durations: each sample's own, or one for all, or trex's."""
    if words[REGIONS[3][0]]:
        return sum(field(words, 3, words[COUNT]))
    return words[COUNT] * (field(words, 4, 1)[0] if words[REGIONS[4][0]] else trex_duration)


def expected(share):
    """The mark of a sum past 2^64-1, and the sum where there is no mark."""
    words = share[SET:]
    time = words[BMDT] + durations(words, share[DURATION])
    return [0, time] if time <= U64 else [1, 0]


def lawful_last(words, last, trex_size, protection):
    """The last sample's protected bytes: its subsamples' sum, or its whole size as far as the words tell it."""
    count = words[COUNT]
    if protection != CENC or count == 0:
        return last == 0
    if words[REGIONS[11][0]]:
        counts = field(words, 11, count)
        return last == sum(field(words, 15, sum(counts))[sum(counts[:-1]):])
    if count > 1 and not words[REGIONS[1][0]]:
        return last == (field(words, 6, 1)[0] if words[REGIONS[6][0]] else trex_size) <= PAYLOAD
    return last <= PAYLOAD


def lawful(side, share):
    if share[0] == 0:
        return not any(share)
    if not good_parameters(share[:ACCEPTED]) or share[ACCEPTED] > (U32 if side == "r" else 0):
        return False
    if share[HELD] == 0:
        return not any(share[PRFT:])
    trex_size, protection, iv_size = share[4], share[6], share[7]
    return (share[HELD] == 1 and lawful_prft(*share[PRFT:PRFT_END]) and share[PAST:LAST] == expected(share)
            and lawful_set(share[SET:], trex_size, protection, iv_size) and lawful_last(share[SET:], share[LAST], trex_size, protection))


# The calls, each with what it makes of a share

def call(side, table, slot, letter, parameters):
    """c closes, g starts a group, o opens, and b opens with flags that no track has: it stores nothing, and says what the share is."""
    if len(table) != 8 * SHARE:
        return 18
    if slot > 7:
        return 1
    here = slice(SHARE * slot, SHARE * slot + SHARE)
    share = table[here]
    if not lawful(side, share):
        return 18
    opened = share[0] != 0
    if opened == (letter in "ob"):
        return 3 if opened else 2
    if letter in "ob":
        if letter == "b" or not good_parameters(parameters):
            return 4
        table[here] = list(parameters) + [0] * (SHARE - ACCEPTED)
    elif letter == "c":
        table[here] = [0] * SHARE
    else:
        table[here] = share[:HELD] + [0] * (SHARE - HELD)
    return 0


def line(side, slot, told):
    print("\n%s%d%s" % (side, slot, told), end="")


def fresh(words=8 * SHARE):
    return [0] * words


def left(table, slot):
    """The words that are not 0, up to the end of the slot's share."""
    return "".join(" %d=%d" % (place, word) for place, word in enumerate(table[:SHARE * slot + SHARE]) if word)


def turns(side, table, slot, letters):
    told = ""
    for letter in letters:
        answer = call(side, table, slot, letter, [1, 48000, 2, 1024, 4, 31, NONE, 0])
        told += " %s%d" % (letter, answer) + (left(table, slot) if answer == 0 else "")
    line(side, slot, "%s w%d%s" % (told, len(table), left(table, slot)))


# Calls on a fresh table

def on_slot(side, words, slot, value):
    """Calls on a slot, where a word in the share of slot 4 is the value."""
    table = fresh(words)
    table[4000] = value
    turns(side, table, slot, "cgbobogc")


def opens(side, scheme, which):
    told = ""
    for value in (0, 1, 7, 8, 16, 31, 32, U32, U32 + 1, U64):
        parameters = [1, 48000, 2, 1024, 4, 10, scheme, 0]
        parameters[which] = value
        told += " %d=%d" % (value, call(side, fresh(), 5, "o", parameters))
    line(side, 5, " s%d p%d%s" % (scheme, which, told))


def fresh_calls(side):
    schemes = [(NONE, which) for which in range(8)] + [(CENC, 7), (CBCS, 7), (3, 7)]
    for slot, (scheme, which) in enumerate(schemes):
        on_slot(side, 8 * SHARE, slot, slot)
        opens(side, scheme, which)
    for words, slot, value in ((0, 4, 0), (0, U64, 0), (-1, 8, 1), (1, 4, 1), (1, U64, 0)):
        on_slot(side, 8 * SHARE + words, slot, value)


# Shares

def bare(accepted=0, protection=NONE, iv_size=0):
    """A share without a reference."""
    return [9] * 6 + [protection, iv_size, accepted] + [0] * (SHARE - HELD)


def held(samples, ids, accepted=0, protection=NONE, iv_size=0, prft=None, counts=(), value=1, **others):
    """A share with a reference, whose lists have the same value everywhere, but for the subsample counts and for others, given by id."""
    share = bare(accepted, protection, iv_size)
    share[HELD] = 1
    if prft is not None:
        share[PRFT:PRFT_END] = [1, 1, 2 ** 32 if prft else 1, prft, 1]
    share[SET + BMDT], share[SET + COUNT] = 5, samples
    lengths = {"one": 1, "count": samples, "count less one": samples - 1, "count x IV size / 8": samples * iv_size // 8,
               "sum of id 11": sum(counts)}
    for i in ids:
        mark, _, values, _ = REGIONS[i]
        numbers = others.get("id%d" % i) or (counts if i == 11 else [iv_size] if i == 16 else [value] * lengths[values])
        share[SET + mark:SET + mark + 1 + len(numbers)] = [1] + list(numbers)
    share[PAST:LAST] = expected(share)
    if protection == CENC and samples:
        share[LAST] = sum(field(share[SET:], 15, sum(counts))[sum(counts[:-1]):])
    return share


SHARES = {
    "e": [
        [0] * SHARE,
        bare(),
        held(1, [9, 11, 13, 15], 0, CENC, 8, counts=[2], id13=[0, 0], id15=[1, 0]),
        held(8, [1, 3, 5, 7], prft=1, id1=[1, 0, 0, 0, 0, 0, 0]),
        held(8, [2, 4, 6, 8, 12], prft=0),
        held(4, [1, 9, 11, 13, 15, 16], 0, CENC, 8, counts=[3, 3, 0, 0], id1=[6, 6, 0]),
        held(64, [1, 3, 5, 7, 9, 11, 13, 15], 0, CENC, 16, counts=[4] * 64, id1=[8] * 63),
        held(8, [1, 11, 13, 15], 0, CBCS, counts=[42] * 6 + [4, 0], id1=[84] * 6 + [8]),
    ],
    "r": [
        bare(9),
        held(0, [2, 4, 6, 8, 16], U32, prft=0),
        held(1, [3, 5, 7], 1),
        held(2, [11, 13, 15], 2, CBCS, prft=1, counts=[1, 1], id13=[4, 4], id15=[5, 5]),
        held(3, [6, 9, 11, 13, 15], 3, CENC, 16, counts=[1, 2, 1], id6=[6], id13=[3, 1, 1, 3], id15=[3, 2, 2, 3]),
        held(0, [16], 4, CENC, 8, prft=0),
        held(4, [1, 3, 5, 11, 13, 15], 5, CBCS, counts=[3, 3, 3, 0], value=0),
        held(3, [4, 6, 9, 11, 13, 15], 6, CENC, 16, counts=[0, 0, 0], value=0),
    ],
}


# Damage

VALUES = (0, 1, 2, 8, 16, 31, 32, 39, 40, 41, 42, 43, 64, 65, U16, U16 + 1, U24, U24 + 1, U32, U32 + 1, U62, U62 + 1, U64)


def damaged(side, table, slot, place, value):
    place += SHARE * slot
    table[place], kept = value, table[place]
    answer = call(side, table, slot, "b", [])
    table[place] = kept
    return answer


def moved(side, table, slot, place, value):
    """As damaged, where the expected BMDT moves with the word. Alone a BMDT or a duration that changes is 18 for its sum: only so are their bounds
    seen."""
    time = SHARE * slot + EXPECTED
    kept = table[time]
    table[time] = (kept + value - table[SHARE * slot + place]) % 2 ** 64
    answer = damaged(side, table, slot, place, value)
    table[time] = kept
    return answer


def sweep(side, table, letter, way, value):
    """A line for each share: 18 at first, and every other number at the word from which on it is given."""
    for slot in range(8):
        told, before = "", 18
        for place in range(SHARE):
            answer = way(side, table, slot, place, value)
            if answer != before:
                told += " %d=%d" % (place, answer)
            before = answer
        line(side, slot, " %s%d%s" % (letter, value, told))


def damage(side):
    table = sum(SHARES[side], [])
    for value in VALUES:
        sweep(side, table, "v", damaged, value)
        sweep(side, table, "m", moved, value)
    for slot in range(8):
        turns(side, table, slot, "bggcgobg")


if __name__ == "__main__":
    for part in (fresh_calls, damage):
        for side in "er":
            part(side)
    print()
