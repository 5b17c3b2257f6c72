"""The ids by which a response knows a disc, and the matches of a rip with a response, by the definitions of docs/FORMATS.md.

A layout is the pregap, the starts and the sectors, as in expected_cases.py. The words of a rip are a list of numbers."""

import itertools
import struct

FARTHEST = 2939
MOST_OTHERS = 8
BITS = 2**32


def ids_of(layout):
    """The number of tracks, the two ids at AccurateRip and that at FreeDB."""
    pregap, starts, sectors = layout
    begins = [pregap + start for start in starts]
    end, tracks = pregap + sectors, len(starts)
    one = sum(begins) + end
    two = sum(max(begin, 1) * t for t, begin in enumerate(begins, 1)) + end * (tracks + 1)
    second = lambda sector: (sector + 150) // 75
    digits = sum(int(digit) for begin in begins for digit in str(second(begin)))
    freedb = digits % 255 * 2**24 + (second(end) - second(begins[0])) * 2**8 + tracks
    return tracks, one % BITS, two % BITS, freedb


def response_name(asked, layout):
    """The name of a disc's response under RESP."""
    return asked + "dBAR-%03d-%08x-%08x-%08x.bin" % ids_of(layout) if asked.endswith("/") else asked


def blocks_of(data):
    """The blocks of a response, each with its ids and its entries, or where it is cut."""
    blocks, at = [], 0
    while at < len(data):
        end = at + 13 + 9 * data[at]
        if end > len(data):
            return at
        entries = [struct.unpack_from("<BI", data, at + 13 + 9 * t) for t in range(data[at])]
        blocks.append(((data[at], *struct.unpack_from("<III", data, at + 1)), entries))
        at = end
    return blocks


def counting(layout, t):
    """Where track t, counted from 1, begins, and the first and the last number of its samples that count."""
    _, starts, sectors = layout
    begin = 588 * starts[t - 1]
    end = 588 * (starts[t] if t < len(starts) else sectors)
    first = 2940 if t == 1 else 1
    last = end - begin - (2940 if t == len(starts) else 0)
    return begin, first, last


def samples_of(words):
    return [left + 65536 * right for left, right in zip(words[::2], words[1::2])]


def plain_sums(layout, samples, t, offset):
    """The sums v1 and v2 of a track at an offset, number by number."""
    begin, first, last = counting(layout, t)
    v1 = v2 = 0
    for i in range(first, last + 1):
        at = begin + i - 1 + offset
        product = i * (samples[at] if 0 <= at < len(samples) else 0)
        v1 += product
        v2 += product % BITS + product // BITS
    return v1 % BITS, v2 % BITS


def first_sums(layout, samples):
    """The sums v1 of all tracks at all offsets, each from sums of all samples up to a place."""
    values = list(itertools.accumulate(samples, initial=0))
    products = list(itertools.accumulate((i * sample for i, sample in enumerate(samples)), initial=0))
    up_to = lambda sums, place: sums[min(max(place, 0), len(samples))]
    found = {}
    for t in range(1, len(layout[1]) + 1):
        begin, first, last = counting(layout, t)
        for offset in range(-FARTHEST, FARTHEST + 1):
            low, high = begin + first - 1 + offset, begin + last + offset
            if first > last:
                found[t, offset] = 0
                continue
            value = up_to(values, high) - up_to(values, low)
            product = up_to(products, high) - up_to(products, low)
            found[t, offset] = (product - (begin + offset - 1) * value) % BITS
    return found


def matches_of(layout, words, blocks):
    """The matches in order: the track, the offset, the block, the confidence, 1 or 2, and the sum."""
    samples, ids = samples_of(words), ids_of(layout)
    own = [(number, entries) for number, (block_ids, entries) in enumerate(blocks, 1) if block_ids == ids]
    wanted = {t: {entries[t - 1][1] for _, entries in own} - {0} for t in range(1, len(layout[1]) + 1)}
    hits = [at + (1, sum) for at, sum in first_sums(layout, samples).items() if sum in wanted[at[0]]]
    others = sorted({offset for _, offset, _, _ in hits} - {0})[:MOST_OTHERS]
    for t in wanted:
        for offset in [0, *others]:
            hits.append((t, offset, 2, plain_sums(layout, samples, t, offset)[1]))
    return sorted(
        (t, offset, number, entries[t - 1][0], kind, sum)
        for t, offset, kind, sum in hits
        for number, entries in own
        if sum and entries[t - 1][1] == sum
    )


def printed(matches):
    line = "match track %02d offset %+d block %d confidence %d v%d %08x\n"
    return "".join(line % match for match in sorted(matches, key=lambda m: (*m[:3], m[4]))) + f"matches {len(matches)}"
