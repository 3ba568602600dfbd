"""Cases of many lines in one call for the program `cases`: `many`, in the form of make_cases.

The journals are made as those of make_journals, some with more lines than there can be slots. Each is read from its
start and from other places, with any number of slots, and with areas for the frames that fit them or do not.
"""
import collections
import itertools
import random

from make_cases import LIMIT, UPPER, ZERO, flipped, line, some
from make_journals import (
    MOST, frame_line, framed, journal, lone, of_line, of_tags, places, pool, sealed, starts_line, tampered,
)

FRAME = 353
SLOTS = LIMIT // FRAME
PAST = (2**63, MOST - FRAME, MOST - 1, MOST)
# the answers that say nothing of a line, and those that refuse one
NO_LINE = (12, 14, 21)
REFUSED = (1, 4, 5, 6, 7, 8, 9, 10, 11, 22)
# nothing, signs, other bytes, 2^64 with what is next to it, which is small if it goes round, and 21 digits
NOT_NUMBERS = (
    b"", b"-", b"--", b"-1", b"+1", b"0x1", b"1x", b"1.0", b"1e3", b"a", b"18446744073709551616",
    b"18446744073709551617", b"99999999999999999999", b"000000000000000000001", b"0" * 200,
)
LARGE = (b"4294967296", b"9223372036854775808", b"18446744073709551615")
TOO_LARGE = {3: (b"12", b"13", b"111", b"256", b"267", *LARGE), 4: (b"4097", b"65536", *LARGE)}
NOT_DIGITS = b"AFgG:/`@+._\0\xff\t\r\x0b"
NAMES = (
    b"Many", b"MANY", b"man", b"manys", b"many2", b"read", b"write", b"open2", b"decode", b"newer", b"?", b"-", b"",
)
# what many cases must have
LOOKED_FOR = (
    "answer 21", "call without slots", "14 behind another answer", "call with 12 in every slot", "opened line",
    "opened line behind a refused one", "opened line behind a 22", "call with a roll mark", "22 with the cipher's tag",
    "22 with another tag", "opened line with one nonce byte",
)


def slots_of(answer):
    """The numbers of each slot: number, next place, n, m and the answer's own place."""
    numbers = [int(word) for word in answer.split(b" ")[2:-1]]
    return [numbers[i:i + 5] for i in range(0, len(numbers), 5)]


def of_call(case, answer):
    """What the case has of all that is looked for."""
    slots = slots_of(answer)
    numbers = [slot[0] for slot in slots]
    pairs = list(zip(numbers, numbers[1:]))
    text = case.split(b" ")[5]
    found = {
        "answer 21": answer.startswith(b"21 "),
        "call without slots": answer.startswith(b"0 ") and not slots,
        "14 behind another answer": any(a != 14 and b == 14 for a, b in pairs),
        "call with 12 in every slot": len(numbers) > 1 and set(numbers) == {12},
        "opened line": 0 in numbers,
        "opened line behind a refused one": any(a in REFUSED and b == 0 for a, b in pairs),
        "opened line behind a 22": (22, 0) in pairs,
        "call with a roll mark": any(slot[0] == 16 and starts_line(text, slot[4]) for slot in slots),
    }
    return [what for what, there in found.items() if there]


def seen(batch, answers, ask):
    """How many cases of a batch have each of what is looked for; of nonces, how many slots."""
    found, tags = collections.Counter(), []
    for case, answer in zip(batch, answers):
        found.update(of_call(case, answer))
        words = case.split(b" ")
        for slot in slots_of(answer):
            name, asked = of_line(slot[0], words[1], words[5], slot[4])
            found[name] += 1
            tags += asked
    return found + of_tags(tags, ask)


def misfits(slots):
    """Areas that are none of so many slots: a byte or a frame off, of frames a byte off, for one slot, none, any."""
    sizes = {FRAME * n + d for n in (slots - 1, slots, slots + 1) for d in (-1, 0, 1)}
    sizes |= {0, 1, FRAME, (FRAME - 1) * slots, (FRAME + 1) * slots, LIMIT}
    return sorted(size for size in sizes if 0 <= size <= LIMIT and size != FRAME * slots)


def many(key, place, slots, text):
    """A call with an area that fits."""
    return line("many", key, place, slots, FRAME * slots, text)


def drawn(rng, key, place, text):
    """Any number of slots; one area in five does not fit them, and one key in twenty is another."""
    slots = rng.randrange(SLOTS + 1)
    size = FRAME * slots if rng.randrange(5) else rng.choice((*misfits(slots), rng.randrange(FRAME * slots + 1)))
    return line("many", flipped(rng, key) if rng.randrange(20) == 0 else key, place, slots, size, text)


def wrong_word(rng, k, word):
    """What word k of a case cannot be."""
    if k in (2, 3, 4):
        return rng.choice(NOT_NUMBERS + TOO_LARGE.get(k, ()))
    at = rng.randrange(len(word))
    other = word[:at] + bytes([rng.choice(NOT_DIGITS)]) + word[at + 1:]
    long = (word[:-2], word + b"00", b"-") if k == 1 else (b"00" * (LIMIT + 1),)
    return rng.choice((word[:-1], word + b"0", other, other, b"", b"--", b"0", *long))


def malformed(rng, good):
    """A line that is no case, made of one that is."""
    words = good.split(b" ")
    kind = rng.randrange(10)
    if kind == 0:
        words.pop(rng.randrange(len(words)))
    elif kind == 1:
        words.append(rng.choice((b"-", b"00", b"0", b"")))
    elif kind == 2:
        words[0] = rng.choice(NAMES)
    elif kind == 3:
        words.insert(rng.randrange(len(words)), b"")
    else:
        k = rng.randrange(1, len(words))
        words[k] = wrong_word(rng, k, words[k])
    return b" ".join(words)


def rounds(rng, ask):
    """Six cases for a journal, again and again: five calls, and a sixth or a line that is no case."""
    while True:
        key = some(rng, 16)
        lines = pool(rng, key, ask)
        for _ in range(12):
            text = journal(rng, lines, rng.choice((8, 40)))
            spots = [*places(rng, text), rng.choice((len(text) + 1, *PAST))]
            calls = [drawn(rng, key, place, text) for place in (0, 0, *rng.choices(spots, k=4))]
            yield from ((call, None) for call in calls[:5])
            yield (malformed(rng, calls[5]), b"?") if rng.randrange(3) == 0 else (calls[5], None)


def random_cases(count, seed, ask):
    """`count` cases, a call with up to eleven slots each."""
    return itertools.islice(rounds(random.Random(seed), ask), count)


def every_line(good):
    """A line for each answer that a line can have, 0, 1, 4 to 10, 16 and 11: as many as there can be slots."""
    other = b"1" if good[-2:-1] == b"0" else b"0"
    return [
        good, good[:-2] + other + b"\n", b"0" * 707 + b"\n", b"0g\n", b"abc\n", b"00\n",
        frame_line(bytes(16) + b"\x41" + bytes(16)), frame_line(bytes(16) + b"\x01" + bytes(16)),
        frame_line(bytes(16) + b"\x3f" + bytes(336)), b"\n", good[:-1],
    ]


def fixed_texts(good, short, longest):
    """Journals, each with the slots that it is read with: refused lines before opened ones, joined lines, roll marks
    alone and between, ends inside the slots and behind them, the longest lines, and as many bytes as can be."""
    lines = every_line(good)
    tampered, full = lines[1], short * 61
    return [
        *((b"".join(lines), slots) for slots in range(SLOTS + 1)), (b"".join(lines[9::-1]), SLOTS),
        (tampered + good + b"0g\n" + good, 3), (tampered + good + b"0g\n" + good, 5), (good[:-1] + good + short, 3),
        (good.upper() + short, 2), (short + good[:-1], 4), (b"abc", 3), (b"\n" * 3, 3), (b"\n" * 3, 4),
        (b"\n" * SLOTS, SLOTS), (b"\n" * 12, SLOTS), (b"\n" + short + b"\n\n" + short, 6), (b"\n", 1), (short, 1),
        (b"", 0), (b"", 1), (b"", 3), (longest * 3, 3), (longest * 3, 4), (longest + short + longest, 3),
        (full + b"\n" * (LIMIT - len(full)), SLOTS),
    ]


def fixed_cases(ask):
    """The list's part with many lines in one call."""
    rng = random.Random(11353)
    key = some(rng, 16)
    good, short, longest = sealed(rng, key, [(5, 20), (0, 0), (64, 256)], ask)
    for text, slots in fixed_texts(good, short, longest):
        yield many(key, 0, slots, text), None
    lines = every_line(good)
    for i in range(1, len(lines) + 1):
        yield many(key, len(b"".join(lines[:i])), 2, b"".join(lines)), None
    two = short + short
    spots = [0, 1, len(short) - 1, len(short), len(two) - 1, len(two), len(two) + 1, len(two) + FRAME, *PAST]
    for place, slots in itertools.product(spots, (0, 2)):
        yield many(key, place, slots, two), None
    for slots in (0, 1, 2, SLOTS):
        for size in misfits(slots):
            yield line("many", key, 0, slots, size, short + b"\n"), None
    for place, text in itertools.product((0, 1, len(short), len(short) + 1, MOST), (b"", short)):
        yield line("many", key, place, 2, 2 * FRAME - 1, text), None
        yield line("many", key, place, 0, FRAME, text), None
    yield many(flipped(rng, key), 0, 4, good + short + b"\n" + longest), None
    yield line("many", key, "0" * 19 + "1", "0" * 18 + "02", "0" * 17 + "706", b"\n" + short), None
    yield from ((row, b"?") for row in refused_lines(many(key, 0, 2, short)))
    yield from ((case, None) for case in zero_nonces(good, key, ask))


def zero_nonces(good, key, ask):
    """Lines with a nonce of sixteen zero bytes alone, before opened lines, behind them and as many as there are slots,
    with the cipher's tag and with another, and all nonces of one byte."""
    rng = random.Random(2211)
    zero, longest = framed(rng, key, [ZERO] * 2, [(5, 20), (64, 256)], ask)
    nonces = [lone(at, 1 + 127 * (at % 2)) for at in range(16)]
    ones = framed(rng, key, nonces, [(0, at) for at in range(16)], ask)
    every = every_line(good)
    for text, slots in (
        (zero, 1), (zero, 2), (zero + good, 2), (tampered(zero) + good, 2), (good + zero + good, 4), (good + zero, 1),
        (zero + b"\n" + zero + b"0g\n" + good, 6), (zero * SLOTS, SLOTS), (longest * 5, 6), (zero + zero[:-1], 3),
        (zero[:-1] + good, 2), (b"".join(ones), SLOTS), (b"".join(ones[11:]), 6),
        (b"".join(map(tampered, ones)), SLOTS),
        (frame_line(bytes(33)) + frame_line(lone(15, 1) + bytes(17)) + frame_line(lone(0, 1) + bytes(17)), 3),
        (b"".join([*every[:9], zero, *every[9:]]), SLOTS), (b"".join([zero, *every[1:]]), SLOTS),
    ):
        yield many(key, 0, slots, text)
    for place in (1, 2, len(zero) - 1, len(zero), 2 * len(zero)):
        yield many(key, place, 2, zero + zero)
    yield many(flipped(rng, key), 0, 3, zero + good + ones[15])
    yield line("many", key, 0, 2, 2 * FRAME - 1, zero + good)


def refused_lines(good):
    """One line for each way to be no case."""
    words = good.split(b" ")
    key, text, no_bytes = words[1], words[5], (b"", b"--", b"0")
    upper = key.decode().translate(UPPER).encode()
    wrong = {
        1: (*no_bytes, b"-", key[:-2], key + b"00", key[:-1], key + b"0", upper, key[:-1] + b"g"),
        2: NOT_NUMBERS, 3: NOT_NUMBERS + TOO_LARGE[3], 4: NOT_NUMBERS + TOO_LARGE[4],
        5: (*no_bytes, text[:-1], text + b"0", text[:-1] + b"A", text[:-1] + b"g", b"00" * (LIMIT + 1)),
    }
    for k, others in wrong.items():
        yield from (b" ".join([*words[:k], other, *words[k + 1:]]) for other in others)
    yield from (b" ".join([other, *words[1:]]) for other in NAMES)
    yield from (b" ".join(words[:k] + words[k + 1:]) for k in range(len(words)))
    yield from (b" ".join([*words[:k], b"", *words[k:]]) for k in range(len(words) + 1))
    yield from (b"many", good + b" -", good + b" 0", good + b"\r")
