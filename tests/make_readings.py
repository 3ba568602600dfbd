"""Cases of readings for the program `cases`: `decode` and `newer`, in the form of make_cases.

Counters are drawn around the edges of the refusals and of an f64, equal, one apart and at random, so that many
divisions are rounded; ticks around the half and the whole way round. No case needs another one's answer: `ask` is
there since every maker takes it.
"""
import collections
import itertools
import random
import struct

from make_cases import FULL, LIMIT, line, some

SIZE = 20
EXACT = 2**53  # up to here every whole number is an f64
MOST = 2**64 - 1
HALF, ROUND = 2**31, 2**32
COUNTERS = (0, 1, 2, 3, EXACT - 2, EXACT - 1, EXACT, EXACT + 1, EXACT + 2, 2**63 - 1, 2**63, MOST - 1, MOST)
TICKS = (0, 1, HALF - 1, HALF, HALF + 1, ROUND - 2, ROUND - 1)
DIFFERENCES = (0, 1, -1, HALF - 1, HALF, HALF + 1)
# every short length but the right one, and longer ones: 276 is the right one in its lowest byte
LENGTHS = tuple(n for n in range(65) if n != SIZE) + (128, 255, 256, 257, 276, 1000, LIMIT - 1, LIMIT)
# resident and active: a third, two thirds, a tenth, a 49th, and the ratios next to 0 and to 1
QUOTIENTS = ((3, 2), (3, 1), (10, 9), (49, 48), (EXACT, EXACT - 1), (EXACT, 1), (EXACT - 1, 1), (EXACT - 1, EXACT - 2))
NOT_DIGITS = b"AFgG:/`@-+._\0\xff\t\r\x0b"
# nothing, signs, other bytes, 2^32 and 2^64 with what is next to them, which is small if it goes round, and 21 digits
NOT_TICKS = (
    b"", b"-", b"--", b"-1", b"+1", b"0x1", b"1x", b"1.0", b"1e3", b"a",
    b"4294967296", b"4294967297", b"9223372036854775808", b"18446744073709551615", b"18446744073709551616",
    b"18446744073709551617", b"99999999999999999999", b"000000000000000000001", b"0" * 21, b"0" * 200,
)
NAMES = (
    b"decode", b"decodes", b"decod", b"Decode", b"DECODE", b"newer", b"new", b"newe", b"newers", b"Newer", b"older",
    b"seal", b"read", b"write", b"open2", b"?", b"-", b"",
)
# the answers that many cases must have: decode's numbers, and both of newer's
LOOKED_FOR = tuple(f"answer {name}" for name in ("0", "17", "18", "19", "20", "newer 0", "newer 1"))


def reading(tick, counters):
    """The bytes of a reading; the counters are resident and active."""
    return struct.pack("<IQQ", tick, *counters)


def any_tick(rng):
    return rng.choice((rng.choice(TICKS), rng.getrandbits(32)))


def powers(rng):
    """About powers of two."""
    return [min(MOST, max(0, 2**rng.randrange(65) + rng.randrange(-2, 3))) for _ in range(2)]


def alike(rng):
    """Equal, or one apart."""
    resident = rng.getrandbits(rng.randrange(1, 56))
    return resident, max(0, resident + rng.choice((-1, 0, 1)))


def wide(rng):
    """Any 64 bits: hardly ever are both small enough."""
    return rng.getrandbits(64), rng.getrandbits(64)


def exact(rng):
    """Two that are small enough: half of the time active is above resident."""
    return rng.randrange(EXACT + 1), rng.randrange(EXACT + 1)


def ordered(rng):
    """Two that are good: the quotient is hardly ever exact."""
    resident = rng.randrange(1, EXACT + 1)
    return resident, rng.randrange(resident + 1)


def sized(rng):
    """Of any number of bits, and so the difference: the ratio goes down to its least."""
    resident = rng.getrandbits(rng.randrange(1, 54))
    return resident, resident - min(resident, rng.getrandbits(rng.randrange(54)))


def midway(rng):
    """The quotient is as near to the middle of two neighbouring f64s as any is, so a wrong rounding shows: the middle
    is an odd number over 2^54, and times resident it is a whole number, the difference, but for one 2^54th."""
    resident = rng.getrandbits(53) | 1
    inverse = pow(resident, -1, 2**54)
    middle = max(inverse, 2**54 - inverse)
    return resident, resident - (middle * resident + 2**53 >> 54)


def idle(rng):
    """Nothing is active: the ratio is 1, or resident is zero."""
    return rng.choice((0, rng.randrange(1, EXACT + 1))), 0


def refused_twice(rng):
    """Refused by two rows or by three: the first of them answers."""
    large, small = rng.randrange(EXACT + 1, MOST + 1), rng.randrange(1, EXACT + 1)
    return rng.choice(((small, large), (0, large), (0, small)))


DRAWS = (powers, alike, wide, exact, ordered, sized, midway, idle, refused_twice)


def misfit(rng, length):
    """A reading cut, or with bytes behind it; a later row may refuse it too."""
    whole = reading(any_tick(rng), rng.choice(DRAWS)(rng))
    return (whole + some(rng, length))[:length]


def apart(rng):
    """Two ticks whose difference is at an edge."""
    tick = rng.getrandbits(32)
    return tick, (tick - rng.choice(DIFFERENCES)) % ROUND


def decode(message):
    return line("decode", message)


def newer(rng, ticks):
    """Two ticks, some with zeros in front."""
    return line("newer", *(str(tick).zfill(rng.choice((1, 1, 1, rng.randrange(1, 21)))) for tick in ticks))


def wrong_message(rng, digits):
    """What says no message: an odd number of digits, another byte among them, nothing, or too many bytes."""
    at = rng.randrange(len(digits))
    other = digits[:at] + bytes([rng.choice(NOT_DIGITS)]) + digits[at + 1:]
    return rng.choice((digits[:-1], digits + b"0", other, other, b"", b"--", b"0", b"00" * (LIMIT + 1)))


def malformed(rng, good):
    """A line that is no case, made of one that is."""
    name, *words = good.split(b" ")
    kind = rng.randrange(10)
    if kind == 0:
        words.pop()
    elif kind == 1:
        words.append(rng.choice((b"-", b"00", b"0", b"")))
    elif kind == 2:
        name = rng.choice([other for other in NAMES if other != name])
    elif kind == 3:
        words.insert(rng.randrange(len(words)), b"")
    elif kind == 4:
        return rng.choice((b"", b" ", b"?", b" " + good, good + b"\r", good.ljust(rng.choice(FULL), b"0")))
    else:
        k = rng.randrange(len(words))
        words[k] = wrong_message(rng, words[k]) if name == b"decode" else rng.choice(NOT_TICKS)
    return b" ".join([name, *words])


def endless(rng, things):
    """All of the things, again and again, each time in another order."""
    while True:
        yield from rng.sample(things, len(things))


def rounds(rng):
    """Seventeen cases again and again: eleven messages, four pairs of ticks and two lines that are no case."""
    edges = endless(rng, list(itertools.product(TICKS, itertools.product(COUNTERS, repeat=2))))
    lengths, pairs = endless(rng, LENGTHS), endless(rng, list(itertools.product(TICKS, repeat=2)))
    while True:
        messages = [reading(*next(edges)), *(reading(any_tick(rng), draw(rng)) for draw in DRAWS)]
        good = [decode(message) for message in messages + [misfit(rng, next(lengths))]]
        ticks = [next(pairs), apart(rng), apart(rng), (rng.getrandbits(32), rng.getrandbits(32))]
        good += [newer(rng, two) for two in ticks]
        yield from ((text, None) for text in good)
        yield from ((malformed(rng, text), b"?") for text in (good[0], good[-1]))


def seen(batch, answers, ask):
    """How often a batch has each of what is looked for."""
    rows = zip((case.startswith(b"newer ") for case in batch), (answer.split(b" ")[0].decode() for answer in answers))
    return collections.Counter(f"answer newer {number}" if newer else f"answer {number}" for newer, number in rows)


def random_cases(count, seed, ask):
    """`count` cases: counters and ticks go through all pairs of edges, in an order of the seed's."""
    return itertools.islice(rounds(random.Random(seed)), count)


def fixed_messages(rng):
    """All pairs of counters at the edges, quotients that are rounded, and messages of other lengths."""
    ticks = itertools.cycle(TICKS)
    pairs = [*itertools.product(COUNTERS, repeat=2), *QUOTIENTS]
    pairs += [draw(rng) for draw in (ordered, sized, midway) for _ in range(8)]
    yield from (reading(next(ticks), pair) for pair in pairs)
    yield from (misfit(rng, length) for length in LENGTHS if length <= 40 or length in (256, 276, LIMIT))
    yield from (bytes(19), bytes(21), b"\xff" * 19, b"\xff" * 21)


def fixed_cases(ask):
    """The readings' part of the list."""
    rng = random.Random(1920)
    yield from ((decode(message), None) for message in fixed_messages(rng))
    ticks = [*itertools.product(TICKS, repeat=2), *((HALF + 20, (HALF + 20 - n) % ROUND) for n in DIFFERENCES)]
    yield from ((line("newer", *pair), None) for pair in ticks)
    yield from ((line("newer", *pair), None) for pair in (("007", "0" * 19 + "6"), ("0" * 10 + "4294967295", "0")))
    yield from ((row, b"?") for row in refused_lines(decode(reading(1, (3, 2))), b"newer 2 1"))


def refused_lines(message, ticks):
    """One line for each way to be no case."""
    first, digits = message.split(b" ")
    words = [digits[:-1], digits + b"0", digits[:-1] + b"A", digits[:-1] + b"g", b"", b"--", b"00" * (LIMIT + 1)]
    yield from (first + b" " + word for word in words)
    yield from (row for word in NOT_TICKS for row in (b"newer " + word + b" 1", b"newer 1 " + word))
    yield from (first, b"newer", b"newer 2")
    for good in (message, ticks):
        name, rest = good.split(b" ", 1)
        yield from (other + b" " + rest for other in NAMES if other != name)
        yield from (good + b" ", good + b" 0", b" " + good, name + b"  " + rest, good + b"\r")
