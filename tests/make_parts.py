"""Cases in parts for the program `cases`: `parts` and `check`, in the form of make_cases.

Data and message are cut at places of every kind and handed over by a call for each part, with calls among them and
behind the tag that are refused. What is checked in parts was sealed by the judge in one call, with the right tag, with
wrong ones, and damaged.
"""
import collections
import itertools
import random

from make_cases import LENGTHS, LIMIT, LONGER, ZERO, Sealing, digits, flipped, line, some

CASES = 6  # for each message
LINE, CALLS = 32768, 256  # how many bytes a line can have, and how many calls
BLOCK = 32
EDGES = (0, 1, 31, 32, 33, 63, 64, 65)
LONG = (1000, 2000, LIMIT - 32, LIMIT - 1, LIMIT)
SIZES = (1, 1, 1, 2, 7, 16, 31, 32, 33, 64, 65)
TEXT = {"parts": "m", "check": "c"}  # the letter of a part of the text
NAMES = (b"part", b"partss", b"Parts", b"PARTS", b"chec", b"checks", b"Check", b"seal", b"open", b"many", b"?", b"")
NOT_DIGITS = b"AFgG:/`@+._=\0\xff\t\r\x0b"
# what many cases must have, of each kind
CALLED = (
    "0 for data", "0 for text", "0 for tag", "23 for data", "24 for data", "24 for text", "24 for tag",
    "23 behind empty text alone", "24 where 23 holds too", "tag behind a 23", "tag without a part", "empty data part",
    "empty text part", "data cut inside a block", "data cut at a block's end", "text cut inside a block",
    "text cut at a block's end", "33 parts of a byte", "part of 1,000 bytes",
)
LOOKED_FOR = (
    *(f"{what} in {kind}" for kind in TEXT for what in CALLED),
    "1 for a bit of the tag", "1 for another tag", "1 for other data", "1 for other text", "1 for a moved byte",
    "24 behind a 1",
)


def case(kind, s, calls):
    """A line: a call is a letter and its bytes, or None for the sealer's tag."""
    words = (letter if value is None else f"{letter}={digits(value)}" for letter, value in calls)
    return line(kind, s.key, s.nonce, *words)


def calls_of(text, answer):
    """The kind of a case, its key and nonce, and its calls: the letter, the bytes, and the number that is answered."""
    kind, key, nonce, *words = text.decode().split(" ")
    pairs = [(word[0], bytes.fromhex(word[2:].replace("-", ""))) for word in words]
    numbers = [int(word.split("=")[0]) for word in answer.decode().split(" ")]
    return kind, (key, nonce), [(*pair, number) for pair, number in zip(pairs, numbers)]


def of_calls(calls):
    """What the calls of a line show, of all that is looked for."""
    found, came, small, late = [], collections.defaultdict(bytes), 0, False
    for letter, value, number in calls:
        what = {"d": "data", "t": "tag"}.get(letter, "text")
        found.append(f"{number} for {what}")
        if number == 23:
            late = True
            found += ["23 behind empty text alone"] * (not came["text"])
        elif number == 24:
            found += ["24 where 23 holds too"] * (what == "data" and "text" in came)
        elif what == "tag":
            found += ["tag behind a 23"] * late + ["tag without a part"] * (not came)
        else:
            end, small = len(came[what]), small + (len(value) == 1)
            found += [f"empty {what} part"] * (not value) + ["part of 1,000 bytes"] * (len(value) >= 1000)
            if value and end:
                found.append(f"{what} cut " + ("inside a block" if end % BLOCK else "at a block's end"))
            came[what] += value
    return {*found, *["33 parts of a byte"] * (small > BLOCK)}


def checked(calls):
    """What a checker was asked about, data, text and tag, with its verdict; None where it was not asked."""
    came = collections.defaultdict(bytes)
    for letter, value, number in calls:
        if letter == "t":
            return (came["d"], came["c"], value), number
        came[letter] += value if number == 0 else b""
    return None


def wrong(asked, right):
    """What is wrong with what was answered 1, beside what is right under the same key and nonce."""
    (data, text, tag), (same_data, same_text, same_tag) = asked, right
    if (data, text) == (same_data, same_text):
        off = bin(int.from_bytes(tag, "big") ^ int.from_bytes(same_tag, "big")).count("1")
        return "1 for a bit of the tag" if off == 1 else "1 for another tag"
    if data + text == same_data + same_text:
        return "1 for a moved byte"
    return "1 for other data" if text == same_text else "1 for other text"


def seen(batch, answers, ask):
    """How many cases of a batch have each of what is looked for."""
    rows = [calls_of(*pair) for pair in zip(batch, answers)]
    verdicts = [(start, checked(calls)) for kind, start, calls in rows if kind == "check"]
    rights = {start: verdict[0] for start, verdict in verdicts if verdict and verdict[1] == 0}
    found = collections.Counter(f"{what} in {kind}" for kind, _, calls in rows for what in of_calls(calls))
    numbers = [[number for _, _, number in calls] for _, _, calls in rows]
    found["24 behind a 1"] = sum(1 in row and row[-1] == 24 for row in numbers)
    for start, verdict in verdicts:
        if verdict and verdict[1] == 1 and start in rights:
            found[wrong(verdict[0], rights[start])] += 1
    return found


def near(n):
    """Places about the ends of blocks."""
    return [at for end in range(0, n + 2, BLOCK) for at in (end - 1, end, end + 1) if 0 <= at <= n]


def places(rng, n):
    """Where n bytes are cut: nowhere, at any places, about the ends of blocks, into parts of one size, or so that there
    are many empty parts."""
    kind = rng.randrange(6)
    if kind == 0:
        return []
    if kind == 1:
        return rng.choices(range(n + 1), k=rng.randrange(1, 9))
    if kind in (2, 3):
        return rng.choices(near(n), k=rng.randrange(1, 7))
    if kind == 4:
        return list(range(0, n, max(rng.choice(SIZES), n // 90 + 1)))
    return rng.choices((0, n, rng.randrange(n + 1)), k=rng.randrange(2, 12))


def cut(data, at):
    ends = [0, *sorted(at), len(data)]
    return [data[a:b] for a, b in zip(ends, ends[1:])]


def parts(rng, letter, data):
    """The calls for the parts of some bytes; for no bytes there may be no call."""
    if not data and rng.randrange(2):
        return []
    return [(letter, part) for part in cut(data, places(rng, len(data)))]


def refused(rng, kind):
    """A call behind the tag."""
    letter = rng.choice(("d", TEXT[kind], "t"))
    value = some(rng, rng.choice((0, 1, 16, 31, 32, 33, 100)))
    return letter, value if letter != "t" else None if kind == "parts" else some(rng, 16)


def mixed(rng, kind, calls):
    """With data among the message parts and behind them, which comes too late."""
    first = next((i for i, call in enumerate(calls) if call[0] == TEXT[kind]), None)
    out = list(calls)
    for _ in range(rng.randrange(1, 4) if first is not None else 0):
        out.insert(rng.randrange(first + 1, len(out)), ("d", some(rng, rng.choice((0, 1, 32, 40)))))
    return out


def behind(rng, kind, calls):
    """With calls behind the tag, one time in two."""
    return calls + [refused(rng, kind) for _ in range(rng.randrange(1, 5) * rng.randrange(2))]


def of_sealer(rng, s):
    return parts(rng, "d", s.data) + parts(rng, "m", s.message) + [("t", None)]


def of_checker(rng, s, **changed):
    p = {"data": s.data, "text": s.text, "tag": s.tag, **changed}
    return parts(rng, "d", p["data"]) + parts(rng, "c", p["text"]) + [("t", p["tag"])]


def early(rng, calls):
    """The tag where some calls have come or none, and the others behind it."""
    at = rng.choice((0, rng.randrange(len(calls)), rng.randrange(len(calls))))
    return calls[:at] + calls[-1:] + calls[at:-1]


def moved(s):
    """A byte of the data at the front of the text, or one of the text at the data's end."""
    if s.data:
        return {"data": s.data[:-1], "text": s.data[-1:] + s.text}
    return {"data": s.text[:1], "text": s.text[1:]}


def damaged(rng, s):
    """Data or text with a bit changed, a byte longer or shorter, or with a byte of the other."""
    kind, part = rng.randrange(5), rng.choice(("data", "text"))
    value, room = getattr(s, part), LIMIT not in (len(s.data), len(s.text))
    if kind == 0 and s.data + s.text and room:
        return moved(s)
    if kind == 1 and room or not value:
        return {part: value + b"\0"}
    return {part: value[:-1] if kind == 2 else flipped(rng, value)}


def with_word(words, k, word):
    return b" ".join([*words[:k], word, *words[k + 1:]])


def wrong_call(rng, kind, word):
    """What no call of the kind is: of another form, or without its bytes, or with bytes that are none."""
    letter, value = word[:1], word[2:] or b"00"
    at = rng.randrange(len(value))
    other = value[:at] + bytes([rng.choice(NOT_DIGITS)]) + value[at + 1:]
    tag = b"00" * 16
    forms = (
        b"", b"-", b"=", letter + b"=", letter + letter, letter + b"-" + value, letter + b"==" + value, value,
        b"=" + value, letter.upper() + b"=" + value, letter + b"=--", letter + b"=0", letter + b"=" + value + b"0",
        letter + b"=" + other, letter + b" =" + value, b"x=" + value, b"T", b"tt", b"t=", b"d", b"m", b"c",
        letter + b"=" + b"00" * (LIMIT + 1),
    )
    own = (b"c=" + value, b"t=" + tag, b"t=-", b"t=00") if kind == b"parts" else (
        b"m=" + value, b"t", b"t=-", b"t=" + tag[2:], b"t=" + tag + b"00", b"t=" + tag[1:])
    return rng.choice(forms + own * 2)


def malformed(rng, good):
    """A line that is no case, made of one that is."""
    words = good.split(b" ")
    kind = rng.randrange(12)
    if kind == 0:
        return b" ".join(words[:rng.randrange(1, 4)])
    if kind == 1:
        return with_word(words, 0, rng.choice(NAMES))
    if kind == 2:
        at = rng.randrange(len(words) + 1)
        return b" ".join([*words[:at], b"", *words[at:]])
    if kind == 3:
        k, text = rng.choice((1, 2)), words[1]
        wrong_keys = (text[:-2], text + b"00", b"-", text[:-1], text[:-1] + b"g", b"d=" + text)
        return with_word(words, k, rng.choice(wrong_keys))
    if kind == 4:
        return b" ".join(words[:3] + [b"d=-"] * rng.choice((CALLS + 1, CALLS + 2, 2 * CALLS, 16000)))
    if kind == 5:
        return b" ".join(words[:3] + [TEXT[words[0].decode()].encode() + b"=" + b"00" * LIMIT] * rng.randrange(4, 17))
    k = rng.randrange(3, len(words))
    return with_word(words, k, wrong_call(rng, words[0], words[k]))


def cases_of(rng, s, other):
    """Six cases of a sealing: sealed, sealed with calls that are refused, checked with the right tag, with a wrong one
    and damaged, and a line that is no case."""
    seal, check = of_sealer(rng, s), of_checker(rng, s)
    good = [case("parts", s, behind(rng, "parts", seal))]
    seal = mixed(rng, "parts", of_sealer(rng, s))
    good.append(case("parts", s, behind(rng, "parts", seal) if rng.randrange(2) else early(rng, seal)))
    check = mixed(rng, "check", check) if rng.randrange(2) else check
    good.append(case("check", s, behind(rng, "check", check)))
    tag = flipped(rng, s.tag) if rng.randrange(3) else other.tag
    good.append(case("check", s, behind(rng, "check", mixed(rng, "check", of_checker(rng, s, tag=tag)))))
    check = of_checker(rng, s, **damaged(rng, s))
    good.append(case("check", s, early(rng, check) if rng.randrange(4) == 0 else behind(rng, "check", check)))
    yield from ((text, None) for text in good)
    yield malformed(rng, rng.choice(good)), b"?"


def drawn(rng, pairs):
    """A sealing with the next pair of lengths; of ten one is longer, and of eight one has a nonce of zeros."""
    nonce = None if rng.randrange(8) else ZERO
    if rng.randrange(10):
        return Sealing(rng, *next(pairs), nonce)
    return Sealing(rng, *rng.sample([rng.choice(rng.choice((LONG, LONGER))), rng.choice(LENGTHS)], 2), nonce)


def endless(rng):
    """All pairs of lengths about the blocks, again and again, each time in another order."""
    while True:
        pairs = list(itertools.product(LENGTHS, repeat=2))
        yield from rng.sample(pairs, len(pairs))


def random_cases(count, seed, ask):
    """The cases of `count` messages."""
    rng = random.Random(seed)
    pairs = endless(rng)
    for done in range(0, count, 200):
        group = [drawn(rng, pairs) for _ in range(min(200, count - done))]
        for s, answer in zip(group, ask([s.line() for s in group])):
            s.take(answer)
        for s, other in zip(group, group[1:] + group[:1]):
            yield from cases_of(rng, s, other)


def fixed_cases(ask):
    """The list's part in parts."""
    rng = random.Random(1723)
    pairs, threes = list(itertools.product(EDGES, repeat=2)), [(31, edge) for edge in EDGES]
    sealings = [Sealing(rng, a + b, a + b) for a, b in pairs] + [Sealing(rng, a + b + 1, a + b + 1) for a, b in threes]
    s, empty, zero = Sealing(rng, 40, 70), Sealing(rng, 0, 0), Sealing(rng, 33, 65, ZERO)
    long = Sealing(rng, LIMIT, LIMIT)
    every = [*sealings, s, empty, zero, long]
    for one, answer in zip(every, ask([one.line() for one in every])):
        one.take(answer)
    cuts = [([b], [a]) for a, b in pairs] + [([b, a + b], [a, a + b]) for a, b in threes]
    good = [
        *(text for one, at in zip(sealings, cuts) for text in both(one, *at)), *both(zero, [32], [1, 64]),
        *both(s, range(1, 40), range(1, 70)), *both(long, [], [LIMIT - 1]), *refusals(s, empty), *verdicts(s, empty),
        case("parts", long, [("d", b"")] * (CALLS - 1) + [("t", None)]), case("check", long, [("c", b"\0")] * CALLS),
        filled(long, LINE),
    ]
    yield from ((text, None) for text in good)
    yield from ((text, b"?") for text in (*refused_lines(s), filled(long, LINE + 1)))


def both(s, data, text):
    """Sealed and checked, with data and text cut at these places."""
    halves = [("d", part) for part in cut(s.data, data)]
    yield case("parts", s, [*halves, *(("m", part) for part in cut(s.message, text)), ("t", None)])
    yield case("check", s, [*halves, *(("c", part) for part in cut(s.text, text)), ("t", s.tag)])


def refusals(s, empty):
    """No part, empty parts, data that comes late, and each call behind the tag, of both kinds."""
    for kind, letter in TEXT.items():
        text = s.message if kind == "parts" else s.text
        none, tag = (("t", None if kind == "parts" else one.tag) for one in (empty, s))
        d, e, x, y, z = ("d", s.data), ("d", b""), (letter, text[:33]), (letter, text[33:]), (letter, b"")
        for calls in ([none], [e, none], [z, none], [e, e, z, z, none], [none, z, e, none]):
            yield case(kind, empty, calls)
        for calls in (
            [d], [d, x], [d, tag], [x, y, tag], [z, d, tag], [d, z, d, x, y, tag], [d, x, d, e, y, d, tag],
            [x, d, z, e], [d, x, y, tag, d], [d, x, y, tag, x], [d, x, y, tag, tag], [d, tag, d, x, tag],
            [d, x, tag, y, e, z, tag, d], [tag, d, x, y, tag, tag],
        ):
            yield case(kind, s, calls)


def verdicts(s, empty):
    """Wrong tags, and damaged data and text; then calls behind a 1."""
    d, x, y = ("d", s.data), ("c", s.text[:32]), ("c", s.text[32:])
    for i in (0, 7, 8, 15):
        yield case("check", s, [d, x, y, ("t", s.tag[:i] + bytes([s.tag[i] ^ 1 << i % 8]) + s.tag[i + 1:])])
    for calls in (
        [("d", s.data[:-1]), x, y], [("d", s.data + b"\0"), x, y], [d, x, ("c", s.text[32:-1])],
        [d, x, y, ("c", b"\0")], [d, y, x], [("d", s.data[20:]), ("d", s.data[:20]), x, y],
        [("d", s.data[:-1]), ("c", s.data[-1:]), x, y], [d, ("d", s.text[:1]), ("c", s.text[1:])],
        [("d", bytes([s.data[0] ^ 1]) + s.data[1:]), x, y], [d, ("c", bytes([s.text[0] ^ 1])), ("c", s.text[1:])],
        [x, y],
    ):
        yield case("check", s, [*calls, ("t", s.tag)])
    yield case("check", empty, [("t", s.tag)])
    yield case("check", s, [d, x, y, ("t", bytes(16)), ("t", s.tag), d, x, ("t", bytes(16))])


def filled(s, length):
    """A line of so many bytes."""
    whole = [("d", s.data), ("m", s.message), ("m", s.message), *[("m", b"\0")] * (1 - length % 2), ("t", None)]
    left = length - len(case("parts", s, whole)) - len(" m=")
    return case("parts", s, [*whole[:-1], ("m", bytes(left // 2)), ("t", None)])


def refused_lines(s):
    """One line for each way to be no case; what both kinds read alike stands for one of them."""
    text, tag = s.message[:2].hex().encode(), s.tag.hex().encode()
    words = line("parts", s.key, s.nonce).split(b" ")
    good = [*words, b"m=" + text]
    for call in (
        b"-", b"x", b"m", b"T", b"tt", b"t=", b"t=-", b"t=" + tag, b"c=" + text, b"m=", b"m" + text, b"=" + text,
        b"m==" + text, b"m-" + text, b"M=" + text, b"x=" + text, b"m=--", b"m=" + text[1:], b"m=" + text[:3] + b"g",
        b"d=" + text[:3] + b"A", b"d=" + text + b"\r", b"d=" + b"00" * (LIMIT + 1),
    ):
        yield b" ".join([*words, b"d=-", call])
    yield from (b" ".join(words[:k]) for k in (1, 2, 3))
    yield from (b" ".join([*good[:k], b"", *good[k:]]) for k in range(1, 5))
    yield from (with_word(good, k, wrong) for k in (1, 2) for wrong in (b"-", words[k][:-2], words[k] + b"00"))
    yield from (with_word(good, 0, name) for name in NAMES if name[:2] in (b"pa", b"Pa", b"ch"))
    yield b" ".join(words + [b"d=-"] * (CALLS + 1))
    words[0] = b"check"
    for call in (b"t", b"t=-", b"t=" + tag[2:], b"t=" + tag + b"00", b"m=" + text, b"c=" + text[1:], b"C=" + text):
        yield b" ".join([*words, b"c=-", call])
    yield b" ".join(words + [b"c=-"] * (CALLS + 1))
