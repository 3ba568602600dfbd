"""Cases of the journal for the program `cases`: `write` and `read`, in the form of make_cases.

Journals are made of lines that the judge sealed: good ones, damaged, cut, joined and random ones, with empty lines as
the log roller writes them, and the newline of the last one there or not. Some have a nonce of sixteen zero bytes, with
the cipher's tag and with others, and some a nonce with one byte that is not zero. Each is read at every place where a
line starts, and at some others.
"""
import collections
import random

from make_cases import EDGES, LIMIT, ZERO, flipped, line, some

SIZES = (0, 1, 352, 353, 354, 400, 1000)
MOST = 2**64 - 1
# what is no digit and ends no line: every such byte, and those that are nearest to being one
BAD = bytes(sorted(set(range(256)) - set(b"0123456789abcdef\n")))
NEAR = b"/:`g@GAF \r\0\xff"
# what many cases must have
LOOKED_FOR = (
    "roll mark", "22 with the cipher's tag", "22 with another tag", "8, 9 or 10 with a zero nonce",
    "opened line with one nonce byte", "1 with one nonce byte", "write of 22", "write of 22 with too small a buffer",
    "write of 8 with a zero nonce", "write of 10 with a zero nonce", "written line with one nonce byte",
    "write of 15 with one nonce byte",
)


class Reading:
    """A key, and a sealed line under it."""

    def __init__(self, rng, key, data, message):
        self.key, self.nonce, self.data, self.message = key, some(rng, 16), some(rng, data), some(rng, message)

    def case(self, size):
        return line("write", self.key, self.nonce, self.data, self.message, size)

    def take(self, answer):
        number, length, buffer = answer.decode().split(" ")
        assert number == "0", answer
        self.line = bytes.fromhex(buffer)[:int(length)]


def sealed(rng, key, lengths, ask):
    readings = [Reading(rng, key, n, m) for n, m in lengths]
    for r, answer in zip(readings, ask([r.case(707) for r in readings])):
        r.take(answer)
    return [r.line for r in readings]


def frame_line(frame):
    return frame.hex().encode() + b"\n"


def lone(at, value):
    """A nonce with one byte that is not zero."""
    return bytes(at) + bytes([value]) + bytes(15 - at)


def some_lone(rng):
    return lone(rng.randrange(16), rng.choice((1, 128, rng.randrange(1, 256))))


def some_nonce(rng):
    """Of four nonces one is zero and one has one byte."""
    return rng.choice((ZERO, some_lone(rng), some(rng, 16), some(rng, 16)))


def framed(rng, key, nonces, lengths, ask):
    """Lines with the cipher's tag under these nonces: the writer would not write each."""
    parts = [(nonce, some(rng, n), some(rng, m)) for nonce, (n, m) in zip(nonces, lengths)]
    answers = ask([line("seal", key, nonce, data, message) for nonce, data, message in parts])
    assert all(answer.startswith(b"0 ") for answer in answers), answers
    tails = [bytes.fromhex(b"".join(answer.split(b" ")[1:]).decode().replace("-", "")) for answer in answers]
    return [frame_line(nonce + bytes([len(data)]) + data + tail) for (nonce, data, _), tail in zip(parts, tails)]


def pool(rng, key, ask):
    """The lines that journals are made of: six of any nonce, two with one byte in theirs, one with none."""
    lengths = [(rng.choice(EDGES), rng.choice(EDGES + (20, 20, 255, 256))) for _ in range(9)]
    nonces = [some_lone(rng), some_lone(rng), ZERO]
    return sealed(rng, key, lengths[:6], ask) + framed(rng, key, nonces, lengths[6:], ask)


def shaped(rng):
    """A line of digits with a frame of its own making: too short, n too large, n past the frame, m too large, or random."""
    kind = rng.randrange(6)
    if kind == 0:
        return frame_line(some(rng, rng.randrange(1, 33)))
    if kind == 1:
        return frame_line(some_nonce(rng) + bytes([rng.randrange(65, 256)]) + some(rng, rng.randrange(16, 337)))
    if kind == 2:
        n = rng.randrange(1, 65)
        return frame_line(some_nonce(rng) + bytes([n]) + some(rng, 15 + rng.randrange(1, n + 1)))
    if kind == 3:
        n = rng.randrange(64)
        return frame_line(some_nonce(rng) + bytes([n]) + some(rng, 336))
    if kind == 4:
        n = rng.randrange(65)
        return frame_line(some_nonce(rng) + bytes([n]) + some(rng, n + rng.randrange(257) + 16))
    return some(rng, rng.randrange(1, 40)).replace(b"\n", b"") + b"\n"


def bad_digits(rng, text):
    """One to three bytes of the line that are no digits, each of them the first, the last or any."""
    out, last = bytearray(text), len(text) - 2
    for _ in range(rng.choice((1, 1, 2, 3))):
        out[rng.choice((0, last, rng.randrange(last + 1)))] = rng.choice(rng.choice((BAD, NEAR)))
    return bytes(out)


def damaged(rng, text):
    """One line damaged: a digit, a byte, a byte more or less, cut, its newline lost, uppercase, doubled, too long, of
    another shape, with bytes that are no digits, with a nonce of zeros or of one byte, or of zeros and another n."""
    kind = rng.randrange(16)
    at = rng.randrange(len(text))
    if kind == 0:
        return text[:at] + bytes([rng.choice(b"0123456789abcdef")]) + text[at + 1:]
    if kind == 1:
        return flipped(rng, text)
    if kind == 2:
        return text[:at] + text[at + 1:]
    if kind == 3:
        return text[:at] + bytes([rng.choice(b"0123456789abcdefgAF \r\0")]) + text[at:]
    if kind == 4:
        return text[:at]
    if kind == 5:
        return text[:-1]
    if kind == 6:
        return text.upper()
    if kind == 7:
        return text[:at] + b"\n" + text[at:]
    if kind == 8:
        return b"\n" * rng.randrange(1, 4)
    if kind == 9:
        return text[:-1] + b"0" * (706 - (len(text) - 1) + rng.randrange(3)) + b"\n"
    if kind == 10:
        return shaped(rng)
    if kind in (11, 12, 13):
        return bad_digits(rng, text)
    if kind == 14:
        return rng.choice((ZERO, ZERO, some_lone(rng))).hex().encode() + text[32:]
    return (ZERO + some(rng, 1)).hex().encode() + text[34:]


def journal(rng, lines, most=8):
    """Some of the lines, some damaged, some with a roll mark before or behind, in at most LIMIT bytes; sometimes the
    last newline is lost."""
    out = b""
    for _ in range(rng.randrange(most + 1)):
        text = rng.choice(lines)
        if rng.randrange(2):
            text = damaged(rng, text)
        if rng.randrange(6) == 0:
            text = rng.choice((b"\n" + text, text + b"\n"))
        if len(out) + len(text) <= LIMIT:
            out += text
    return out[:-1] if rng.randrange(8) == 0 else out


def places(rng, text):
    """Where a line starts, the end, and a few others."""
    starts = [0] + [i + 1 for i, b in enumerate(text) if b == 10] + [len(text)]
    others = [rng.randrange(len(text) + 3) for _ in range(2)] + [rng.choice([len(text) + 1, MOST, 2**63])]
    return starts + others


def starts_line(text, place):
    """Whether a line starts at the place; the text is in digits, as a case has it."""
    return place == 0 or text[2 * place - 2:2 * place] == b"0a"


def roll_mark(case, answer):
    """Whether an empty line is read. The place of any line's newline is answered with 16 too, and does not count."""
    return answer.startswith(b"16 ") and starts_line(case.split(b" ")[4], int(case.split(b" ")[2]))


def one_byte(nonce):
    return nonce.count(0) == 15


def frame_at(text, place):
    """The frame of a line that has its form; the text is in digits, as a case has it."""
    return bytes.fromhex(bytes.fromhex(text[2 * place:].decode()).split(b"\n")[0].decode())


def opening(key, frame):
    """The cipher's case of a frame."""
    start = 17 + frame[16]
    return line("open", key.decode(), frame[:16], frame[17:start], frame[start:-16], frame[-16:])


def of_line(number, key, text, place):
    """What a line has of all that is looked for; where it is answered 22, the case that asks the cipher for its tag."""
    if number not in (0, 1, 8, 9, 10, 22):
        return "", []
    frame = frame_at(text, place)
    if number == 22:
        return "22", [opening(key, frame)]
    if one_byte(frame[:16]):
        return {0: "opened line with one nonce byte", 1: "1 with one nonce byte"}.get(number, ""), []
    return "8, 9 or 10 with a zero nonce" if frame[:16] == ZERO and number > 1 else "", []


def of_tags(cases, ask):
    """How many of the lines that are answered 22 have the cipher's tag, and how many another."""
    right = sum(answer.startswith(b"0 ") for answer in ask(cases))
    return collections.Counter({"22 with the cipher's tag": right, "22 with another tag": len(cases) - right})


def of_write(number, words):
    """What a write has of all that is looked for."""
    nonce, data, message = (bytes.fromhex(word.decode().replace("-", "")) for word in words[2:5])
    if one_byte(nonce):
        return [{0: "written line with one nonce byte", 15: "write of 15 with one nonce byte"}.get(number, "")]
    if nonce != ZERO:
        return []
    if number != 22:
        return [f"write of {number} with a zero nonce"]
    small = int(words[5]) < 2 * (33 + len(data) + len(message)) + 1
    return ["write of 22"] + ["write of 22 with too small a buffer"] * small


def seen(batch, answers, ask):
    """How often a batch has each of what is looked for."""
    found, tags = collections.Counter(), []
    for case, answer in zip(batch, answers):
        words, number = case.split(b" "), int(answer.split(b" ")[0])
        if words[0] == b"write":
            found.update(of_write(number, words))
        else:
            name, asked = of_line(number, words[1], words[4], int(words[2]))
            found.update((name, "roll mark") if roll_mark(case, answer) else (name,))
            tags += asked
    return found + of_tags(tags, ask)


def writes(rng, key):
    """Writes with any nonce and any lengths, and one for each thing that is looked for."""
    offs = [rng.choice((-1, 0, 0, 1, 300, -700)) for _ in range(4)]
    drawn = [(some_nonce(rng), rng.randrange(70), rng.randrange(262), off) for off in offs]
    n, m, off = rng.randrange(65), rng.randrange(257), rng.choice((-1, -700))
    drawn += [
        (ZERO, n, m, 0), (ZERO, n, m, off), (ZERO, rng.randrange(65, 70), rng.randrange(262), rng.choice((0, -700))),
        (ZERO, n, rng.randrange(257, 262), rng.choice((0, -700))), (some_lone(rng), n, m, rng.choice((0, 1, 300))),
        (some_lone(rng), n, m, off),
    ]
    for nonce, n, m, off in drawn:
        size = max(0, 2 * (33 + n + m) + 1 + off)
        yield line("write", key, nonce, some(rng, n), some(rng, m), size)


def random_cases(count, seed, ask):
    """`count` cases, one line of a journal each or one written line."""
    rng = random.Random(seed)
    made = 0
    while made < count:
        key = some(rng, 16)
        lines = pool(rng, key, ask)
        cases = list(writes(rng, key))
        for _ in range(12):
            text = journal(rng, lines)
            for place in places(rng, text):
                size = 353 if rng.randrange(6) else rng.choice(SIZES)
                under = flipped(rng, key) if rng.randrange(20) == 0 else key
                cases.append(line("read", under, place, size, text))
        for case in cases[:count - made]:
            made += 1
            yield case, None


def not_digits(good):
    """Lines with bytes that are no digits: the first, the last, several, in lines of any length and in later ones."""
    edges = [bytes([b]) for b in NEAR] + [b"\x0b", b"\x7f", b"\x80"]
    return [
        *(b"0" + edge + b"\n" for edge in edges), b"g\n", b"g0\n", b"0:0/\n", b"000\xff\0\n", b"\0\xff\n", b"00\r\n",
        b"g" + good[1:], good[:-2] + b"G\n", b" " + good[1:-2] + b" \n",
        good[:40] + b"\0" + good[41:60] + b"\xff" + good[61:], b"0" * 705 + b"g\n", b"g" * 706 + b"\n",
        b"0" * 706 + b"g\n", b"\nabc\n0g0g\n", good + good[:-2] + b":\n" + good,
    ]


def roll_marks(good):
    """Empty lines: first, in the middle, last, in a row, behind damage, before a cut line; and short lines, which are
    none."""
    damaged = good[:-2] + (b"0\n" if good[-2:] != b"0\n" else b"1\n")
    return [
        b"\n" + good, good + b"\n" + good, good + b"\n", b"\n\n", good + b"\n\n" + good, b"\n" * 5,
        damaged + b"\n" + good, b"0g\n\n" + good, b"\nabc", good + b"\n" + good[:-1],
        b"\r\n", b" \n", b"\0\n", b"0\n", b"f\n", b"00\n", b"\n\r\n\n", b"\n0\n\n",
    ]


def fixed_cases(ask):
    """The journal's part of the list: every answer of the table, and the edges of sizes and places."""
    rng = random.Random(353)
    key = some(rng, 16)
    for n, m in [(a, b) for a in EDGES for b in EDGES] + [(64, 256), (0, 20), (0, 256), (64, 0)]:
        yield line("write", key, some(rng, 16), some(rng, n), some(rng, m), 707), None
    for n, m, size in ((65, 0, 707), (64, 257, 707), (65, 257, 0), (0, 0, 66), (0, 0, 67), (0, 0, 68), (64, 256, 706), (64, 256, 707), (0, 0, 0)):
        yield line("write", key, some(rng, 16), some(rng, n), some(rng, m), size), None
    lines = sealed(rng, key, [(a, b) for a in EDGES for b in EDGES] + [(64, 256), (0, 20)], ask)
    for text in lines:
        yield line("read", key, 0, 353, text), None
    good = lines[-1]
    bad = [
        b"\n", b"0g\n", b"abc", b"0g\nabc", b"\n0g\nabc", b"A5\n", good.replace(b"a", b"A"), b"0" * 707 + b"\n", b"0" * 706 + b"\n", b"0" * 705 + b"\n",
        b"00" * 32 + b"\n", b"00" * 33 + b"\n", frame_line(bytes(16) + b"\x41" + bytes(100)), frame_line(bytes(16) + b"\x40" + bytes(79)),
        frame_line(bytes(16) + b"\x01" + bytes(16)), frame_line(bytes(353)), frame_line(bytes(16) + b"\x3f" + bytes(336)), good[:-3] + b"0\n", good[:-1], good + good, good[:-1] + good,
    ]
    for text in bad + not_digits(good) + roll_marks(good):
        for place in [0] + [i + 1 for i, b in enumerate(text) if b == 10]:
            yield line("read", key, place, 353, text), None
    for place in (1, 2, 3, 4):
        yield line("read", key, place, 353, b"0g0g\n"), None
    for size in (0, 352, 353, 354, 1000):
        yield line("read", key, 0, size, good), None
        yield line("read", key, 0, size, b"\n"), None
        yield line("read", key, 0, size, b"\n" + good), None
        yield line("read", key, len(good), size, good + b"\n" + good), None
    for place in (1, 2, MOST):
        yield line("read", key, place, 352, b"\n"), None
        yield line("read", key, place, 353, b"\n"), None
    for place in (1, len(good) - 1, len(good), len(good) + 1, MOST):
        yield line("read", key, place, 353, good), None
    yield line("read", key, 0, 353, b""), None
    yield line("read", key, 0, 0, b""), None
    yield line("read", key, 1, 352, b""), None
    yield from ((case, None) for case in zero_nonces(good, key, ask))


def tampered(text):
    """The line with its last digit changed."""
    return text[:-2] + (b"1\n" if text[-2:-1] == b"0" else b"0\n")


def zero_nonces(good, key, ask):
    """The nonce of sixteen zero bytes, refused with 22 before 1 and 15 and behind all others; the nonces that are next
    to it, one byte of 1 or 128 at each of the sixteen places; and some whose bytes or halves add up to none."""
    rng = random.Random(22)
    lengths = [(0, 0), (0, 20), (5, 20), (64, 0), (0, 256), (64, 256)]
    zeros = framed(rng, key, [ZERO] * len(lengths), lengths, ask)
    nonces = [lone(at, value) for value in (1, 128) for at in range(16)]
    nonces += [b"\1" * 16, b"\x80" * 16, b"\xff" * 16, b"\x80" + bytes(14) + b"\x80", (b"\1" + bytes(7)) * 2]
    ones = framed(rng, key, nonces, [(5, 20)] * len(nonces), ask)
    zero, other = zeros[2], flipped(rng, key)
    yield from (line("read", key, 0, 353, text) for text in zeros + [tampered(text) for text in zeros])
    yield from (line("read", key, 0, 353, text) for text in ones + [tampered(text) for text in ones[:16]])
    yield from (line("read", other, 0, 353, text) for text in (zero, ones[0], ones[15]))
    yield from (line("read", key, 0, size, zero) for size in (0, 352, 354, 1000))
    yield from (line("read", key, place, 353, zero) for place in (1, 2, 32, len(zero) - 1, len(zero), len(zero) + 1))
    # a nonce damaged to zeros, a tag of zeros under nonces that are none, and what comes before 22 and behind it
    cleared = [b"0" * 32 + text[32:] for text in (good, ones[0], ones[15])]
    frames = [lone(0, 1) + bytes(17), lone(15, 1) + bytes(17)]
    frames += [bytes([0] * 16 + [n]) + bytes(size - 17) for n, size in (
        (0, 32), (65, 98), (64, 96), (1, 33), (1, 34), (64, 97), (0, 289), (0, 290), (64, 353), (63, 353), (255, 353))]
    edges = [zero[:-1], zero[:-2] + b"\n", zero[:-2] + b"g\n", b"G" + zero[1:], b"0" * 67 + b"\n", zero[:64] + b"\n"]
    edges += [zeros[-1][:-1] + b"0\n", zeros[-1][:-2] + b"00\n"]
    yield from (line("read", key, 0, 353, text) for text in cleared + [frame_line(frame) for frame in frames] + edges)
    for text in (good + zero + good, b"\n" + zero + b"\n" + zero, b"0g\n" + zero + tampered(good), zero[:-1] + good):
        for place in [0] + [i + 1 for i, b in enumerate(text) if b == 10]:
            yield line("read", key, place, 353, text)
    for n, m, size in (
        (0, 0, 67), (0, 20, 107), (5, 20, 707), (64, 256, 707), (0, 0, 66), (0, 0, 0), (5, 20, 116), (64, 256, 706),
        (65, 0, 707), (65, 0, 0), (64, 257, 1000), (0, 257, 0), (65, 257, 0),
    ):
        yield line("write", key, ZERO, some(rng, n), some(rng, m), size)
    yield from (line("write", key, nonce, some(rng, 5), some(rng, 20), 117) for nonce in nonces)
    for nonce in (lone(0, 1), lone(15, 1), lone(0, 128), lone(15, 128)):
        yield from (line("write", key, nonce, b"", b"", size) for size in (0, 66, 67))
