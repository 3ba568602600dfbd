"""Cases for the program `cases`, and what is to be written for those that are none.

Every case is a pair (line, wanted): `line` is bytes without a newline, and `wanted` is b"?" where the line is
malformed on purpose, or None where the judge says what is right. Openings need what a sealing gave, so the
makers take a function `ask` from lines to the judge's answers. The same seed gives the same cases.
"""
import collections
import pathlib
import random

LIMIT = 4096
ZERO = bytes(16)
EDGES = (0, 1, 31, 32, 33, 63, 64)
LONGER = (65, 95, 96, 97, 127, 128, 129, 255, 256, 257, 1000, 4064, 4095, 4096)
# lengths around the block's, all of them up to two blocks and a bit
LENGTHS = tuple(range(67)) + (95, 96, 97, 127, 128, 129, 159, 160, 161, 191, 192, 193, 255, 256, 257, 319, 320, 321)
# what many cases must have: the zero nonce is the journal's to refuse
LOOKED_FOR = tuple(f"{name} of 0 with a zero nonce" for name in ("seal", "open", "seal2", "open2"))
# lines as long as the program's buffer for input, or about
FULL = (65534, 65535, 65536, 65537, 70000, 131071, 131072, 131073)


def digits(data):
    return data.hex() if data else "-"


def line(*words):
    return " ".join(w if isinstance(w, str) else str(w) if isinstance(w, int) else digits(w) for w in words).encode()


def flipped(rng, data):
    """One bit of one byte changed."""
    at = rng.randrange(len(data))
    return data[:at] + bytes([data[at] ^ 1 << rng.randrange(8)]) + data[at + 1:]


def some(rng, n):
    return rng.getrandbits(8 * n).to_bytes(n, "little") if n else b""


class Sealing:
    """A key, a nonce, data and a message, with the ciphertext and the tag that the judge gave."""

    def __init__(self, rng, data, message, nonce=None):
        self.key, self.nonce, self.data, self.message = some(rng, 16), some(rng, 16), some(rng, data), some(rng, message)
        self.nonce = self.nonce if nonce is None else nonce

    def line(self):
        return line("seal", self.key, self.nonce, self.data, self.message)

    def take(self, answer):
        number, text, tag = answer.decode().split(" ")
        assert number == "0", answer
        self.text, self.tag = bytes.fromhex(text.replace("-", "")), bytes.fromhex(tag)

    def good(self):
        """The four calls that must do their work."""
        n = len(self.message)
        yield self.line()
        yield line("open", self.key, self.nonce, self.data, self.text, self.tag)
        yield line("seal2", self.key, self.nonce, self.data, self.message, n)
        yield line("open2", self.key, self.nonce, self.data, self.text, self.tag, n)

    def opening(self, two, **changed):
        """The opening with some of its parts changed, in place or into a second buffer."""
        p = {"key": self.key, "nonce": self.nonce, "data": self.data, "text": self.text, "tag": self.tag, **changed}
        words = [p["key"], p["nonce"], p["data"], p["text"], p["tag"]]
        return line("open2", *words, len(p["text"])) if two else line("open", *words)

    def damaged(self, rng):
        """One damaged copy: a bit of one part, or a length."""
        parts = ["key", "nonce", "tag"] + (["data"] if self.data else []) + (["text"] if self.text else [])
        kind = rng.randrange(10)
        part = parts[kind % len(parts)] if kind < 8 else rng.choice(["data", "text"])
        value = getattr(self, part)
        if kind < 8:
            value = flipped(rng, value)
        elif len(value) == LIMIT or value and rng.randrange(2):
            value = value[:-1]
        else:
            value = value + b"\0"
        return self.opening(rng.randrange(2), **{part: value})

    def misfit(self, rng):
        """A second buffer of another length."""
        n = len(self.message)
        sizes = [s for s in (0, 1, n - 1, n + 1, n + 32, n // 2, rng.randrange(LIMIT + 1)) if 0 <= s <= LIMIT and s != n]
        size = rng.choice(sizes)
        if rng.randrange(2):
            return line("seal2", self.key, self.nonce, self.data, self.message, size)
        return line("open2", self.key, self.nonce, self.data, self.text, self.tag, size)


def changed_word(words, k, word):
    return words[:k] + [word] + words[k + 1:]


def malformed(rng, s):
    """A line that is no case, made of one that is."""
    words = rng.choice(list(s.good())).split(b" ")
    fields = range(1, 6 if words[0].startswith(b"open") else 5)
    fixed = [1, 2] + ([5] if words[0].startswith(b"open") else [])
    kind = rng.randrange(15)
    k = rng.choice(list(fields))
    if kind == 0:
        words = words[:-1]
    elif kind == 1:
        words = words + [rng.choice([b"-", b"00", b"0", b""])]
    elif kind == 2:
        words = changed_word(words, k, b"")
    elif kind == 3:
        k = rng.choice(fixed)
        words = changed_word(words, k, rng.choice([words[k][:-2], words[k] + b"00", b"-", words[k][:2]]))
    elif kind == 4:
        letters = [i for i, c in enumerate(words[1]) if c in b"abcdef"]
        if not letters:
            return b""
        i = rng.choice(letters)
        words = changed_word(words, 1, words[1][:i] + words[1][i:i + 1].upper() + words[1][i + 1:])
    elif kind == 5:
        words = changed_word(words, k, words[k][:-1] if len(words[k]) > 1 else b"0")
    elif kind in (6, 7):
        bad = rng.choice([b"g", b":", b"/", b"`", b"@", b"G", b"-", b"+", b"\0", b"\xff", b"\t", b"\r", b"\x0b"])
        i = rng.randrange(len(words[k]))
        if words[k][:i] + bad + words[k][i + 1:] == b"-":
            bad = b"g"
        words = changed_word(words, k, words[k][:i] + bad + words[k][i + 1:])
    elif kind == 8:
        words = changed_word(words, rng.choice([3, 4]), some(rng, LIMIT + rng.choice([1, 2, 100])).hex().encode())
    elif kind in (9, 10):
        words = line("seal2", s.key, s.nonce, s.data, s.message).split(b" ")
        words.append(rng.choice([b"4097", b"18446744073709551615", b"18446744073709551616", b"99999999999999999999", b"-1", b"+1", b"1x", b"0x1", b"-", b"", b"1.0", b"000000000000000000001"]))
    elif kind == 11:
        words = changed_word(words, 0, rng.choice([b"Seal", b"SEAL", b"seal3", b"sea", b"open22", b"ope", b"", b"?", b"-", b"write3", b"reads"]))
    elif kind == 12:
        return b""
    elif kind == 13:
        words = rng.choice([[b""] + words, words + [b""], words[:-1] + [words[-1] + b"\r"]])
    else:
        return rng.choice([b" ", b"?", b"seal", b"a" * rng.choice(FULL), b" ".join(words) + b" " * 66000])
    return b" ".join(words)


def random_cases(count, seed, ask):
    """`count` cases: the lengths of data and message go through all pairs around the blocks, in an order of the seed's.
    One nonce in eight is zero."""
    rng = random.Random(seed)
    pairs, made = [], 0
    while made < count:
        group = []
        for _ in range(min(200, (count - made + 11) // 12)):
            if not pairs:
                pairs = [(a, b) for a in LENGTHS for b in LENGTHS]
                rng.shuffle(pairs)
            nonce = None if rng.randrange(8) else ZERO
            if rng.randrange(50):
                group.append(Sealing(rng, *pairs.pop(), nonce))
            else:
                group.append(Sealing(rng, *rng.sample([rng.choice(LONGER), rng.choice(LENGTHS)], 2), nonce))
        for s, answer in zip(group, ask([s.line() for s in group])):
            s.take(answer)
        for s in group:
            cases = [(text, None) for text in s.good()]
            cases += [(s.damaged(rng), None) for _ in range(4)]
            cases += [(s.misfit(rng), None) for _ in range(2)]
            cases += [(malformed(rng, s), b"?") for _ in range(2)]
            for case in cases[:count - made]:
                made += 1
                yield case


def seen(batch, answers, ask):
    """How often a batch has each of what is looked for."""
    rows = [(case.split(b" "), answer.split(b" ")[0]) for case, answer in zip(batch, answers)]
    zero = digits(ZERO).encode()
    return collections.Counter(
        f"{words[0].decode()} of {number.decode()} with a zero nonce" for words, number in rows if words[2] == zero)


def vectors():
    """The vectors of tests/vectors.txt, which says where they are from."""
    for row in (pathlib.Path(__file__).parent / "vectors.txt").read_text().splitlines():
        if row and not row.startswith("#"):
            yield tuple(b"" if w == "-" else bytes.fromhex(w) for w in row.split(" "))


def fixed_cases(ask):
    """The list of crates/cases/stdin."""
    rng = random.Random(1280)
    for key, nonce, data, message, text, tag in vectors():
        yield line("seal", key, nonce, data, message), None
        yield line("open", key, nonce, data, text, tag), None
    edges = [Sealing(rng, a, b) for a in EDGES for b in EDGES]
    longer = [Sealing(rng, n, n) for n in LONGER if n <= 257] + [Sealing(rng, 1000, 0), Sealing(rng, 3, LIMIT), Sealing(rng, LIMIT, 1)]
    for s, answer in zip(edges + longer, ask([s.line() for s in edges + longer])):
        s.take(answer)
    for s in edges + longer:
        for text in s.good():
            yield text, None
    for s in (edges[0], edges[-1], edges[24]):
        for i in range(16):
            tag = s.tag[:i] + bytes([s.tag[i] ^ 1 << i % 8]) + s.tag[i + 1:]
            yield s.opening(i % 2, tag=tag), None
        for two in range(2):
            yield s.opening(two, key=flipped(rng, s.key)), None
            yield s.opening(two, nonce=flipped(rng, s.nonce)), None
            for part in ("data", "text"):
                value = getattr(s, part)
                if value:
                    yield s.opening(two, **{part: flipped(rng, value)}), None
                    yield s.opening(two, **{part: value[:-1]}), None
                yield s.opening(two, **{part: value + b"\0"}), None
    for s in (edges[0], edges[24], edges[-1]):
        n = len(s.message)
        for size in (0, 1, n - 1, n + 1, 100):
            if size >= 0 and size != n:
                yield line("seal2", s.key, s.nonce, s.data, s.message, size), None
                yield line("open2", s.key, s.nonce, s.data, s.text, s.tag, size), None
    yield from zero_nonces(ask)
    yield from refused_cases(edges[24])
    yield edges[8].line(), None


def zero_nonces(ask):
    """The cipher takes sixteen zero bytes as it takes any nonce: sealed, opened, and refused for a tag and a size."""
    rng = random.Random(22)
    sealings = [Sealing(rng, n, m, ZERO) for n, m in ((0, 0), (0, 20), (5, 20), (64, 256), (33, 1000))]
    for s, answer in zip(sealings, ask([s.line() for s in sealings])):
        s.take(answer)
        yield from ((text, None) for text in s.good())
        yield from ((s.opening(two, tag=flipped(rng, s.tag)), None) for two in range(2))
        yield line("seal2", s.key, s.nonce, s.data, s.message, len(s.message) + 1), None
        yield line("open2", s.key, s.nonce, s.data, s.text, s.tag, len(s.text) + 1), None


def refused_cases(s):
    """One line for each way to be no case."""
    key, nonce, data, text, tag = s.key.hex(), s.nonce.hex(), s.data.hex(), s.text.hex(), s.tag.hex()
    good = f"open {key} {nonce} {data} {text} {tag}"
    sized = f"seal2 {key} {nonce} {data} {text}"
    for row in (
        "", " ", "?", "seal", "Seal" + good[4:], "opens" + good[4:],
        good + " ", good + " -", " " + good, good.replace(" ", "  ", 1), f"open {key} {nonce} {data} {text}",
        f"open {key[:-2]} {nonce} {data} {text} {tag}", f"open {key} {nonce}00 {data} {text} {tag}", f"open {key} {nonce} {data} {text} {tag[2:]}",
        f"open - {nonce} {data} {text} {tag}", f"open {key} - {data} {text} {tag}", f"open {key} {nonce} {data} {text} -",
        f"open {key.translate(UPPER)} {nonce} {data} {text} {tag}", f"open {key} {nonce} {data.translate(UPPER)} {text} {tag}",
        f"open {key} {nonce} {data[:-1]} {text} {tag}", f"open {key} {nonce} {data} {text}0 {tag}", f"open {key} {nonce} {data} {text[:-1]}g {tag}",
        f"open {key} {nonce}  {text} {tag}", f"open {key} {nonce} -- {text} {tag}", f"open {key} {nonce} {data} {text} {tag}\r",
        f"seal {key} {nonce} {data} {'00' * (LIMIT + 1)}",
        sized + " 4097", sized + " 18446744073709551616", sized + " -1", sized + " +1", sized + " 1x", sized + " -", sized + " ", sized + " " + "0" * 21,
    ):
        yield row.encode(), b"?"


UPPER = str.maketrans("abcdef", "ABCDEF")
