"""Inputs for the program `seal`: key lines, and lines of words, good, wrong in each way, too long, and random. Of ten
nonces one is zero, and one has one byte that is not.

The same seed gives the same inputs. No line says what is right: the Rust program beside `seal` does.
"""
import collections
import random

from make_cases import ZERO
from make_journals import one_byte, some_lone

KEYS = [b"00112233445566778899aabbccddeeff\n"] * 50 + [
    b"00112233445566778899aabbccddeefF\n", b"00112233445566778899aabbccddeef\n", b"00112233445566778899aabbccddeeff0\n",
    b"00112233445566778899aabbccddeeff", b"\n", b"",
]
# lines as long as the program's buffer for input, or about
FULL = (65534, 65535, 65536, 65537, 131071, 131072, 131073)
# what many lines must have
LOOKED_FOR = ("22", "8 or 10 with a zero nonce", "sealed line with one nonce byte")


def word(rng, sizes):
    """Mostly a good word of one of the sizes; otherwise nothing, none, a bad digit, an odd number, or another size."""
    kind = rng.randrange(30)
    digits = rng.randbytes(rng.choice(sizes)).hex().encode()
    if kind == 0:
        return b""
    if kind == 1:
        return b"-"
    if kind == 2 and digits:
        at = rng.randrange(len(digits))
        return digits[:at] + bytes([rng.choice(b"gG:/`@-+\0\xff\t\rA")]) + digits[at + 1:]
    if kind == 3:
        return digits[:-1]
    if kind == 4:
        return digits + b"0"
    if kind == 5:
        return rng.randbytes(rng.choice((0, 1, 15, 17, 63, 64, 65, 255, 256, 257, 1000))).hex().encode()
    return digits


def nonce_word(rng):
    kind = rng.randrange(10)
    return word(rng, (16,)) if kind > 1 else (some_lone(rng) if kind else ZERO).hex().encode()


def line(rng):
    kind = rng.randrange(40)
    if kind == 0:
        return b" " * rng.randrange(6)
    if kind == 1:
        return rng.randbytes(rng.randrange(60)).replace(b"\n", b"")
    if kind == 2 and rng.randrange(20) == 0:
        return b"0" * rng.choice(FULL)
    words = [nonce_word(rng), word(rng, (0, 1, 5, 63, 64)), word(rng, (0, 1, 20, 255, 256))]
    if kind == 5:
        return b" ".join([ZERO.hex().encode(), word(rng, (5, 64, 65, 100)), word(rng, (20, 256, 257, 300))])
    if kind == 3:
        return b" ".join(words[:2])
    if kind == 4:
        words.insert(rng.randrange(4), rng.choice((b"", b"-", b"00")))
    return b" ".join(words)


def inputs(count, seed):
    """Whole inputs, of `count` lines in all, with how many lines each has; some end without a newline."""
    rng = random.Random(seed)
    while count > 0:
        n = min(count, rng.choice((0, 1, 5, 200, 2000)))
        lines = [line(rng) for _ in range(n)]
        yield rng.choice(KEYS) + b"\n".join(lines) + rng.choice((b"", b"\n")), n
        count -= n


def of_line(text, why):
    """What a line has of all that is looked for; `why` is what was said of it, nothing where it was sealed."""
    digits = text.split(b" ")[0]
    if why.endswith(b"(22)"):
        return "22"
    if digits == ZERO.hex().encode() and why.endswith((b"(8)", b"(10)")):
        return "8 or 10 with a zero nonce"
    return "sealed line with one nonce byte" if not why and one_byte(bytes.fromhex(digits.decode())) else ""


def seen(given, told):
    """What each line of an input has of all that is looked for, none behind a bad key, and how often; `told` is the
    standard error."""
    if told[0] == b"bad key":
        return collections.Counter()
    why = {int(row.split(b":")[0].split(b" ")[1]): row for row in told if row}
    lines = given.split(b"\n")[1:]
    lines = lines if lines[-1] else lines[:-1]
    return collections.Counter(of_line(text, why.get(i, b"")) for i, text in enumerate(lines, 2))
