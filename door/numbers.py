"""Numbers of a fleet file. Each is a binary32 and is handled as its word, the 32 bits: those alone say all of it, the
sign of a zero and the payload of a NaN too.
"""
import math
import re
import struct
from decimal import Decimal

NAMED = {"nan": 0x7FC00000, "inf": 0x7F800000, "+inf": 0x7F800000, "-inf": 0xFF800000}
# six digits of an exponent are enough for 0 and for what is too large
DECIMAL = re.compile(r"[+-]?([0-9]+\.?[0-9]*|\.[0-9]+)([eE][+-]?[0-9]{1,6})?")
BITS = re.compile(r"0x[0-9a-fA-F]{1,8}")
WHOLE = re.compile(r"[0-9]{1,10}")


def value(word):
    """The number that a word is."""
    return struct.unpack("<f", struct.pack("<I", word))[0]


def is_finite(word):
    return math.isfinite(value(word))


def rounded(number):
    """The word of the binary32 that is nearest to a binary64; OverflowError where that is beyond the last one."""
    return struct.unpack("<I", struct.pack("<f", number))[0]


def word(text):
    """The word of a number: a decimal one, `nan`, `inf`, `-inf`, or the bits of one, as 0x7f7fffff."""
    if text in NAMED:
        return NAMED[text]
    if BITS.fullmatch(text):
        return int(text, 16)
    if not DECIMAL.fullmatch(text):
        raise ValueError(f"{text!r} is no number: write a decimal one, nan, inf, -inf, or its bits as 0x3f800000")
    try:
        return rounded(_once(text))
    except OverflowError:
        raise ValueError(f"{text} is beyond the last binary32; inf is the word for the infinity") from None


def _once(text):
    """A binary64 that rounds to the binary32 that the decimal number rounds to.

    The nearest binary64 may not: it can lie half way between two binary32 where the decimal number does not. What lies
    half way is even in binary64, so its neighbour on the decimal number's side, which is odd, does.
    """
    near, exact = float(text), Decimal(text)
    is_odd = struct.pack("<d", near)[0] & 1
    if exact == near or is_odd:
        return near
    return math.nextafter(near, math.inf if near < exact else -math.inf)


def whole_word(text):
    """The word of a whole number, decimal or as 0x1."""
    if BITS.fullmatch(text):
        return int(text, 16)
    if WHOLE.fullmatch(text) and int(text) < 2 ** 32:
        return int(text)
    raise ValueError(f"{text!r} is no whole number from 0 to 4294967295")


def shortest(number):
    """The shortest text that `word` reads as this very word: decimal, but for NaNs other than the usual one."""
    if not is_finite(number):
        return next((name for name, named in NAMED.items() if named == number), f"0x{number:08x}")
    # nine digits tell every binary32 from its neighbours
    rounded_decimals = (float(f"{value(number):.{count}g}") for count in range(1, 10))
    return next(_plain(near) for near in rounded_decimals if _is_read_as(_plain(near), number))


def _is_read_as(text, number):
    try:
        return word(text) == number
    except ValueError:
        # rounded up beyond the last number
        return False


def _plain(number):
    """Python's own digits, without a fraction that is none."""
    text = repr(number)
    return text[:-2] if text.endswith(".0") else text


def digits(number):
    """The 8 hex digits of a word, as the programs print them."""
    return f"{number:08x}"
