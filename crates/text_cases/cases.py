#!/usr/bin/env python3
"""Writes stdin (the cases) and stdout (each case with its answer) beside this file.

The answers are Python's own: its strict UTF-8 decoder, its order and equality of bytes, its string tests; the steps of
a comparison are counted one by one. None comes from the code under test. src/main.rt says what each letter asks."""
import pathlib
import re

HERE = pathlib.Path(__file__).parent
cases = []


def case(line, answer=""):
    cases.append((line, line + answer))


def yes(b):
    return " yes" if b else " no"


def decodes(b):
    try:
        b.decode("utf-8")
        return True
    except UnicodeDecodeError:
        return False


def utf8(*texts):
    for h in texts:
        case("u " + h, yes(decodes(bytes.fromhex(h))))


def leads(*tails):
    for h in tails:
        row = "".join("1" if decodes(bytes([x]) + bytes.fromhex(h)) else "0" for x in range(256))
        case("l " + h, " " + row)


def hashes(*texts):
    for s in texts:
        case("h " + s, yes(re.fullmatch("[0-9a-f]{64}", s) is not None))


def sign(a, b):
    return "<" if a < b else "=" if a == b else ">"


def steps(a, b):
    """One for each eight bytes where both have eight left, or else for each byte, up to and with the first that differ."""
    count = 0
    while a and b:
        taken = 8 if len(a) >= 8 and len(b) >= 8 else 1
        count += 1
        if a[:taken] != b[:taken]:
            break
        a, b = a[taken:], b[taken:]
    return count


def order(*pairs):
    word = {"<": "less", "=": "equal", ">": "greater"}
    for a, b in pairs:
        x, y = a.encode(), b.encode()
        case(f"c {a} {b}", f" {word[sign(x, y)]} {steps(x, y)}")


SMALLER = bytes([0x7F, 0x00, 0xFE] * 8)
LARGER = bytes([0x80, 0xFF, 0xFF] * 8)


def places(n, m):
    """Two texts that first differ at each place in turn, and after it in each byte the contrary way; then no difference."""
    row = ""
    for d in range(min(n, m)):
        less = SMALLER[:d + 1] + LARGER[d + 1:]
        more = SMALLER[:d] + LARGER[d:d + 1] + SMALLER[d + 1:]
        for a, b in ((less[:n], more[:m]), (more[:n], less[:m])):
            row += sign(a, b) + str(steps(a, b))
    a, b = SMALLER[:n], SMALLER[:m]
    case(f"w {n:0>2} {m:0>2}", f" {row}{sign(a, b)}{steps(a, b)}")


case("# the empty text, and examples of RFC 3629, section 7")
utf8("", "41E289A2CE912E", "ED959CEAB5ADEC96B4", "E697A5E69CACE8AA9E", "EFBBBFF0A38EB4")
case("# first and last of each length: U+0000, 7F, 80, 7FF, 800, D7FF, E000, FFFF, 10000, 10FFFF")
utf8(*(chr(c).encode().hex().upper() for c in (0, 0x7F, 0x80, 0x7FF, 0x800, 0xD7FF, 0xE000, 0xFFFF, 0x10000, 0x10FFFF)))
case("# overlong forms")
utf8("C080", "C1BF", "E08080", "E09FBF", "F0808080", "F08FBFBF", "F880808080", "FC8080808080")
case("# surrogates")
utf8("ED9FBF", "EDA080", "EDAFBF", "EDB080", "EDBFBF", "EE8080", "EDA080EDB080")
case("# past U+10FFFF")
utf8("F48FBFBF", "F4908080", "F4BFBFBF", "F5808080", "F7BFBFBF", "FF", "FE")
case("# cut sequences, and a tail that is none")
utf8("C2", "E0", "E0A0", "E1", "E180", "ED", "ED80", "F0", "F090", "F09080", "F1", "F180", "F18080", "F4", "F480", "F48080")
utf8("41C2", "C241", "E0A041", "E180C0", "F0908041", "F09080C0", "80", "BF", "4180", "C2807F80", "C28080")
case("# every lead byte alone, and before tails at the bounds of the table")
leads("", "7F", "80", "8F", "90", "9F", "A0", "BF", "C0")
leads("7F80", "8080", "8F80", "9080", "9F80", "A080", "BF80", "C080", "807F", "80C0", "BFBF", "9F7F", "A0BF")
leads("7F8080", "808080", "8F8080", "908080", "9F8080", "A08080", "BF8080", "C08080", "8FBFBF", "90BFBF", "BFBFBF")
leads("807F80", "80807F", "80C080", "8080C0", "A08041")

H = "0123456789abcdef" * 4
case("# hashes: 64 digits; 63, 65 and none; an A, a g, and the bytes beside the digits")
hashes(H, "0" * 64, "f" * 64, H[:63], H + "0", "", H[:63] + "A", "A" + H[1:], H[:63] + "F", H[:63] + "g")
hashes(H[:31] + "G" + H[32:], H[:63] + "/", H[:63] + ":", H[:63] + "`", H[:63] + "@", H[:32] + " " + H[33:])

S = H[:16]
case("# order: the first byte that differs, a prefix before what it begins, never by length first")
order(("", ""), ("", "a"), ("a", ""), ("a", "a"), ("a", "b"), ("b", "a"), ("b", "aa"), ("aa", "b"), ("ab", "abc"))
order(("abc", "ab"), ("abc", "abd"), ("lease-10", "lease-9"), ("lease-9", "lease-10"), ("Z", "a"), ("z", "\u00e9"))
order(("\u00e9", "z"), ("\uffff", "\U00010000"), (S + S, S + S), (S + S[:15] + "X", S + S), (S, S + "0"))
order((S + "x", S + "0"), (S[:15], S), (S + S + "0", S + S), (S[:15] + "g", S + "0"))

K = "site-7/line-12/controller-3/" + "build-" * 12
case("# steps: 128 equal bytes, a difference in byte 3, keys that share a hundred bytes, and a prefix")
order((H + H, H + H), ("abcdefgh", "abcxefgh"), (K + "-alpha", K + "-beta"), (K + "-beta.0", K + "-alpha.1"))
order((K + "-beta", K + "-beta.zip"), (K + "-beta.zip", K + "-beta"), (K + "-beta.1", K + "-beta.2"), ("", K))
case("# a difference in each word of 128 bytes, after which each byte says the contrary")
for word in range(16):
    d = 8 * word + word % 8
    order((H + H, (H + H)[:d] + "!" + "~" * (127 - d)))

case("# one byte less and more than a run of thirty-two, and than two of them")
for n in (31, 32, 33, 63, 64, 65):
    T = (H + H)[:n]
    order((T, T), (T, T[:-1] + "!"), (T[:-1], T), (T + "!", T))

case("# every length from 0 to 24 on both sides, and every place of the first difference")
for n in range(25):
    for m in range(25):
        places(n, m)

case("# equality, first bytes, last byte")
for a, b in [("", ""), ("", "a"), ("a", ""), ("abc", "abc"), ("abc", "abd"), ("xbc", "abc"), ("ab", "abc"),
             (S + S + "!", S + S + "!"), (S + S + "!", S + S + "?"), (S + "!", "?" + S[1:] + "!")]:
    case(f"s {a} {b}", yes(a == b))
for a, b in [("", ""), ("a", ""), ("", "a"), ("abc", "abc"), ("abc", "ab"), ("abc", "ac"), ("ab", "abc"),
             ("space/key", "space/"), ("space/", "space/"), ("spacekey", "space/")]:
    case(f"p {a} {b}", yes(a.startswith(b)))
for a, b in [("", "/"), ("/", "/"), ("a", "/"), ("space/", "/"), ("space/a", "/"), ("/a", "/")]:
    case(f"e {a} {b}", yes(a.endswith(b)))

for name, column in (("stdin", 0), ("stdout", 1)):
    (HERE / name).write_text("".join(c[column] + "\n" for c in cases), encoding="utf-8")
