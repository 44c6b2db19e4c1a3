#!/usr/bin/env python3
"""Prints the table of expected results of C's operators at the ends of each integer type's range.

The results come from plain integer arithmetic and the C standard's rules. The table is kept in
crates/front_rows/src/tests/operator_rows.rt:

    scripts/operator_rows.py > crates/front_rows/src/tests/operator_rows.rt
"""

TYPES = [(1, False), (8, True), (8, True), (8, False), (16, True), (16, False),
         (32, True), (32, False), (64, True), (64, False)]


class Trap(Exception):
    pass


def ends(bits, signed):
    return (-2 ** (bits - 1), 2 ** (bits - 1) - 1) if signed else (0, 2 ** bits - 1)


def converted(bits, signed, number):
    if bits == 1:
        return int(number != 0)
    number %= 2 ** bits
    return number - 2 ** bits if signed and number >= 2 ** (bits - 1) else number


def settled(bits, signed, number):
    low, high = ends(bits, signed)
    if not signed:
        return converted(bits, signed, number)
    if not low <= number <= high:
        raise Trap("overflow")
    return number


def quotient(a, b):
    if b == 0:
        raise Trap("zero")
    magnitude = abs(a) // abs(b)
    return magnitude if (a < 0) == (b < 0) else -magnitude


def remainder(kind, a, b):
    settled(*kind, quotient(a, b))
    return a - b * quotient(a, b)


def checked(kind, count):
    if not 0 <= count < kind[0]:
        raise Trap("shift")
    return count


def shifted(kind, a, count):
    checked(kind, count)
    if a < 0:
        raise Trap("overflow")
    return settled(*kind, a * 2 ** count)


OPERATORS = [
    lambda kind, a, b, count: settled(*kind, a * b),
    lambda kind, a, b, count: settled(*kind, quotient(a, b)),
    lambda kind, a, b, count: settled(*kind, remainder(kind, a, b)),
    lambda kind, a, b, count: settled(*kind, a + b),
    lambda kind, a, b, count: settled(*kind, a - b),
    lambda kind, a, b, count: shifted(kind, a, count),
    lambda kind, a, b, count: settled(*kind, a // 2 ** checked(kind, count)),
    lambda kind, a, b, count: int(a < b),
    lambda kind, a, b, count: int(a > b),
    lambda kind, a, b, count: int(a <= b),
    lambda kind, a, b, count: int(a >= b),
    lambda kind, a, b, count: int(a == b),
    lambda kind, a, b, count: int(a != b),
    lambda kind, a, b, count: settled(*kind, a & b),
    lambda kind, a, b, count: settled(*kind, a ^ b),
    lambda kind, a, b, count: settled(*kind, a | b),
]

SIGNS = [
    lambda kind, a: settled(*kind, -a),
    lambda kind, a: settled(*kind, ~a),
]


def answer(operator, *operands):
    try:
        return str(operator(*operands))
    except Trap as trap:
        return str(trap)


def pairs(kind):
    low, high = ends(*kind)
    last = kind[0] - 1
    return [(low, low), (low, high), (high, low), (high, high), (low, -1), (high, -1), (low, 1),
            (high, 1), (high, 0), (1, last), (1, last + 1), (low, last), (high - 1, high),
            (high + 1, low - 1), (-2 ** 63, 2 ** 64 - 1)]


def numbers(kind):
    low, high = ends(*kind)
    return [low, low + 1, -1, 0, 1, high - 1, high, high + 1, -2 ** 63, 2 ** 64 - 1]


def in_reach(*values):
    return all(-2 ** 63 <= value < 2 ** 64 for value in values)


def row(words):
    return " ".join(map(str, words))


def print_table(name, meaning, rows):
    print(f"\n/// {meaning}\npub const {name}: &str = \"\\\n" + "\n".join(rows) + "\n\";")


def main():
    print("//! Expected results of operators, as `scripts/operator_rows.py` prints them.")
    twos, ones = [], []
    for code, kind in enumerate(TYPES):
        for a, b in dict.fromkeys(pairs(kind)):
            if in_reach(a, b):
                left, right = converted(*kind, a), converted(*kind, b)
                answers = [answer(operator, kind, left, right, b) for operator in OPERATORS]
                twos.append(row([code, a, b] + answers))
        for a in dict.fromkeys(numbers(kind)):
            if in_reach(a):
                operand = converted(*kind, a)
                ones.append(row([code, a] + [answer(operator, kind, operand) for operator in SIGNS]))
    print_table("BINARY", "The code of a type, two operands, and what the sixteen operators give, in order.", twos)
    print_table("UNARY", "The code of a type, an operand, and what the two operators give, in order.", ones)


main()
