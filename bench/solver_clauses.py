#!/usr/bin/env python3
"""Writes clauses in the DIMACS form, on the standard output.

multiplier N    a * b == b * a, the low N bits, negated
comm N          a * b == b * a, all 2 N bits, negated
assoc N         (a + b) + c == a + (b + c) at N bits, negated
pipe N          a byte to which 1 to N are added in turn, made twice, negated
gray N          a word of N bits, to Gray's code and back, is itself, negated
pigeons N       N + 1 pigeons, N holes
random N SEED   N variables, 4.26 N clauses of three literals
long N          N variables in one clause"""
import random
import sys


class Clauses:
    def __init__(self):
        self.vars = 0
        self.rows = []

    def fresh(self):
        self.vars += 1
        return self.vars

    def add(self, *row):
        self.rows.append(row)

    def both(self, a, b):
        out = self.fresh()
        self.add(-out, a)
        self.add(-out, b)
        self.add(out, -a, -b)
        return out

    def differ(self, a, b):
        out = self.fresh()
        self.add(-out, a, b)
        self.add(-out, -a, -b)
        self.add(out, -a, b)
        self.add(out, a, -b)
        return out

    def either(self, a, b):
        return -self.both(-a, -b)


def product(c, a, b):
    """The low bits of a product, by adding shifted rows."""
    n = len(a)
    total = [c.both(a[0], x) for x in b]
    for i in range(1, n):
        row = [c.both(a[i], x) for x in b[: n - i]]
        carry = None
        for j, bit in enumerate(row):
            at = i + j
            half = c.differ(total[at], bit)
            made = c.both(total[at], bit)
            if carry is None:
                total[at], carry = half, made
            else:
                more = c.both(half, carry)
                total[at] = c.differ(half, carry)
                carry = c.either(made, more)
    return total


def multiplier(n):
    c = Clauses()
    a = [c.fresh() for _ in range(n)]
    b = [c.fresh() for _ in range(n)]
    c.add(*[c.differ(x, y) for x, y in zip(product(c, a, b), product(c, b, a))])
    return c


def added(c, a, b):
    """The sum without its last carry, by full adders."""
    out, carry = [], None
    for x, y in zip(a, b):
        half, made = c.differ(x, y), c.both(x, y)
        if carry is None:
            out.append(half)
            carry = made
        else:
            out.append(c.differ(half, carry))
            carry = c.either(made, c.both(half, carry))
    return out


def whole_product(c, a, b):
    """All bits of a product, by adding shifted rows."""
    n = len(a)
    total = [c.both(a[0], x) for x in b]
    for i in range(1, n):
        row = [c.both(a[i], x) for x in b]
        carry = None
        for j, bit in enumerate(row):
            at = i + j
            if at == len(total):
                total.append(None)
            if total[at] is None:
                total[at], carry = c.differ(bit, carry), c.both(bit, carry)
                continue
            half, made = c.differ(total[at], bit), c.both(total[at], bit)
            if carry is None:
                total[at], carry = half, made
            else:
                more = c.both(half, carry)
                total[at] = c.differ(half, carry)
                carry = c.either(made, more)
        total.append(carry)
    return total


def unequal(c, left, right):
    c.add(*[c.differ(x, y) for x, y in zip(left, right)])
    return c


def word(c, n):
    return [c.fresh() for _ in range(n)]


def comm(n):
    c = Clauses()
    a, b = word(c, n), word(c, n)
    return unequal(c, whole_product(c, a, b), whole_product(c, b, a))


def assoc(n):
    c = Clauses()
    x, y, z = word(c, n), word(c, n), word(c, n)
    return unequal(c, added(c, added(c, x, y), z), added(c, x, added(c, y, z)))


def constant(c, value, n):
    bits = word(c, n)
    for i, bit in enumerate(bits):
        c.add(bit if value >> i & 1 else -bit)
    return bits


def pipe(n):
    c = Clauses()
    left = right = word(c, 8)
    for i in range(1, n + 1):
        left = added(c, left, constant(c, i, 8))
        right = added(c, constant(c, i, 8), right)
    return unequal(c, left, right)


def gray(n):
    c = Clauses()
    bits = word(c, n)
    code = [c.differ(x, y) for x, y in zip(bits, bits[1:])] + bits[-1:]
    shift = 1
    while shift < n:
        code = [c.differ(x, y) for x, y in zip(code, code[shift:])] + code[n - shift:]
        shift *= 2
    return unequal(c, bits, code)


def long(n):
    c = Clauses()
    c.add(*word(c, n))
    return c


def pigeons(n):
    c = Clauses()
    at = [[c.fresh() for _ in range(n)] for _ in range(n + 1)]
    for row in at:
        c.add(*row)
    for hole in range(n):
        for p in range(n + 1):
            for q in range(p):
                c.add(-at[p][hole], -at[q][hole])
    return c


def random_clauses(n, seed):
    c = Clauses()
    c.vars = n
    r = random.Random(seed)
    for _ in range(round(4.26 * n)):
        c.add(*[v * r.choice((1, -1)) for v in r.sample(range(1, n + 1), 3)])
    return c


MAKERS = {
    "multiplier": multiplier,
    "comm": comm,
    "assoc": assoc,
    "pipe": pipe,
    "gray": gray,
    "pigeons": pigeons,
    "random": random_clauses,
    "long": long,
}


def main():
    c = MAKERS[sys.argv[1]](*[int(word) for word in sys.argv[2:]])
    print("p cnf", c.vars, len(c.rows))
    for row in c.rows:
        print(*row, 0)


main()
