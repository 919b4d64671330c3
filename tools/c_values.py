#!/usr/bin/env python3
"""Writes values.c: integer expressions, compound assignments and small programs, each with the value that gcc gives.

    python3 tools/c_values.py > crates/show_typed/data/values.c

Candidates are made from a fixed seed. gcc compiles each one with -fsanitize=undefined, and one in which a step is
undefined is left out. The last row is false, so that a run which comes to it has found every other one true.
"""
import random
import subprocess
import tempfile

TYPES = {
    "bool": (0, 1), "int8_t": (-128, 127), "uint8_t": (0, 255), "int16_t": (-32768, 32767), "uint16_t": (0, 65535),
    "int": (-2**31, 2**31 - 1), "unsigned": (0, 2**32 - 1), "long": (-2**63, 2**63 - 1), "unsigned long": (0, 2**64 - 1),
    "char": (-128, 127), "short": (-32768, 32767), "unsigned char": (0, 255), "unsigned short": (0, 65535),
}
BINARY = ["+", "-", "*", "/", "%", "&", "|", "^", "<<", ">>", "==", "!=", "<", "<=", ">", ">=", "&&", "||"]
COMPOUND = ["+=", "-=", "*=", "/=", "%=", "&=", "|=", "^=", "<<=", ">>="]
KINDS = {"i": ("", "%d"), "u": ("u", "%u"), "l": ("l", "%ld"), "U": ("ul", "%lu")}
HEAD = "#include <assert.h>\n#include <stdbool.h>\n#include <stdint.h>\n"


def literal(n, ty):
    lo, hi = TYPES[ty]
    suffix = "ul" if ty == "unsigned long" else "l" if ty == "long" else "u" if ty == "unsigned" else ""
    if n == -2**63:
        return "(-9223372036854775807l - 1)"
    if n == -2**31 and ty == "int":
        return "(-2147483647 - 1)"
    return f"{n}{suffix}" if n >= 0 else f"(-{-n}{suffix})"


def value(rng, ty, shift=False):
    lo, hi = TYPES[ty]
    if shift:
        return rng.choice([0, 1, 3, 7, 8, 15, 31, 33])if hi >= 33 else rng.choice([0, 1])
    pick = [lo, hi, 0, 1, hi // 2, rng.randint(lo, hi), rng.randint(max(lo, -20), min(hi, 20)), rng.randint(max(lo, -20), min(hi, 20))]
    if lo < 0:
        pick += [-1, lo + 1]
    return rng.choice(pick)


def candidates():
    rng = random.Random(1999)
    names = list(TYPES)
    for op in BINARY:
        for k in range(9):
            a, b = rng.choice(names), rng.choice(names)
            x, y = value(rng, a), value(rng, b, op in ("<<", ">>"))
            yield f"{a} a = {literal(x, a)}; {b} b = {literal(y, b)};", f"a {op} b"
    for op in ["-", "~", "!", "+"]:
        for k in range(5):
            a = rng.choice(names)
            yield f"{a} a = {literal(value(rng, a), a)};", f"{op}a"
    for k in range(14):
        a, b = rng.choice(names), rng.choice(names)
        yield f"{a} a = {literal(value(rng, a), a)};", f"({b})a"
    for k in range(10):
        a, b, c = rng.choice(names), rng.choice(names), rng.choice(names)
        yield f"{a} a = {literal(value(rng, a), a)}; {b} b = {literal(value(rng, b), b)}; {c} c = {literal(value(rng, c), c)};", "a ? b : c"
    for op in COMPOUND:
        for k in range(6):
            a, b = rng.choice(names), rng.choice(names)
            x, y = value(rng, a), value(rng, b, op in ("<<=", ">>="))
            yield f"{a} a = {literal(x, a)}; {b} b = {literal(y, b)}; a {op} b;", "a"
    for op in ["++", "--"]:
        for k in range(5):
            a = rng.choice(names)
            yield f"{a} a = {literal(value(rng, a), a)}; " + (f"a{op};" if k % 2 else f"{op}a;"), "a"


def told(setup, expression):
    """What gcc gives, as a literal of the expression's own type, or None where a step is undefined."""
    with tempfile.TemporaryDirectory() as at:
        with open(f"{at}/t.c", "w") as out:
            out.write("#include <stdio.h>\n" + HEAD + "int main(void) { " + setup + f"""
  switch (_Generic(({expression}) + 0, int: 0, unsigned: 1, long: 2, unsigned long: 3)) {{
  case 0: printf("i %ld", (long)({expression})); break;
  case 1: printf("u %lu", (unsigned long)({expression})); break;
  case 2: printf("l %ld", (long)({expression})); break;
  case 3: printf("U %lu", (unsigned long)({expression})); break;
  }} return 0; }}
""")
        made = subprocess.run(["gcc", "-w", "-O0", "-fsanitize=undefined", "-fno-sanitize-recover=all", "-o", f"{at}/t", f"{at}/t.c"], capture_output=True, text=True)
        if made.returncode:
            raise SystemExit(made.stderr)
        run = subprocess.run([f"{at}/t"], capture_output=True, text=True)
        if run.returncode:
            return None
        kind, number = run.stdout.split()
        ty = {"i": "int", "u": "unsigned", "l": "long", "U": "unsigned long"}[kind]
        return ty, literal(int(number), ty)


PROGRAMS = r"""
static int gcd(int a, int b) {
  while (b != 0) {
    int r = a % b;
    a = b;
    b = r;
  }
  return a;
}
static unsigned bits(unsigned n) {
  unsigned count = 0;
  for (; n != 0; n &= n - 1)
    count++;
  return count;
}
static int fib(int n) {
  int a = 0;
  int b = 1;
  do {
    int c = a + b;
    a = b;
    b = c;
    n--;
  } while (n > 0);
  return a;
}
static long factorial(int n) {
  long rest;
  if (n < 2)
    return 1;
  rest = factorial(n - 1);
  return n * rest;
}
static uint8_t crc(uint8_t byte) {
  uint8_t c = byte;
  for (int i = 0; i < 8; i++)
    c = c & 0x80 ? (c << 1) ^ 0x07 : c << 1;
  return c;
}
static int days(int month) {
  switch (month) {
  case 2:
    return 28;
  case 4: case 6: case 9: case 11:
    return 30;
  default:
    return 31;
  }
}
static int falls(int n) {
  int sum = 0;
  switch (n) {
  case 1:
    sum += 1;
  case 2:
    sum += 10;
    break;
  case 3:
    sum += 100;
  default:
    sum += 1000;
  }
  return sum;
}
static int primes(int below) {
  bool out[50] = { true, true };
  int count = 0;
  for (int i = 2; i < below; i++) {
    if (out[i])
      continue;
    count++;
    for (int k = i * i; k < below; k += i)
      out[k] = true;
  }
  return count;
}
static int sorted(int k) {
  int t[6] = { 5, -3, 12, 0, 7, 1 };
  for (int i = 0; i < 6; i++)
    for (int j = 0; j + 1 < 6 - i; j++)
      if (t[j] > t[j + 1]) {
        int old = t[j];
        t[j] = t[j + 1];
        t[j + 1] = old;
      }
  return t[k];
}
static unsigned root(unsigned n) {
  unsigned r = 0;
  while (true) {
    if ((r + 1) * (r + 1) > n)
      break;
    r++;
  }
  return r;
}
static int steps(unsigned long n) {
  int k = 0;
  for (; n != 1; k++)
    n = n % 2 == 0 ? n / 2 : 3 * n + 1;
  return k;
}
static uint16_t lfsr(uint16_t s, int n) {
  for (; n > 0; n--)
    s = (s >> 1) ^ (s & 1 ? 0xb400u : 0u);
  return s;
}
static int total;
static void add(int n) {
  total += n;
}
static int shadows(int n) {
  {
    int n = 3;
    add(n);
  }
  add(n);
  return total;
}
static int8_t wraps(int n) {
  return n;
}
"""
CALLS = ["gcd(84, 36)", "gcd(17, 5)", "bits(0xf0f1u)", "bits(4294967295u)", "fib(10)", "fib(20)", "factorial(5)", "factorial(15)", "crc(1)", "crc(0xc3)",
    "days(2)", "days(9)", "days(12)", "falls(1)", "falls(2)", "falls(3)", "falls(4)", "primes(50)", "sorted(0)", "sorted(3)", "sorted(5)", "root(99)", "root(100)",
    "steps(7)", "steps(9)", "lfsr(0xace1, 5)", "lfsr(1, 16)", "shadows(4)", "wraps(200)", "wraps(-129)"]


def called(call):
    with tempfile.TemporaryDirectory() as at:
        with open(f"{at}/t.c", "w") as out:
            out.write("#include <stdio.h>\n" + HEAD + PROGRAMS + f'int main(void) {{ printf("%ld", (long){call}); return 0; }}\n')
        subprocess.run(["gcc", "-w", "-fsanitize=undefined", "-fno-sanitize-recover=all", "-o", f"{at}/t", f"{at}/t.c"], check=True)
        return subprocess.run([f"{at}/t"], capture_output=True, text=True, check=True).stdout


def main():
    rows, seen = [], set()
    for setup, expression in candidates():
        if (setup, expression) in seen:
            continue
        seen.add((setup, expression))
        made = told(setup, expression)
        if made:
            ty, lit = made
            negative = "< 0" if ty in ("int", "long") else "> 0"
            rows.append(f"  {{ {setup} assert(({expression}) == {lit}); assert(({expression}) * 0 - 1 {negative}); }}" if expression != "a" else f"  {{ {setup} assert(a == {lit}); }}")
    for k, call in enumerate(CALLS):
        n = called(call)
        rows.append(f"  {{ long n = {call}; assert(n == {n}); }}")
    print("//// run: expressions, updates and small programs, with the values that gcc gives; the last assertion is false")
    print(HEAD.rstrip())
    print(PROGRAMS.strip())
    print("int main(void) {")
    print("\n".join(rows))
    print("  assert(false);\n  return 0;\n}")


main()
