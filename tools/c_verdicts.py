#!/usr/bin/env python3
"""Compares the verdicts of hwcbmc on small C programs with what gcc makes of them, choice by choice.

    python3 tools/c_verdicts.py [COUNT [SEED]]

Each program has two `unsigned char` objects that are left open, so 65,536 runs. It is written twice: as it is, for hwcbmc,
and for gcc with each check of the profile written out, as a program that carries out all runs and prints the properties
that some run breaks. A success has to come exactly where there is none, and the property that is told has to be one of
them. A program that differs is printed, and the status is 1.
"""
import os
import random
import subprocess
import sys
import tempfile

TOP = os.path.dirname(os.path.dirname(os.path.abspath(__file__)))
TURNS = 3
TYPES = {
    "unsigned char": (8, False), "signed char": (8, True), "short": (16, True), "unsigned short": (16, False),
    "int": (32, True), "unsigned": (32, False), "long": (64, True), "unsigned long": (64, False), "_Bool": (1, False),
}
INT = (32, True)
HEAD = r"""
#include <setjmp.h>
#include <stdio.h>
static jmp_buf way; static unsigned char broken[1000];
#define BREAK(id) longjmp(way, (id) + 2)
#define CUT() longjmp(way, 1)
#define SIGNED(t) ((t)-1 < 0)
#define WIDTH(t) ((int)(8 * sizeof(t)))
#define WRAP(id, name, a, b, sum) ({ __auto_type a_ = (a); __auto_type b_ = (b); typeof(sum) r_; \
    if (__builtin_##name##_overflow((typeof(r_))a_, (typeof(r_))b_, &r_) && SIGNED(typeof(r_))) BREAK(id); r_; })
#define ADD(id, a, b) WRAP(id, add, a, b, a_ + b_)
#define SUB(id, a, b) WRAP(id, sub, a, b, a_ - b_)
#define MUL(id, a, b) WRAP(id, mul, a, b, a_ * b_)
#define NEG(id, a) ({ __auto_type n_ = (a); typeof(-n_) m_; if (__builtin_sub_overflow((typeof(m_))0, (typeof(m_))n_, &m_) && SIGNED(typeof(m_))) BREAK(id); m_; })
#define QUOT(zero, id, a, b, op) ({ __auto_type a_ = (a); __auto_type b_ = (b); typeof(a_ / b_) x_ = a_, y_ = b_; \
    if (y_ == 0) BREAK(zero); \
    if (SIGNED(typeof(x_)) && y_ == (typeof(x_))-1 && x_ == (typeof(x_))(1ul << (WIDTH(typeof(x_)) - 1))) BREAK(id); \
    (typeof(x_))(x_ op y_); })
#define AMOUNT(id, x_, n_) if (n_ < 0 || n_ >= WIDTH(typeof(x_))) BREAK(id)
#define SHL(id, a, b) ({ __auto_type a_ = (a); __auto_type b_ = (b); typeof(+a_) x_ = a_; __int128 n_ = b_; AMOUNT(id, x_, n_); \
    if (SIGNED(typeof(x_)) && (x_ < 0 || ((__int128)x_ << n_) >> (WIDTH(typeof(x_)) - 1))) BREAK(id); \
    (typeof(x_))((unsigned long)x_ << n_); })
#define SHR(id, a, b) ({ __auto_type a_ = (a); __auto_type b_ = (b); typeof(+a_) x_ = a_; __int128 n_ = b_; AMOUNT(id, x_, n_); x_ >> n_; })
#define AT(id, x, n, i) (*({ __int128 i_ = (i); if (i_ < 0 || i_ >= (n)) BREAK(id); &x[i_]; }))
"""


def promoted(t):
    return t if t[0] >= 32 else INT


def common(t, u):
    t, u = promoted(t), promoted(u)
    if t[1] == u[1]:
        return max(t, u)
    plain, other = (t, u) if t[1] else (u, t)
    return plain if plain[0] > other[0] else other


class Maker:
    """Makes programs as trees: an expression is its type, its form and its parts."""

    def __init__(self, random):
        self.random, self.made, self.scopes, self.loops = random, 0, [[]], 0

    def fresh(self, what):
        self.made += 1
        return f"{what}{self.made}"

    def objects(self, arrays):
        return [it for scope in self.scopes for it in scope if (it[2] > 0) == arrays]

    def place(self, deep):
        found = self.objects(True)
        if found and self.random.random() < 0.25:
            name, ty, length = self.random.choice(found)
            return ty, "element", name, length, self.expression(min(deep, 1))
        name, ty, _ = self.random.choice(self.objects(False))
        return ty, "object", name

    def literal(self):
        numbers = [0, 1, 2, 3, 5, 7, 8, 16, 31, 100, 127, 128, 200, 255, 256, 1000, 32767, 65535, 2147483647]
        return INT, "literal", self.random.choice(numbers)

    def expression(self, deep):
        pick = self.random.random()
        if deep == 0 or pick < 0.2:
            return self.literal() if self.random.random() < 0.4 else self.place(0)
        if pick < 0.28:
            op, a = self.random.choice("-~!"), self.expression(deep - 1)
            return INT if op == "!" else promoted(a[0]), "unary", op, a
        if pick < 0.34:
            name = self.random.choice(list(TYPES))
            return TYPES[name], "cast", name, self.expression(deep - 1)
        if pick < 0.40:
            c, a, b = (self.expression(deep - 1) for _ in range(3))
            return common(a[0], b[0]), "choose", c, a, b
        op = self.random.choice(["+", "-", "*", "/", "%", "&", "|", "^", "<<", ">>", "==", "!=", "<", "<=", ">", ">=", "&&", "||"])
        a, b = self.expression(deep - 1), self.expression(deep - 1)
        if op in ("==", "!=", "<", "<=", ">", ">=", "&&", "||"):
            return INT, "binary", op, a, b
        return promoted(a[0]) if op in ("<<", ">>") else common(a[0], b[0]), "binary", op, a, b

    # a condition that is met now and then
    def condition(self):
        if self.random.random() < 0.7:
            a, b = self.expression(1), self.expression(1)
            return INT, "binary", self.random.choice(["<", ">", "==", "!=", "<=", ">="]), a, b
        return self.expression(2)

    def block(self, deep, count):
        self.scopes.append([])
        made = [self.statement(deep) for _ in range(count)]
        self.scopes.pop()
        return "block", made

    def statement(self, deep):
        pick = self.random.random()
        if pick < 0.22:
            return self.declaration()
        if pick < 0.42:
            return "store", self.place(1), self.expression(2)
        if pick < 0.50:
            return "update", self.random.choice(["+", "-", "*", "/", "%", "&", "|", "^", "<<", ">>"]), self.place(1), self.expression(1)
        if pick < 0.55:
            return self.random.choice(["before", "after"]), self.random.choice(["++", "--"]), self.place(1)
        if pick < 0.68:
            return "assert", self.condition()
        if pick < 0.72:
            return "assume", self.condition()
        if deep == 0:
            return "store", self.place(1), self.expression(2)
        if pick < 0.84:
            other = self.block(deep - 1, self.random.randint(0, 2)) if self.random.random() < 0.5 else None
            return "if", self.condition(), self.block(deep - 1, self.random.randint(1, 3)), other
        if pick < 0.96:
            self.loops += 1
            made = self.loop(deep)
            self.loops -= 1
            return made
        if self.loops:
            return "if", self.condition(), ("block", [(self.random.choice(["break", "continue"]),)]), None
        return "return",

    def loop(self, deep):
        form = self.random.choice(["for", "while", "do"])
        if form == "for":
            self.scopes.append([])
            name = self.fresh("i")
            self.scopes[-1].append((name, INT, 0))
            cond = (INT, "binary", "<", (INT, "object", name), (INT, "literal", self.random.randint(0, TURNS + 1)))
            body = self.block(deep - 1, self.random.randint(1, 3))
            self.scopes.pop()
            return "for", name, cond, body
        return form, self.condition(), self.block(deep - 1, self.random.randint(1, 2))

    def declaration(self):
        name = self.random.choice(list(TYPES))
        ty = TYPES[name]
        if self.random.random() < 0.2:
            length = self.random.randint(1, 4)
            values = [self.expression(1) for _ in range(self.random.randint(1, length))]
            made = "array", name, self.fresh("x"), length, values
            self.scopes[-1].append((made[2], ty, length))
        else:
            value = self.expression(2)
            made = "declare", name, self.fresh("n"), value
            self.scopes[-1].append((made[2], ty, 0))
        return made


class Writer:
    """Writes a program in both forms, and numbers the properties in the order of the text."""

    def __init__(self):
        self.names, self.counts = [], {}

    def prop(self, kind):
        self.counts[kind] = self.counts.get(kind, 0) + 1
        self.names.append(f"main.{kind}.{self.counts[kind]}")
        return len(self.names) - 1

    def of_operator(self, op, ty):
        """The numbers of an operator's properties: of a zero divisor, and its other one."""
        zero = self.prop("division") if op in "/%" else 0
        if op in ("<<", ">>"):
            return zero, self.prop("shift")
        return zero, self.prop("overflow") if op in "+-*/%" and ty[1] else 0

    def operation(self, op, props, a, b):
        zero, other = props
        if op in ("/", "%"):
            return f"QUOT({zero}, {other}, {a}, {b}, {op})"
        name = {"+": "ADD", "-": "SUB", "*": "MUL", "<<": "SHL", ">>": "SHR"}.get(op)
        return f"{name}({other}, {a}, {b})" if name else f"({a} {op} {b})"

    def expression(self, e):
        ty, form, *parts = e
        if form == "literal":
            return str(parts[0]), str(parts[0])
        if form == "object":
            return parts[0], parts[0]
        if form == "element":
            name, length, index = parts
            prop = self.prop("bounds")
            plain, made = self.expression(index)
            return f"{name}[{plain}]", f"AT({prop}, {name}, {length}, {made})"
        if form == "unary":
            op, a = parts
            prop = self.prop("overflow") if op == "-" and ty[1] else 0
            plain, made = self.expression(a)
            return f"({op}{plain})", f"NEG({prop}, {made})" if op == "-" else f"({op}{made})"
        if form == "cast":
            plain, made = self.expression(parts[1])
            return f"(({parts[0]}){plain})", f"(({parts[0]}){made})"
        if form == "choose":
            (c, c2), (a, a2), (b, b2) = (self.expression(it) for it in parts)
            return f"({c} ? {a} : {b})", f"({c2} ? {a2} : {b2})"
        op, a, b = parts
        plain, made = self.expression(a)
        props = self.of_operator(op, ty) if op not in ("&&", "||", "<", "<=", ">", ">=", "==", "!=", "&", "|", "^") else (0, 0)
        plain_b, made_b = self.expression(b)
        return f"({plain} {op} {plain_b})", self.ordered(op, props, made, made_b)

    def ordered(self, op, props, a, b):
        # gcc may take the operands of what is no macro in any order, but only checks could tell
        if op in ("&", "|", "^", "<", "<=", ">", ">=", "==", "!="):
            return f"({{ __auto_type l_ = ({a}); __auto_type k_ = ({b}); l_ {op} k_; }})"
        return self.operation(op, props, a, b)

    def update(self, op, place, right, is_before=False):
        """An update: of its target and its operator, which stands first where `is_before`."""
        used = common(place[0], right[0] if right else INT) if op not in ("<<", ">>") else promoted(place[0])
        props = self.of_operator(op, used) if is_before else None
        plain, made = self.expression(place)
        if props is None:
            props = self.of_operator(op, used) if op not in "&|^" else (0, 0)
        value, value2 = self.expression(right) if right else ("1", "1")
        body = self.ordered(op, props, "*p_", value2)
        return plain, value, f"{{ __auto_type p_ = &{made}; *p_ = {body}; }}"

    def statement(self, s, pad):
        form, *parts = s
        if form == "block":
            made = [self.statement(it, pad + "  ") for it in parts[0]]
            return f"{pad}{{\n" + "".join(it[0] for it in made) + f"{pad}}}\n", f"{pad}{{\n" + "".join(it[1] for it in made) + f"{pad}}}\n"
        if form == "declare":
            plain, made = self.expression(parts[2])
            return f"{pad}{parts[0]} {parts[1]} = {plain};\n", f"{pad}{parts[0]} {parts[1]} = {made};\n"
        if form == "array":
            name, what, length, values = parts
            made = [self.expression(it) for it in values]
            plain = ", ".join(it[0] for it in made)
            sets = " ".join(f"{what}[{i}] = {it[1]};" for i, it in enumerate(made))
            return f"{pad}{name} {what}[{length}] = {{{plain}}};\n", f"{pad}{name} {what}[{length}] = {{0}}; {sets}\n"
        if form == "store":
            return self.store(parts[0], parts[1], pad)
        if form == "update":
            op, place, right = parts
            plain, value, made = self.update(op, place, right)
            return f"{pad}{plain} {op}= {value};\n", f"{pad}{made}\n"
        if form in ("before", "after"):
            plain, _, made = self.update(parts[0][0], parts[1], None, form == "before")
            return (f"{pad}{parts[0]}{plain};\n" if form == "before" else f"{pad}{plain}{parts[0]};\n"), f"{pad}{made}\n"
        if form == "assert":
            prop = self.prop("assertion")
            plain, made = self.expression(parts[0])
            return f"{pad}assert({plain});\n", f"{pad}if (!({made})) BREAK({prop});\n"
        if form == "assume":
            plain, made = self.expression(parts[0])
            return f"{pad}__CPROVER_assume({plain});\n", f"{pad}if (!({made})) CUT();\n"
        if form == "if":
            plain, made = self.expression(parts[0])
            a, a2 = self.statement(parts[1], pad)
            b, b2 = self.statement(parts[2], pad) if parts[2] else ("", "")
            other = f"{pad}else\n" if parts[2] else ""
            return f"{pad}if ({plain})\n{a}{other}{b}", f"{pad}if ({made})\n{a2}{other}{b2}"
        if form in ("break", "continue"):
            return f"{pad}{form};\n", f"{pad}{form};\n"
        if form == "return":
            return f"{pad}return 0;\n", f"{pad}return;\n"
        return self.loop(form, parts, pad)

    def store(self, place, value, pad):
        if place[1] == "object":
            plain, made = self.expression(value)
            return f"{pad}{place[2]} = {plain};\n", f"{pad}{place[2]} = {made};\n"
        _, _, name, length, index = place
        prop = self.prop("bounds")
        i, i2 = self.expression(index)
        plain, made = self.expression(value)
        return f"{pad}{name}[{i}] = {plain};\n", f"{pad}{{ __int128 at_ = {i2}; __auto_type v_ = {made}; AT({prop}, {name}, {length}, at_) = v_; }}\n"

    def loop(self, form, parts, pad):
        prop = self.prop("unwind")
        turn = f"if (t_{prop} == {TURNS}) BREAK({prop}); t_{prop}++;"
        if form == "for":
            name, cond, body = parts
            plain, made = self.expression(cond)
            step = self.prop("overflow")
            a, b = self.statement(body, pad)
            return (f"{pad}for (int {name} = 0; {plain}; {name}++)\n{a}",
                f"{pad}{{ int t_{prop} = 0; for (int {name} = 0; ; {name} = ADD({step}, {name}, 1)) {{ if (!({made})) break; {turn}\n{b}{pad}}} }}\n")
        if form == "while":
            plain, made = self.expression(parts[0])
            a, b = self.statement(parts[1], pad)
            return f"{pad}while ({plain})\n{a}", f"{pad}{{ int t_{prop} = 0; for (;;) {{ if (!({made})) break; {turn}\n{b}{pad}}} }}\n"
        a, b = self.statement(parts[1], pad)
        plain, made = self.expression(parts[0])
        return f"{pad}do\n{a}{pad}while ({plain});\n", f"{pad}{{ int t_{prop} = 0; do {{ {turn}\n{b}{pad}}} while ({made}); }}\n"


def program(seed):
    """A program: its text, its text for gcc, and the names of its properties."""
    maker = Maker(random.Random(seed))
    maker.scopes[-1] += [("a", TYPES["unsigned char"], 0), ("b", TYPES["unsigned char"], 0)]
    body = [maker.statement(2) for _ in range(maker.random.randint(2, 5))]
    body.append(("assert", maker.condition()))
    writer = Writer()
    made = [writer.statement(it, "  ") for it in body]
    plain = "int main(void) {\n  unsigned char a;\n  unsigned char b;\n" + "".join(it[0] for it in made) + "  return 0;\n}\n"
    runs = (
        "int main(void) {\n  for (int i = 0; i < 65536; i++) {\n    int end = setjmp(way);\n"
        "    if (end == 0) run(i, i >> 8); else if (end > 1) broken[end - 2] = 1;\n  }\n"
        '  for (int i = 0; i < 1000; i++) if (broken[i]) printf("%d\\n", i);\n}\n'
    )
    other = HEAD + "static void run(unsigned char a, unsigned char b) {\n" + "".join(it[1] for it in made) + "}\n" + runs
    return plain, other, writer.names


def breakable(text, names, folder):
    """The properties that some run breaks, as gcc's program tells them."""
    with open(f"{folder}/runs.c", "w", encoding="utf-8") as file:
        file.write(text)
    subprocess.run(["gcc", "-w", "-O1", "-fwrapv", "-o", f"{folder}/runs", f"{folder}/runs.c"], check=True)
    said = subprocess.run([f"{folder}/runs"], capture_output=True, text=True, check=True).stdout
    return {names[int(it)] for it in said.split()}


def verdict(text, folder):
    """The status of hwcbmc, and the property that it tells."""
    for name, content in (("p.c", text), ("bare.v", "module top;\nendmodule\n")):
        with open(f"{folder}/{name}", "w", encoding="utf-8") as file:
            file.write(content)
    command = os.environ.get("HWCBMC", f"{TOP}/run-hwcbmc")
    ran = subprocess.run([command, "--unwind", str(TURNS), "--budget", "200000", f"{folder}/p.c", f"{folder}/bare.v"], capture_output=True, text=True)
    named = ran.stdout.split("\n")[0].removeprefix("Trace for ").removesuffix(":") if ran.returncode == 10 else ""
    return ran.returncode, named, ran.stderr


def main(words):
    count, seed = int(words[0]) if words else 100, int(words[1]) if len(words) > 1 else 1
    told, wrong = {}, 0
    with tempfile.TemporaryDirectory() as folder:
        for n in range(seed, seed + count):
            plain, other, names = program(n)
            wanted = breakable(other, names, folder)
            status, named, error = verdict(plain, folder)
            told[status] = told.get(status, 0) + 1
            fits = {0: not wanted, 10: named in wanted, 11: True}.get(status, False)
            if not fits:
                wrong += 1
                print(f"program {n}: status {status} {named or error.strip()}, but {sorted(wanted) or 'nothing'} can break\n{plain}")
    print(f"{count} programs: " + ", ".join(f"status {it}: {told[it]}" for it in sorted(told)) + f"; {wrong} differ")
    return 1 if wrong else 0


if __name__ == "__main__":
    sys.exit(main(sys.argv[1:]))
