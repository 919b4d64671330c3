#!/usr/bin/env python3
"""Compares the published grammars with the tables that the readers run.

    compare.py [--seconds N] [--seed N] [--root FOLDER]

For each language the page of docs/ has the published grammar, as its first block of code that has a line `Unary = ..`:
`{ X }` is any number of X, `[ X ]` at most one, `|` a choice, and quoted words are tokens. The table is read from
`src/lib.rt` of the grammar's crate, and the number of each word from `src/kinds.rt` of the tokens' crate.

The script makes texts of the published grammar and spoils some of their tokens. At each position of a text it asks both
sides which tokens may come next, and whether the text may end: the published grammar by Earley's algorithm, the table by
its productions. Both sets have to be the same, among all tokens, with those that no text of the grammar has, as words
that are reserved but unused. It ends with status 1 at the first difference.

Nothing rests on this script; it is a test of what no proof can say: that both grammars are one.
"""
import argparse
import os
import random
import re
import sys
import time

HERE = os.path.dirname(os.path.abspath(__file__))
LANGUAGES = {
    "C": ("docs/C_PROFILE.md", "crates/c_grammar/src/lib.rt", "crates/c_tokens/src/kinds.rt"),
    "Verilog": ("docs/VERILOG_PROFILE.md", "crates/v_grammar/src/lib.rt", "crates/v_tokens/src/kinds.rt"),
}
# Tokens that are classes, by the name of their kind.
CLASSES = {"ID": "Identifier", "INT": "Integer", "CHAR": "Character", "STRING": "StringLiteral", "DEC": "Decimal", "BASED": "Based"}
COMPOUND = "+= -= *= /= %= &= |= ^= <<= >>=".split()
STDINT = "int8_t int16_t int32_t int64_t uint8_t uint16_t uint32_t uint64_t".split()
# ISO C99, 6.4.1, and IEEE 1364-2005, Annex B: a reserved word is no identifier, whether the grammar has it or not.
C_KEYWORDS = """auto break case char const continue default do double else enum extern float for goto if inline int long
register restrict return short signed sizeof static struct switch typedef union unsigned void volatile while _Bool _Complex
_Imaginary""".split()
VERILOG_KEYWORDS = """always and assign automatic begin buf bufif0 bufif1 case casex casez cell cmos config deassign default
defparam design disable edge else end endcase endconfig endfunction endgenerate endmodule endprimitive endspecify endtable
endtask event for force forever fork function generate genvar highz0 highz1 if ifnone incdir include initial inout input
instance integer join large liblist library localparam macromodule medium module nand negedge nmos nor noshowcancelled not
notif0 notif1 or output parameter pmos posedge primitive pull0 pull1 pulldown pullup pulsestyle_onevent
pulsestyle_ondetect rcmos real realtime reg release repeat rnmos rpmos rtran rtranif0 rtranif1 scalared showcancelled signed
small specify specparam strong0 strong1 supply0 supply1 table task time tran tranif0 tranif1 tri tri0 tri1 triand trior
trireg unsigned use uwire vectored wait wand weak0 weak1 while wire wor xnor xor""".split()
PIECE = re.compile(r'"[^"]*"|[A-Za-z]\w*|[][{}()|]')
END = 0
FIRST_NONTERMINAL = 256


class Published:
    """A context-free grammar without choices in its bodies: a list of bodies for each name."""

    def __init__(self, page):
        self.bodies, self.start = {}, None
        blocks = re.findall(r"```\n(.*?)```", open(page).read(), re.S)
        block = next(b for b in blocks if re.search(r"^Unary\s*=", b, re.M))
        lines = []
        for line in block.splitlines():
            if re.match(r"^\s+\|", line):
                lines[-1] += " " + line.strip()
            elif line.strip():
                lines.append(line)
        for line in lines:
            name, text = re.match(r"^(\w+)\s*=\s*(.*)$", line).groups()
            self.start = self.start or name
            if text.startswith("levels"):
                self.levels(name, text.split(":", 1)[1])
            else:
                text = text.replace("one of the eight stdint names", " | ".join(f'"{word}"' for word in STDINT))
                self.define(name, text)
        if any("OpAssign" in body for bodies in self.bodies.values() for body in bodies):
            self.bodies["OpAssign"] = [[word] for word in COMPOUND]
        self.nullable = self.nullables()
        self.height = self.heights()

    def levels(self, name, text):
        """Binary operators group to the left, and `?:` to the right."""
        levels = [level.split() for level in re.split(r"\s{2,}", text.strip())]
        assert levels[0] == ["?:"]
        names = [f"{name}{k}" for k in range(1, len(levels))] + ["Unary"]
        self.bodies[name] = [[names[0], "?", name, ":", name], [names[0]]]
        for level, here, below in zip(levels[1:], names, names[1:]):
            self.bodies[here] = [[here, operator, below] for operator in level] + [[below]]

    def define(self, name, text):
        pieces = PIECE.findall(text)
        self.bodies[name] = self.choice(name, pieces)
        assert not pieces, (name, pieces)

    def fresh(self, name, bodies):
        made = f"{name}.{len(self.bodies)}"
        self.bodies[made] = bodies
        return made

    def choice(self, name, pieces, end=None):
        bodies = [[]]
        while pieces:
            piece = pieces.pop(0)
            if piece == end:
                return bodies
            if piece == "|":
                bodies.append([])
            elif piece == "(":
                bodies[-1].append(self.fresh(name, self.choice(name, pieces, ")")))
            elif piece == "[":
                bodies[-1].append(self.fresh(name, self.choice(name, pieces, "]") + [[]]))
            elif piece == "{":
                inner = self.fresh(name, [])
                self.bodies[inner] = [body + [inner] for body in self.choice(name, pieces, "}")] + [[]]
                bodies[-1].append(inner)
            else:
                bodies[-1].append(piece.strip('"'))
        return bodies

    def words(self):
        return {s for bodies in self.bodies.values() for body in bodies for s in body if s not in self.bodies}

    def nullables(self):
        found = set()
        while True:
            new = {n for n, bodies in self.bodies.items() if any(all(s in found for s in body) for body in bodies)} - found
            if not new:
                return found
            found |= new

    def heights(self):
        """The least height of a derivation of each name."""
        height = {}
        while len(height) < len(self.bodies):
            for name, bodies in self.bodies.items():
                inner = [[s for s in body if s in self.bodies] for body in bodies]
                known = [1 + max([height[s] for s in body], default=0) for body in inner if all(s in height for s in body)]
                if known:
                    height[name] = min(known)
        return height

    def text(self, choose, budget):
        """A random text. Past the budget the lowest derivations are taken."""
        tokens, stack = [], [self.start]
        while stack:
            symbol = stack.pop()
            if symbol not in self.bodies:
                tokens.append(symbol)
                continue
            bodies = self.bodies[symbol]
            if len(tokens) + len(stack) > budget:
                bodies = [min(bodies, key=lambda body: max([self.height[s] for s in body if s in self.bodies], default=0))]
            elif [] in bodies and choose.random() < 0.7:
                bodies = [body for body in bodies if body]
            stack.extend(reversed(choose.choice(bodies)))
        return tokens

    def allowed(self, tokens):
        """At each position up to the first token that can't go on, the tokens that may come next, with END."""
        chart, items = [], [(self.start, k, 0, 0) for k in range(len(self.bodies[self.start]))]
        for at in range(len(tokens) + 1):
            waiting, scanned, ends = self.closed(chart, items, at)
            yield set(scanned) | ({END} if ends else set())
            if at == len(tokens) or tokens[at] not in scanned:
                return
            chart.append(waiting)
            items = scanned[tokens[at]]

    def closed(self, chart, items, at):
        agenda, seen, waiting, scanned, ends = list(items), set(items), {}, {}, False
        while agenda:
            item = agenda.pop()
            name, body, dot, origin = item
            symbols = self.bodies[name][body]
            if dot == len(symbols):
                ends |= name == self.start and origin == 0
                source = waiting if origin == at else chart[origin]
                new = [(n, b, d + 1, o) for n, b, d, o in source.get(name, [])]
            elif symbols[dot] in self.bodies:
                symbol = symbols[dot]
                waiting.setdefault(symbol, []).append(item)
                new = [(symbol, k, 0, at) for k in range(len(self.bodies[symbol]))]
                if symbol in self.nullable:
                    new.append((name, body, dot + 1, origin))
            else:
                scanned.setdefault(symbols[dot], []).append((name, body, dot + 1, origin))
                new = []
            for one in new:
                if one not in seen:
                    seen.add(one)
                    agenda.append(one)
        return waiting, scanned, ends


class Table:
    """The table of a grammar's crate."""

    def __init__(self, path):
        text = open(path).read()

        def static(name):
            values = re.search(r"static " + name + r": \[[^=]*= (\[.*?\n?\]);", text, re.S)[1]
            return eval(re.sub(r"//.*", "", values).replace("true", "True").replace("false", "False"))

        self.heads, self.bodies, self.symbols, self.rows = (static(n) for n in ("HEADS", "BODIES", "SYMBOLS", "ROWS"))
        self.start = int(re.search(r"start: (\d+)", text)[1])

    def after(self, stack, kind):
        """The stack after a token of the kind, None where it can't come; at the end whether the text may end."""
        stack = list(stack)
        while stack and stack[-1] >= FIRST_NONTERMINAL:
            cell = self.rows[stack[-1] - FIRST_NONTERMINAL][kind]
            if cell == 0:
                return None
            stack.pop()
            stack.extend(reversed(self.symbols[self.bodies[cell - 1]:self.bodies[cell]]))
        if kind == END:
            return None if stack else []
        if not stack or stack.pop() != kind:
            return None
        return stack


def kinds_of(path, used):
    """The number of the kind of each mark, reserved word and class of tokens."""
    text = open(path).read()
    numbers = {name: int(n) for name, n in re.findall(r"^    (\w+) = (\d+),$", text, re.M)}
    words = {}
    for table in re.findall(r"^static (?:MARKS|KEYWORDS): .*?^\];", text, re.S | re.M):
        for word, kind in re.findall(r'text: "([^"]*)",\s*kind: TokenKind::(\w+) as u8', table):
            assert word not in words, word
            words[word] = numbers[kind]
    words.update({word: numbers[kind] for word, kind in CLASSES.items() if word in used})
    return words


def spoiled(tokens, words, choose):
    tokens = list(tokens)
    for _ in range(choose.choice((1, 1, 2, 4))):
        at = choose.randrange(len(tokens) + 1)
        change = choose.randrange(3)
        tokens[at:at + (change > 0)] = [choose.choice(words)] if change < 2 else []
    return tokens


def shown(words):
    return " ".join(sorted("the end" if word == END else word for word in words)) or "nothing"


def compare(language, root, seconds, choose):
    page, table, kinds = (os.path.join(root, path) for path in LANGUAGES[language])
    published, table = Published(page), Table(table)
    used = published.words()
    words = kinds_of(kinds, used)
    keywords = C_KEYWORDS if language == "C" else VERILOG_KEYWORDS
    missing = sorted((used | set(keywords)) - set(words))
    if missing:
        return f"{language}: words that are no tokens: {shown(missing)}"
    # Words that share a number are one token. The grammar's own word speaks for it, where there is one.
    tried = {**words, END: END}
    numbers = {words[word]: word for word in used}
    if len(numbers) < len(used):
        return f"{language}: two words of the grammar have one number"
    alike = sorted(word for word in keywords if word not in used and words[word] in numbers)
    if alike:
        return f"{language}: reserved words that are read as others: " + shown(alike)
    others = sorted(set(words) - used)
    until, texts, positions = time.time() + seconds, 0, 0
    while time.time() < until:
        tokens = published.text(choose, choose.choice((4, 12, 40, 90)))
        if choose.random() < 0.3:
            tokens = spoiled(tokens, sorted(used) + others, choose)
        stack, texts = [table.start], texts + 1
        for at, allowed in enumerate(published.allowed(tokens)):
            positions += 1
            next_stacks = {word: table.after(stack, number) for word, number in tried.items()}
            by_table = {word for word, after in next_stacks.items() if after is not None}
            if by_table != allowed:
                return (f"{language}: after `{' '.join(tokens[:at])}`\nonly the page allows {shown(allowed - by_table)}\n"
                        f"only the table allows {shown(by_table - allowed)}")
            if at < len(tokens) and tokens[at] in allowed:
                stack = next_stacks[tokens[at]]
    print(f"{language}: the same tokens may come next at {positions} positions of {texts} texts")
    return None


def main():
    options = argparse.ArgumentParser(description="Compares the published grammars with the readers' tables.")
    options.add_argument("--seconds", type=float, default=4, help="for each language")
    options.add_argument("--seed", type=int, default=1)
    options.add_argument("--root", default=os.path.dirname(HERE))
    given = options.parse_args()
    for language in LANGUAGES:
        difference = compare(language, given.root, given.seconds, random.Random(given.seed))
        if difference:
            sys.exit(difference)


if __name__ == "__main__":
    main()
