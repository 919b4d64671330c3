#!/usr/bin/env python3
"""Makes the statics of a `Table` from a grammar.

    table.py GRAMMAR PREFIX [ACTIONS [antt]]

A grammar has lines `NAME = BODY | BODY ..`, the start symbol's first; a line that begins with `|` goes on with the one
before. A word that is the NAME of a line is a nonterminal, any other one a kind of token, also in quotes, numbered from
1 in the order of the lines `token NAME WORD` that come before, or of first use. A body that ends in `unless:WORD` isn't
used before that kind of token. `#` begins a comment.

A body may hold actions. `<x>` and `<x:k>`, right after a token, and `{x}` and `{x:k}` are nonterminals whose one, empty
production is marked with the action x; `@x` marks the body itself, which is empty but for that.

ACTIONS has a line `ACTION: SORT SORT -> SORT NODES` for each action, in the order of their numbers: the sorts of the
values that it takes, in text order, the one of the value that it gives, and how many nodes it makes, if any. With `antt`
the definitions for the proofs are printed: the signatures, the effect of each nonterminal, and what `<x>` comes after.

Nothing rests on this script: what it gives is checked by the tests of the table.
"""
import re
import sys

NO_KIND = 255
WIDTH = 128
FIRST_NONTERMINAL = 256
SPOT = re.compile(r"^(<([a-z]\w*)(:\w+)?>|\{([a-z]\w*)(:\w+)?\})$")


class Grammar:
    def __init__(self, path):
        self.names, self.productions, self.marks = [], [], []
        self.kinds = Kinds()
        lines = joined([line.split(" #")[0].strip() for line in open(path)])
        heads = [line.split(" ", 1)[0] for line in lines if not line.startswith("token ")]
        spots = {}
        for line in lines:
            if line.startswith("token "):
                self.kinds.number(line.split()[2])
                continue
            head, bodies = line.split(" =", 1)
            self.names.append(head)
            for words in split_at_bars(bodies.split()):
                barred = [word[len("unless:"):] for word in words if word.startswith("unless:")]
                mark = [word[1:] for word in words if re.match(r"^@[a-z]", word)]
                body = [word for word in words if not re.match(r"^(unless:|@[a-z])", word)]
                for word in body:
                    spot = SPOT.match(word)
                    if spot:
                        spots[word] = spot[2] or spot[4]
                    elif word not in heads:
                        self.kinds.number(word)
                self.add(head, body, barred[0] if barred else None, mark[0] if mark else None)
        for spot, action in spots.items():
            self.names.append(spot)
            self.add(spot, [], None, action)

    def add(self, head, body, barred, mark):
        self.productions.append((head, body, barred))
        self.marks.append(mark)

    def is_nonterminal(self, word):
        return word in self.names

    def symbol(self, word):
        return FIRST_NONTERMINAL + self.names.index(word) if self.is_nonterminal(word) else self.kinds[word]


class Kinds:
    """The numbers of the kinds of token, whose words may stand in quotes."""

    def __init__(self):
        self.numbers = {}

    def number(self, word):
        return self.numbers.setdefault(bare(word), len(self.numbers) + 1)

    def __getitem__(self, word):
        return self.numbers[bare(word)]


def bare(word):
    return word[1:-1] if len(word) > 2 and word[0] == word[-1] == '"' else word


def joined(lines):
    whole = []
    for line in lines:
        if re.match(r"^\|(\s|$)", line):
            whole[-1] += " " + line
        elif line and not line.startswith("#"):
            whole.append(line)
    return whole


def split_at_bars(words):
    bodies = [[]]
    for word in words:
        if word == "|":
            bodies.append([])
        else:
            bodies[-1].append(word)
    return bodies


def until_stable(step):
    while step():
        pass


def nullables(grammar):
    found = set()

    def step():
        new = {h for h, b, _ in grammar.productions if all(s in found for s in b)} - found
        found.update(new)
        return new

    until_stable(step)
    return found


def rows_and_follows(grammar):
    """A cell wherever the first symbol of a body has one, which the test asks for."""
    cells = {n: {} for n in grammar.names}
    follows = {n: set() for n in grammar.names}
    follows[grammar.names[0]].add(0)
    conflicts = []

    def begins(word):
        return set(cells[word]) if grammar.is_nonterminal(word) else {grammar.kinds[word]}

    def step():
        changed = False
        for p, (head, body, barred) in enumerate(grammar.productions):
            kinds = begins(body[0]) if body else follows[head] - ({grammar.kinds[barred]} if barred else set())
            for kind in kinds:
                if kind not in cells[head]:
                    cells[head][kind] = p
                    changed = True
                elif cells[head][kind] != p:
                    conflicts.append((head, kind, cells[head][kind], p))
            for i, word in enumerate(body):
                if grammar.is_nonterminal(word):
                    after = begins(body[i + 1]) if i + 1 < len(body) else follows[head]
                    if not after <= follows[word]:
                        follows[word] |= after
                        changed = True
        return changed

    until_stable(step)
    if conflicts:
        sys.exit("one token ahead doesn't decide: " + str(sorted(set(conflicts))))
    return cells, follows


def witnesses_and_ranks(grammar):
    """Each level has the nonterminals with a body that stands on the levels below it."""
    barred = {b for _, _, b in grammar.productions if b}
    witness, rank, level = {}, {}, 0
    while len(witness) < len(grammar.names):
        level += 1
        found = {}
        for p, (head, body, _) in enumerate(grammar.productions):
            ends = all(s in witness if grammar.is_nonterminal(s) else s not in barred for s in body)
            if ends and head not in witness:
                found.setdefault(head, p)
        if not found:
            sys.exit("without a text: " + str(set(grammar.names) - set(witness)))
        witness.update(found)
        rank.update({head: level for head in found})
    return witness, rank


def costs(grammar, nullable):
    """The least costs, with the least number of productions that each token pays for."""
    for per_token in range(1, 400):
        cost = {n: 1 for n in grammar.names}
        for _ in range(2 * len(grammar.names) + 2):
            changed = False
            for head, body, _ in grammar.productions:
                steps, total, tokens = 0, 0, 0
                counts = True
                for s in body:
                    c = cost.get(s, 0)
                    total += c
                    steps += c if counts else 0
                    if s not in nullable:
                        counts = False
                        tokens += 1
                need = max(1 + steps, 1 + total + per_token * (head not in nullable) - per_token * tokens)
                if need > cost[head]:
                    cost[head] = need
                    changed = True
            if not changed:
                return cost, per_token
    sys.exit("no token pays for some production")


class Actions:
    """The actions in the order of their numbers, with their sorts from the top of the stack down."""

    def __init__(self, grammar, path):
        self.takes, self.gives, self.nodes, self.sorts = {}, {}, {}, []
        for line in joined([line.split(" #")[0].strip() for line in open(path)] if path else []):
            name, takes, gives, *nodes = re.match(r"^(\w+):(.*)->\s*(\w+)\s*(\d*)$", line).groups()
            self.takes[name] = [self.sort(word) for word in takes.split()][::-1]
            self.gives[name] = self.sort(gives)
            self.nodes[name] = int(nodes[0] or 0)
        used = [mark for mark in grammar.marks if mark]
        self.names = list(self.takes) if path else list(dict.fromkeys(used))
        if set(used) != set(self.names):
            sys.exit("only in one of the files: " + str(sorted(set(used) ^ set(self.names))))

    def sort(self, word):
        if word not in self.sorts:
            self.sorts.append(word)
        return self.sorts.index(word)

    def mark(self, name):
        return self.names.index(name) + 1 if name else 0


def run(stack, takes, gives):
    """A stack, and what it lacks from below, both from the top down, after an effect."""
    have, lack = stack
    for sort in takes:
        if have and have[0] != sort:
            return None
        have, lack = (have[1:], lack) if have else ([], lack + [sort])
    return gives + have, lack


def joined_effect(one, other):
    """The two as one, where the one that takes less leaves the rest as it is."""
    short, long = sorted([one, other], key=lambda effect: len(effect[0]))
    rest = long[0][len(short[0]):]
    return long if long == (short[0] + rest, short[1] + rest) else None


def effects(grammar, actions):
    """For each nonterminal, what it takes off the stack and what it puts there, from the top down."""
    found = {}

    def of(production):
        (_, body, _), mark = grammar.productions[production], grammar.marks[production]
        stack = ([], [])
        if mark:
            stack = run(stack, actions.takes[mark], [actions.gives[mark]])
        for word in filter(grammar.is_nonterminal, body):
            if word not in found:
                return None
            stack = run(stack, *found[word])
            if stack is None:
                sys.exit(f"production {production} lacks the sorts that {word} takes")
        return stack[1], stack[0]

    def step():
        changed = False
        for p, (head, _, _) in enumerate(grammar.productions):
            effect = of(p)
            if effect is None:
                continue
            whole = joined_effect(found.get(head, effect), effect)
            if whole is None or len(whole[0]) > 20:
                sys.exit(f"production {p} of {head} is {named(actions, effect)}, but one before {named(actions, found[head])}")
            changed |= found.get(head) != whole
            found[head] = whole
        return changed

    until_stable(step)
    return found


def named(actions, effect):
    """An effect in words, in text order."""
    takes, gives = ("".join(actions.sorts[sort] + " " for sort in reversed(side)) for side in effect)
    return f"{takes}-> {gives}".strip()


def comes_after(grammar, actions):
    """The kinds of the token right before each `<x>`, and each nonterminal that is one."""
    after = {name: set() for name in actions.names}
    for _, body, _ in grammar.productions:
        for word, spot in zip(body, body[1:]):
            if spot[0] == "<" and grammar.is_nonterminal(spot):
                ends = [b[-1] for h, b, _ in grammar.productions if h == word] if grammar.is_nonterminal(word) else [word]
                after[SPOT.match(spot)[2]] |= {grammar.kinds[end] for end in ends}
    own = [actions.mark(SPOT.match(n)[2]) if n[0] == "<" else 0 for n in grammar.names]
    return [sorted(after[name]) for name in actions.names], own


def antt_list(values):
    return "".join(f"{v} ∷ " for v in values) + "[]"


def antt_statics(grammar, actions, prefix, parts=("SORTS", "AFTER")):
    found = effects(grammar, actions)
    after, own = comes_after(grammar, actions)

    def definition(name, kind, items, about):
        print(f"\n-- {about}\nunfoldable pub {prefix}{name} : List {kind}\n{prefix}{name} =")
        for item, note in items:
            print(f"    {item} ∷  -- {note}")
        print("    []")

    if "SORTS" in parts:
        for i, sort in enumerate(actions.sorts):
            print(f"-- sort {i}: {sort}")
        definition("SIGNATURES", "Signature", [
            (f"record {{ takes = {antt_list(actions.takes[n])}; gives = {actions.gives[n]} }}",
             f"{i}, {n}: {named(actions, (actions.takes[n], [actions.gives[n]]))}")
            for i, n in enumerate(actions.names)], "the signature of each action")
        definition("EFFECTS", "Effect", [
            (f"record {{ takes = {antt_list(found[n][0])}; gives = {antt_list(found[n][1])} }}",
             f"{FIRST_NONTERMINAL + i}, {n}: {named(actions, found[n])}")
            for i, n in enumerate(grammar.names)], "the effect of each nonterminal")
    if "AFTER" in parts:
        definition("AFTER", "(List ℕ)", [(f"({antt_list(kinds)})", f"{i}, {n}") for i, (kinds, n) in enumerate(zip(after, actions.names))],
                   "the kinds of token that each action comes right after, if it makes a value of one")
        print(f"\n-- for each nonterminal one more than the action that it is, if that is one on a token\nunfoldable pub {prefix}SPOTS : List ℕ\n{prefix}SPOTS = {antt_list(own)}")


def numbers(values):
    return "[" + ", ".join(str(v) for v in values) + "]"


def main(path, prefix, actions_path=None, antt=None):
    grammar = Grammar(path)
    actions = Actions(grammar, actions_path)
    if antt:
        return antt_statics(grammar, actions, prefix)
    nullable = nullables(grammar)
    cells, follows = rows_and_follows(grammar)
    witness, rank = witnesses_and_ranks(grammar)
    cost, per_token = costs(grammar, nullable)
    names, productions = grammar.names, grammar.productions
    bodies, symbols = [0], []
    for _, body, _ in productions:
        symbols += [grammar.symbol(s) for s in body]
        bodies.append(len(symbols))
    rows = [[cells[n][k] + 1 if k in cells[n] else 0 for k in range(WIDTH)] for n in names]
    allowed = [[1 if k in follows[n] else 0 for k in range(WIDTH)] for n in names]

    def static(name, kind, values, about):
        print(f"\n/// {about}\n{'pub ' * (name in ('MARKS', 'WEAVES'))}static {prefix}{name}: [{kind}; {len(values)}] = {numbers(values)};")

    for p, (head, body, barred) in enumerate(productions):
        mark = grammar.marks[p]
        print(f"// {p}: {head} = " + " ".join(body) + (f" (not before {barred})" if barred else "") + (f" does {mark}" if mark else ""))
    print(f"// the start symbol is {FIRST_NONTERMINAL}, and each token pays for {per_token} productions")
    static("HEADS", "u16", [grammar.symbol(h) for h, _, _ in productions],
           "The head of each production.")
    static("BODIES", "u16", bodies,
           "Where each body begins in `SYMBOLS`, and where the last one ends.")
    static("SYMBOLS", "u16", symbols,
           "The bodies, one after the other.")
    static("NOT_BEFORE", "u16", [grammar.kinds[b] if b else NO_KIND for _, _, b in productions],
           "The kind of token before which each production isn't used, or 255.")
    static("ROWS", f"[u16; {WIDTH}]", [numbers(r) for r in rows],
           "For each nonterminal and each kind of the next token one more than the production to use, or 0.")
    static("FOLLOWS", f"[u8; {WIDTH}]", [numbers(r) for r in allowed],
           "For each nonterminal and each kind 1 where such a token may follow it.")
    static("WITNESSES", "u16", [witness[n] for n in names],
           "For each nonterminal a production by which it comes to an end.")
    static("RANKS", "u16", [rank[n] for n in names],
           "The nonterminals in the body of a witness have a lower rank than its head.")
    static("COSTS", "u16", [cost[n] for n in names],
           "How many productions each nonterminal may use, besides those that its tokens pay for.")
    static("NULLABLE", "bool", ["true" if n in nullable else "false" for n in names],
           "Whether each nonterminal may stand for nothing.")
    if not actions.names:
        return
    for a, name in enumerate(actions.names):
        print(f"// action {a}: {name}")
    static("MARKS", "u16", [actions.mark(mark) for mark in grammar.marks],
           "For each production, 0 or one more than the number of its action.")
    _, own = comes_after(grammar, actions)
    static("WEAVES", "Weave", [weave(len(actions.takes.get(n, [])), actions.nodes.get(n, 0), actions.mark(n) in own) for n in actions.names],
           "What each action makes of the nodes of the values that it takes, by the actions' numbers.")


def weave(takes, nodes, is_own):
    return f"Weave {{ takes: {takes}, nodes: {nodes}, own: {str(is_own).lower()} }}"


if __name__ == "__main__":
    main(sys.argv[1], sys.argv[2] if len(sys.argv) > 2 else "", *sys.argv[3:5])
