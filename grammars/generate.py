#!/usr/bin/env python3
"""Writes the files that are made of the grammars, or compares them.

    generate.py [--check]

Of `c.actions` and `c.sorts` the files of `crates/c_grammar`, of `verilog.actions` and `verilog.sorts` those of
`crates/v_grammar`: `src/lib.rt`, the table; `specs/Symbols.antt`, the names of the symbols;
`specs/Productions.antt`, the productions without their actions; and what the actions take and give. Of both the words that
`show_grammars` prints, and what it has to print. `rt fmt` in the crates lays them out afterwards. With `--check` nothing is written: where a file isn't what the tools give, blanks and
commas before a bracket aside, it is named, and the status is 1.
"""
import contextlib
import io
import os
import re
import sys

from table import FIRST_NONTERMINAL, Actions, Grammar, antt_statics, bare, costs, main as print_statics, nullables

TOP = os.path.dirname(os.path.dirname(os.path.abspath(__file__)))
SIGNATURES = "use Rattle.ll_actions.specs.Sorts.{Signature, Effect}\n\n"
C_SORTS = """-- What the actions of the C profile take and give, by their numbers, and what each nonterminal does to the stack.
use Rattle.std.specs.Prelude.{ℕ, List, [], ◌∷◌}
""" + SIGNATURES
V_SORTS = """-- The sorts of the values that the actions take and give, by their numbers, and what each nonterminal does to the stack.
use Rattle.std.specs.Prelude.{List, [], ◌∷◌}
""" + SIGNATURES
V_AFTER = """-- The kinds of token that each action of the Verilog profile comes right after, and the action of each spot.
use Rattle.std.specs.Prelude.{ℕ, List, [], ◌∷◌}
"""
LANGUAGES = {
    "C": ("c", "c_grammar", "c_tokens", "Table", "TABLE", [("c_grammar/specs/Actions.antt", C_SORTS, ("SORTS", "AFTER"))]),
    "Verilog": ("verilog", "v_grammar", "v_tokens", "Verilog", "VERILOG", [
        ("v_grammar/specs/Sorts.antt", V_SORTS, ("SORTS",)), ("v_depth/specs/After.antt", V_AFTER, ("AFTER",))]),
}
RENAMED = {"Type": "IntegerType", "Module": "WholeModule", "Parameter": "ParameterValue"}  # a word of antt, and names of tokens


def printed(function, *arguments):
    out = io.StringIO()
    with contextlib.redirect_stdout(out):
        function(*arguments)
    return out.getvalue()


def token_names(path):
    """The name of each kind of token, by its word."""
    return {bare(line.split()[2]): line.split()[1] for line in open(path) if line.startswith("token ")}


def plain(grammar):
    """The productions without actions, each with its bar, by their heads; the spots of actions come after them."""
    spots = [name for name in grammar.names if name[0] in "<{"]
    first = grammar.names.index(spots[0])
    assert grammar.names[first:] == spots
    rows = []
    for head, body, barred in grammar.productions:
        if head not in spots:
            rows.append((head, [word for word in body if word not in spots], barred))
    assert [head for head, _, _ in grammar.productions[len(rows):]] == spots
    return first, rows


def symbols_file(language, crate, tokens, names, first):
    lines = [
        f"-- The symbols of the grammar of the {language} profile, by their numbers.",
        "use Rattle.std.specs.Prelude.{ℕ}",
        "",
        f"-- the kinds of token, which are those of `TokenKind` in `{crate}`",
    ]
    for number, (word, name) in enumerate(tokens.items(), 1):
        lines += [f"abbrev pub {name} : ℕ -- {word}", f"{name} = {number}", ""]
    lines.append("-- the nonterminals")
    for number, name in enumerate(names[:first], FIRST_NONTERMINAL):
        name = RENAMED.get(name, name)
        lines += [f"abbrev pub {name} : ℕ", f"{name} = {number}", ""]
    lines += ["-- the first of the actions, which stand for no token", "abbrev pub FIRST_ACTION : ℕ", f"FIRST_ACTION = {FIRST_NONTERMINAL + first}"]
    return "\n".join(lines) + "\n"


def productions_file(language, crate, page, tokens, rows):
    def symbol(word):
        return tokens.get(bare(word)) or RENAMED.get(word, word)

    used = sorted({symbol(word) for head, body, barred in rows for word in [head] + body + ([barred] if barred else [])})
    lines = [
        f"-- The grammar of the {language} profile, factored so that one token ahead decides: docs/{page} has the",
        "-- published form. A nonterminal with several productions is a choice of them.",
        "use Rattle.std.specs.Prelude.{List, [], ◌∷◌}",
        "use Rattle.ll_parse.specs.Productions.{Production, ◌⟶◌, nothing_but_before}",
        f"use Rattle.{crate}.specs.Symbols.{{{', '.join(used)}}}",
        "",
        "-- all productions, in the order of their numbers",
        "unfoldable pub PRODUCTIONS : List Production",
        "PRODUCTIONS =",
    ]
    last = None
    for head, body, barred in rows:
        if head != last:
            lines.append("    -- " + head + " = " + " | ".join(" ".join(b) + (f"(not before {bar})" if bar else "") or "nothing" for h, b, bar in rows if h == head))
        last = head
        if barred:
            assert not body
            lines.append(f"    nothing_but_before {symbol(head)} {symbol(barred)} ∷")
        else:
            lines.append(f"    ({symbol(head)} ⟶ {''.join(symbol(word) + ' ∷ ' for word in body)}[]) ∷")
    return "\n".join(lines + ["    []"]) + "\n"


LIBRARY = """//! The grammar of the {language} profile as a table, which is LL(1), with the actions that build the tree.
//!
//! `specs/Productions.antt` is the grammar to read, beside docs/{page}; the contract of `table` ties the table
//! to it. `grammars/{name}.actions` has the productions with their actions and `grammars/{name}.sorts` what each action
//! takes and gives; `grammars/generate.py` makes this file of both, and the tests of the table check it. The kinds of
//! token are those of `TokenKind` in `{token_crate}`.
#![tactic(auto)]

ghost use Rattle.std.specs.Prelude.{{◌≡◌}};
ghost use Rattle.ll_parse.specs.Conditions.{{IsLl}};
ghost use Rattle.ll_parse.specs.Productions.{{HasProductions}};
ghost use Rattle.ll_parse.specs.Tables.{{lists_of}};
ghost use Rattle.{crate}.specs.Productions.{{PRODUCTIONS}};
ghost use Rattle.{crate}.specs.Symbols.{{FIRST_ACTION}};
ghost use Rattle.{crate}.specs.{module}.{{{lists}}};

use ll_parse::Table;
use node_depth::Weave;

/// The table of the {language} profile: its productions are those of `PRODUCTIONS`, with the actions in their bodies, and
/// one token ahead decides between them.
pub fn table() -> Table
    ensures is {{ lists_of result ≡ {lists} }}
    ensures ll {{ IsLl (lists_of result) }}
    ensures productions {{ HasProductions (lists_of result) FIRST_ACTION PRODUCTIONS }}
{{
    Table {{
        start: 256,
        heads: &HEADS,
        bodies: &BODIES,
        symbols: &SYMBOLS,
        not_before: &NOT_BEFORE,
        rows: &ROWS,
        follows: &FOLLOWS,
        witnesses: &WITNESSES,
        ranks: &RANKS,
        costs: &COSTS,
        nullable: &NULLABLE,
        per_token: {per_token},
    }}
}}

"""


def is_class(word):
    return word in ("ID", "INT", "CHAR", "STRING", "DEC", "BASED")


def shown(word):
    """A token in quotes, a class of tokens and a nonterminal without."""
    word = bare(word)
    return word if is_class(word) else f'"{word}"'


def program_files():
    """The words for the symbols of both grammars, and both grammars as text, for `show_grammars`."""
    names, text = ["//! The words for the symbols of both grammars, made by `grammars/generate.py`."], []
    for language, (name, _, _, _, _, _) in LANGUAGES.items():
        path = f"{TOP}/grammars/{name}.actions"
        grammar, tokens = Grammar(path), token_names(path)
        first, rows = plain(grammar)
        for kind, words in (("TOKENS", [shown(word) for word in tokens]), ("NAMES", grammar.names[:first])):
            quoted = ", ".join('"' + word.replace('"', '\\"') + '"' for word in words)
            names.append(f"pub static {language.upper()}_{kind}: [&str; {len(words)}] = [{quoted}];")
        text += [f"The {language} profile", ""]
        for head in grammar.names[:first]:
            bodies = []
            for _, body, barred in (row for row in rows if row[0] == head):
                words = " ".join(word if grammar.is_nonterminal(word) else shown(word) for word in body) or "nothing"
                bodies.append(words + (f" (not before {shown(barred)})" if barred else ""))
            text.append(f"{head} = " + " | ".join(bodies))
        text.append("")
    yield "crates/show_grammars/src/words.rt", "\n\n".join(names) + "\n"
    yield "crates/show_grammars/stdout", "\n".join(text[:-1]) + "\n"


def library_file(language, page):
    name, crate, token_crate, module, lists, _ = LANGUAGES[language]
    path = f"{TOP}/grammars/{name}.actions"
    grammar = Grammar(path)
    _, per_token = costs(grammar, nullables(grammar))
    head = LIBRARY.format(language=language, page=page, name=name, crate=crate, token_crate=token_crate, module=module, lists=lists, per_token=per_token)
    return head + printed(print_statics, path, "", f"{TOP}/grammars/{name}.sorts")


def sorts_file(language, name, parts):
    grammar = Grammar(f"{TOP}/grammars/{name}.actions")
    actions = Actions(grammar, f"{TOP}/grammars/{name}.sorts")
    return printed(antt_statics, grammar, actions, "", parts)


def files():
    for language, (name, crate, token_crate, _, _, sorts) in LANGUAGES.items():
        path = f"{TOP}/grammars/{name}.actions"
        grammar, tokens = Grammar(path), token_names(path)
        first, rows = plain(grammar)
        page = f"{name.upper()}_PROFILE.md"
        yield f"crates/{crate}/src/lib.rt", library_file(language, page)
        yield f"crates/{crate}/specs/Symbols.antt", symbols_file(language, token_crate, tokens, grammar.names, first)
        yield f"crates/{crate}/specs/Productions.antt", productions_file(language, crate, page, tokens, rows)
        for path, head, parts in sorts:
            yield f"crates/{path}", head + sorts_file(language, name, parts)
    yield from program_files()


def without_layout(text):
    return re.sub(r",(?=[\])}])", "", re.sub(r"\s+", "", text))


def main(check=None):
    wrong = 0
    for path, text in files():
        if not check:
            with open(f"{TOP}/{path}", "w") as out:
                out.write(text)
        elif without_layout(open(f"{TOP}/{path}").read()) != without_layout(text):
            print(f"not what grammars/generate.py gives: {path}")
            wrong = 1
    sys.exit(wrong)


if __name__ == "__main__":
    main(*sys.argv[1:])
