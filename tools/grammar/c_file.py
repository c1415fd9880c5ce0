"""The files of crates/c_syntax."""

import re

import modules
from facts import Facts, Row
from layout import ARRAY_WIDTH, CODE_WIDTH, WIDTH, packed

CRATE = "crates/c_syntax"
SPECS = f"{CRATE}/specs/grammar"
NAMES = f"{SPECS}/Names.antt"
ROWS = f"{SPECS}/Rows.antt"


class Grammar:
    """The names of kinds and nonterminals and the rows, in the order of their numbers."""

    def __init__(self, names, rows):
        self.kinds = [name for part in ("class", "number", "mark", "word", "field") for name in names_in(names, f"{part}_names")]
        self.lefts = names_in(names, "nonterminal_names")
        known = {kind: ("kind", i) for i, kind in enumerate(self.kinds)}
        known.update({left: ("left", i) for i, left in enumerate(self.lefts)})
        self.rows = []
        for text in rows_in(rows):
            left, equals, *symbols = text.split()
            assert equals == "=", text
            symbols = [] if symbols == ["."] else symbols
            self.rows.append(Row(self.lefts.index(left), [known[symbol] for symbol in symbols], text))
        self.facts = Facts(self.rows, len(self.lefts), 0, 0)


def block(text, name):
    """The lines of a definition below its first."""
    return re.search(rf"^{name} =\n((?:    .*\n)+)", text, re.M)[1]


def quoted(text):
    return re.findall(r'codes "([^"]*)"', text)


def names_in(text, name):
    lines = re.search(rf"^{name} =\s(.*(?:\n    .*)*)", text, re.M)[1]
    return " ".join(quoted(lines)).split()


def rows_in(text):
    return ["".join(quoted(row)) for row in block(text, "row_texts").split(" ∷\n")[:-1]]


def plain(name):
    """A name without its angle brackets."""
    return name[1:-1]


MADE = f"Made by `tools/grammar_tables` from `{NAMES}` and `Rows.antt`; edit those."


def array(numbers, behind=""):
    """`&[..]` of numbers, with text behind it."""
    line = ", ".join(map(str, numbers))
    if len(line) <= ARRAY_WIDTH:
        return f"    &[{line}],{behind}"
    return f"    &[\n{packed(numbers, '        ')}\n    ],{behind}"


def shortened(text):
    """As much of a row as one line holds."""
    front = text
    while len(front) > CODE_WIDTH - len("    // ") - len(" .."):
        front = front.rsplit(" ", 1)[0]
    return front if front == text else f"{front} .."


def table_code(g):
    def number(symbol):
        sort, number = symbol
        return number if sort == "kind" else len(g.kinds) + number

    def next_kinds(left):
        return [(kind, i) for i, row in enumerate(g.rows) if row.left == left for kind in g.facts.fits(row)]

    def table(column):
        return "\n".join(array([entry[column] for entry in next_kinds(left)], f" // {name}") for left, name in enumerate(g.lefts))

    rows = "\n".join(f"    // {shortened(row.text)}\n{array([number(symbol) for symbol in row.symbols])}" for row in g.rows)
    return f"""//! The parse tables of C files. What the numbers stand for is written in `specs/grammar/Names.antt`, and the rows as texts in
//! `specs/grammar/Rows.antt`; the clauses of `CRows` say that these tables are those.
//!
//! {MADE}

/// How many kinds of tokens there are. As a symbol of a row, a nonterminal has this number and its own.
pub const KINDS: u16 = {len(g.kinds)};

/// How many nonterminals there are.
pub const NONTERMINALS: usize = {len(g.lefts)};

/// The symbols of each row, in order. A row's number is its place, counted from 0.
pub static ROWS: [&[u16]; {len(g.rows)}] = [
{rows}
];

/// For each nonterminal the kinds at which a row of it is chosen.
pub static NEXT_KINDS: [&[u16]; NONTERMINALS] = [
{table(0)}
];

/// For each such kind the row.
pub static NEXT_ROWS: [&[u16]; NONTERMINALS] = [
{table(1)}
];
"""


MADE_SPEC = f"-- {MADE}"


def named(g, kinds_of_lefts):
    """The lines of sets of kinds, by their names."""
    return "\n".join(kinds_named([g.kinds[kind] for kind in kinds], plain(left)) for kinds, left in zip(kinds_of_lefts, g.lefts))


def kinds_named(names, left):
    end = f" ∷  -- {left}"
    if not names:
        return f"    []{end}"
    line = f'    kinds (codes "{" ".join(names)}"){end}'
    if len(line) <= WIDTH:
        return line
    parts = [[]]
    for name in names:
        if len(" ".join(parts[-1] + [name])) > WIDTH - 40:
            parts.append([])
        parts[-1].append(name)
    texts = [" ".join(parts[0])] + [" " + " ".join(part) for part in parts[1:]]
    return "    kinds (" + "\n    ++ ".join(f'codes "{text}"' for text in texts) + f"){end}"


def kind_sets_spec(g):
    names = [plain(left) for left in g.lefts]
    begins = named(g, g.facts.begins)
    follows = named(g, g.facts.follows)
    append = "◌++◌, " if "++" in begins + follows else ""
    return f"""-- What can be empty, begin and follow, for each nonterminal in the order of their numbers.
{MADE_SPEC}
use Rattle.std.specs.Prelude.{{ℕ, Bool, true, false, List, [], ◌∷◌, {append}map, codes}}
use Rattle.std.specs.Option.{{unwrap_or}}
use Rattle.c_tree.specs.Words.{{template}}
use Rattle.c_syntax.specs.grammar.Names.{{kind_names, place_of}}

-- the numbers of kinds by their names
abbrev pub kinds : List ℕ → List ℕ
kinds names = map (λ name. unwrap_or (place_of kind_names name) 1) (template names)

-- whether a nonterminal can be empty
abbrev pub c_empty : List Bool
c_empty =
{modules.flags(g.facts.empty, names)}
    []

-- the kinds with which a nonterminal can begin
abbrev pub c_begins : List (List ℕ)
c_begins =
{begins}
    []

-- the kinds that can follow a nonterminal
abbrev pub c_follows : List (List ℕ)
c_follows =
{follows}
    []
"""


def witnesses_spec(g):
    imports = """use Rattle.std.specs.Prelude.{ℕ, List, [], ◌∷◌, codes}
use Rattle.c_syntax.specs.grammar.KindSets.{kinds}"""
    return modules.witnesses(g.facts, MADE_SPEC, "c", imports, named(g, g.facts.following))


def files(root):
    """The text of each file, by its path."""
    g = Grammar((root / NAMES).read_text(), (root / ROWS).read_text())
    return {
        f"{CRATE}/src/row_tables.rt": table_code(g),
        f"{SPECS}/KindSets.antt": kind_sets_spec(g),
        f"{SPECS}/Witnesses.antt": witnesses_spec(g),
        f"{CRATE}/proofs/Facts.antt": modules.shown(g.facts, MADE_SPEC),
    }
