"""The files of crates/va_grammar."""

from dataclasses import dataclass

import modules
from facts import Facts, Row
from layout import code_array, consed, packed

SOURCE = "tools/grammar/verilog_a.txt"
CRATE = "crates/va_grammar"
START = "Source"


@dataclass
class Kind:
    name: str
    written: str
    # what it is, of a kind of many tokens
    note: str

    def is_class(self):
        """Whether it is a kind of many tokens."""
        return self.note != ""

    def is_keyword(self):
        return not self.is_class() and self.written[0].isalpha()

    def is_mark(self):
        return not self.is_class() and not self.is_keyword()

    def doc(self):
        return self.note if self.is_class() else f"`{self.written}`"


class Grammar:
    """The kinds, nonterminals and rows in the order of their numbers."""

    def __init__(self, text):
        head, rows = text.split("\nrows\n")
        self.kinds = []
        for line in head.split("\nkinds\n")[1].splitlines():
            if line:
                self.kinds.append(Kind(*(line.split(None, 2) + [""])[:3]))
        self.keywords = [kind for kind in self.kinds if kind.is_keyword()]
        self.marks = [kind for kind in self.kinds if kind.is_mark()]
        self.lefts = []
        self.notes = []
        self.rows = []
        self.read_rows(rows.splitlines())
        self.facts = Facts(self.rows, len(self.lefts), self.lefts.index(START), 0)

    def read_rows(self, lines):
        written = []
        note = ""
        for line in lines:
            if line.startswith("# "):
                note = line[2:]
            elif line:
                name, text = line.split(": ", 1)
                left, equals, *symbols = text.split()
                assert equals == "=", line
                if left not in self.lefts:
                    self.lefts.append(left)
                    self.notes.append(note)
                written.append((name, text, left, symbols))
        known = {kind.written: ("kind", i) for i, kind in enumerate(self.kinds)}
        known.update({left: ("left", i) for i, left in enumerate(self.lefts)})
        for name, text, left, symbols in written:
            self.rows.append(Row(self.lefts.index(left), [known[symbol] for symbol in symbols], text, name))


MADE = f"Made by `tools/grammar_tables` from `{SOURCE}`; edit that file."


def nonterminal_code(g):
    variants = "\n".join(f"    /// {note}\n    {left}," for left, note in zip(g.lefts, g.notes))
    return f"""//! Nonterminals.
//!
//! {MADE}
ghost use Rattle.std.specs.Prelude.{{◌≡◌}};
ghost use Rattle.va_grammar.specs.Nonterminals.{{nonterminal_number}};

/// A nonterminal of the grammar, which gives way to one of its rows.
///
/// Their numbers are those of this order, from 0.
#[derive(Clone, Copy, Debug, PartialEq, Eq)]
pub enum Nonterminal {{
{variants}
}}

impl Nonterminal {{
    /// The number of the nonterminal, as the parser knows it.
    pub fn number(self) -> u16
        ensures {{ result ≡ nonterminal_number self }}
    {{
        self as u16
    }}
}}
"""


def terminal_code(g):
    variants = "\n".join(f"    /// {kind.doc()}\n    {kind.name}," for kind in g.kinds)
    spellings = "\n".join("    None," if kind.is_class() else f'    Some("{kind.written}"),' for kind in g.kinds)
    return f"""//! Kinds of tokens.
//!
//! {MADE}
ghost use Rattle.std.specs.Prelude.{{◌≡◌}};
ghost use Rattle.std.specs.Option.{{option_map}};
ghost use Rattle.va_grammar.specs.Terminals.{{spelling_of, terminal_number}};

/// A kind of token: what a row of the grammar may hold as it stands.
///
/// Keywords and marks are kinds of their own (Lexical conventions). Their numbers are those of this order, from 0.
#[derive(Clone, Copy, Debug, PartialEq, Eq)]
pub enum Terminal {{
{variants}
}}

/// How each kind is spelled, in the order of their numbers.
static SPELLINGS: [Option<&'static str>; {len(g.kinds)}] = [
{spellings}
];

impl Terminal {{
    /// The number of the kind, as the parser knows it.
    pub fn number(self) -> u16
        ensures {{ result ≡ terminal_number self }}
    {{
        self as u16
    }}

    /// How a keyword or a mark is spelled. The other kinds have no spelling of their own.
    pub fn spelling(self) -> Option<&'static str>
        ensures {{ option_map (λ text. text.now) result ≡ spelling_of self }}
    {{
        SPELLINGS[self.number() as usize]
    }}
}}
"""


def row_code(g):
    names = "\n".join(
        f"/// `{row.text}`{'' if row.symbols else ', which is empty'}\npub const {row.name}: u16 = {i};" for i, row in enumerate(g.rows)
    )
    return f"""//! The numbers of the rows, by name. A row's number is its place among the written rows, counted from 0.
//!
//! {MADE}

{names}
"""


def by_length(kinds):
    """How long the table of some kinds by the lengths of their spellings is, and its lines."""
    count = max(len(kind.written) for kind in kinds) + 1
    lines = [code_array([kind.name for kind in kinds if len(kind.written) == length], "    ") for length in range(count)]
    return count, "\n".join(lines)


def table_code(g):
    def part(symbol):
        sort, number = symbol
        return f"T({g.kinds[number].name})" if sort == "kind" else f"N({g.lefts[number]})"

    def cell(left, kind):
        row = g.facts.row_at(left, kind)
        return "." if row is None else str(row - g.facts.first_row(left))

    rows = "\n".join(f"{code_array([part(symbol) for symbol in row.symbols], '    ')} // {g.lefts[row.left]}" for row in g.rows)
    lines = []
    for left, name in enumerate(g.lefts):
        cells = "".join(cell(left, kind) for kind in range(len(g.kinds)))
        assert len(cells) == len(g.kinds), name
        lines.append(f'    *b"{cells}", // {name}')
    lines = "\n".join(lines)
    keyword_count, keywords = by_length(g.keywords)
    mark_count, marks = by_length(g.marks)
    firsts = packed([g.facts.first_row(left) for left in range(len(g.lefts))], "    ")
    return f"""//! The tables of the grammar.
//!
//! {MADE}

use crate::nonterminal::Nonterminal::*;
use crate::rows::Part::{{self, Rule as N, Token as T}};
use crate::terminal::Terminal;
use crate::terminal::Terminal::*;

/// How many nonterminals there are.
pub const NONTERMINALS: usize = {len(g.lefts)};

/// How many kinds of tokens there are.
pub const KINDS: usize = {len(g.kinds)};

/// The keywords by the number of their bytes, from 0 on (Lexical conventions).
pub static KEYWORDS: [&[Terminal]; {keyword_count}] = [
{keywords}
];

/// The operators and brackets by the number of their bytes, from 0 on (Operators).
pub static MARKS: [&[Terminal]; {mark_count}] = [
{marks}
];

/// The parts of each row, in the written order, and its nonterminal behind them. A row's number is its place, counted from 0.
pub static ROWS: [&[Part]; {len(g.rows)}] = [
{rows}
];

/// The number of the first row of each nonterminal.
pub static FIRST_ROWS: [u8; NONTERMINALS] = [
{firsts}
];

/// The row that each nonterminal gives way to at each kind of token: the first of its rows that fits. There is a line for each
/// nonterminal and a column for each kind, in the order of their numbers. A digit is the row's place among those of the
/// nonterminal, counted from 0, and a dot stands where no row fits. The proof of `VaRows::row` computes that each cell is right.
pub static ROW_AT: [[u8; KINDS]; NONTERMINALS] = [
{lines}
];
"""


MADE_SPEC = f"-- Made by `tools/grammar_tables` from `{SOURCE}`; edit that file."
DECLARED = "Rattle.va_grammar.specs.declared"


TERMINALS = f"use {DECLARED}.terminal.Terminal.TheVariants"
NONTERMINALS = f"use {DECLARED}.nonterminal.Nonterminal.TheVariants"


def terminals_spec(g):
    numbers = "\n".join(f"terminal_number kind.{kind.name} = {i}" for i, kind in enumerate(g.kinds))
    spellings = "\n".join(
        f"spelling_of kind.{kind.name} = " + ("None" if kind.is_class() else f'Some (codes "{kind.written}")') for kind in g.kinds
    )
    return f"""-- The kinds of tokens by number, and how they are spelled.
{MADE_SPEC}
use Rattle.std.specs.Prelude.{{ℕ, List, [], ◌∷◌, Option, Some, None, codes}}
use {DECLARED}.terminal.Terminal.{{Terminal}}
{TERMINALS} as kind

-- the number of a kind
abbrev pub terminal_number : Terminal → ℕ
{numbers}

-- how a keyword or a mark is spelled; the other kinds have no spelling of their own
abbrev pub spelling_of : Terminal → Option (List ℕ)
{spellings}

-- the keywords (Lexical conventions)
abbrev pub keywords : List Terminal
keywords =
{modules.listed([f"kind.{kind.name}" for kind in g.keywords])}

-- the operators and brackets (Operators)
abbrev pub marks : List Terminal
marks =
{modules.listed([f"kind.{kind.name}" for kind in g.marks])}
"""


def nonterminals_spec(g):
    numbers = "\n".join(f"nonterminal_number left.{left} = {i}" for i, left in enumerate(g.lefts))
    return f"""-- The nonterminals by number.
{MADE_SPEC}
use Rattle.std.specs.Prelude.{{ℕ}}
use {DECLARED}.nonterminal.Nonterminal.{{Nonterminal}}
{NONTERMINALS} as left

-- the number of a nonterminal
abbrev pub nonterminal_number : Nonterminal → ℕ
{numbers}
"""


def rows_spec(g):
    def symbol(s):
        sort, number = s
        return f"token {g.kinds[number].name}" if sort == "kind" else f"rule {g.lefts[number]}"

    rows = []
    for row in g.rows:
        front = f"row {g.lefts[row.left]} "
        if row.symbols:
            rows.append(consed([symbol(s) for s in row.symbols], "    ", front + "(", ") ∷"))
        else:
            rows.append(f"    {front}[] ∷")
    rows = "\n".join(rows)
    used = {number for row in g.rows for sort, number in row.symbols if sort == "kind"}
    return f"""-- The rows of the grammar of Verilog-A, as they are written: the syntax of the reference manual, left-factored so that the next
-- token tells the row. Binary operators associate to the left: a tail lists the operators and operands behind the first.
{MADE_SPEC}
use Rattle.std.specs.Prelude.{{List, [], ◌∷◌}}
use Rattle.predict.specs.declared.symbol.Symbol.{{Symbol}}
use Rattle.predict.specs.declared.symbol.Symbol.TheVariants.{{Kind, Left}}
use Rattle.predict.specs.FirstFit.{{Written}}
use Rattle.va_grammar.specs.Terminals.{{terminal_number}}
use Rattle.va_grammar.specs.Nonterminals.{{nonterminal_number}}
use {DECLARED}.terminal.Terminal.{{Terminal}}
{TERMINALS}.{{{', '.join(kind.name for i, kind in enumerate(g.kinds) if i in used)}}}
use {DECLARED}.nonterminal.Nonterminal.{{Nonterminal}}
{NONTERMINALS}.{{{', '.join(g.lefts)}}}

-- a token of this kind
abbrev pub token : Terminal → Symbol
token terminal = Kind (terminal_number terminal)

-- a nonterminal among the symbols of a row
abbrev pub rule : Nonterminal → Symbol
rule nonterminal = Left (nonterminal_number nonterminal)

-- a row of this nonterminal
abbrev pub row : Nonterminal → List Symbol → Written
row nonterminal symbols = record {{ left = nonterminal_number nonterminal; symbols = symbols }}

-- The rows. Where two fit, the one that stands first is taken.
abbrev pub rows : List Written
rows =
{rows}
    []
"""


def kind_sets_spec(g):
    def sets(kinds_of_lefts):
        lines = []
        for kinds, left in zip(kinds_of_lefts, g.lefts):
            words = [g.kinds[kind].name for kind in kinds]
            lines.append(consed(words, "    ", "kinds (", f") ∷  -- {left}") if words else f"    [] ∷  -- {left}")
        return "\n".join(lines)

    used = sorted({kind for kinds in g.facts.begins + g.facts.follows for kind in kinds})
    return f"""-- What can be empty, begin and follow, for each nonterminal in the order of their numbers.
{MADE_SPEC}
use Rattle.std.specs.Prelude.{{ℕ, Bool, true, false, List, [], ◌∷◌, map}}
use {DECLARED}.terminal.Terminal.{{Terminal}}
{TERMINALS}.{{{', '.join(g.kinds[kind].name for kind in used)}}}
use Rattle.va_grammar.specs.Terminals.{{terminal_number}}

-- the numbers of these kinds
abbrev pub kinds : List Terminal → List ℕ
kinds terminals = map terminal_number terminals

-- whether a nonterminal can be empty
abbrev pub va_empty : List Bool
va_empty =
{modules.flags(g.facts.empty, g.lefts)}
    []

-- the kinds with which a nonterminal can begin
abbrev pub va_begins : List (List ℕ)
va_begins =
{sets(g.facts.begins)}
    []

-- the kinds that can follow a nonterminal
abbrev pub va_follows : List (List ℕ)
va_follows =
{sets(g.facts.follows)}
    []
"""


def witnesses_spec(g):
    following = "\n".join(
        f"    ({' ∷ '.join([str(k) for k in kinds] + ['[]'])}) ∷  -- {left}" for kinds, left in zip(g.facts.following, g.lefts)
    )
    imports = "use Rattle.std.specs.Prelude.{ℕ, List, [], ◌∷◌}"
    else_row = next(i for i, row in enumerate(g.rows) if row.name == "ELSE")
    return (
        modules.witnesses(g.facts, MADE_SPEC, "va", imports, following)
        + f"""
-- the row of an `else` and its statement
abbrev pub else_row : ℕ
else_row = {else_row}
"""
    )


def spelled_proof(g):
    kinds = modules.listed([kind.name for kind in g.kinds])
    cases = "\n".join(f"kind_at {kind.name} = refl" for kind in g.kinds)
    return f"""-- A table of the spellings of all kinds, in the order of their numbers, has the spelling of each kind at its number.
{MADE_SPEC}
use Rattle.std.specs.Prelude.{{◌≡◌, ℕ, suc, zero, List, [], ◌∷◌, Option, None, map, get_or, refl}}
use Rattle.std.specs.Option.{{option_map}}
use Rattle.std.proofs.Common.{{ap, ◌∙◌, Bor}}
use {DECLARED}.terminal.Terminal.{{Terminal}}
{TERMINALS}.{{{', '.join(kind.name for kind in g.kinds)}}}
use Rattle.va_grammar.specs.Terminals.{{spelling_of, terminal_number}}

-- all kinds in the order of their numbers
abbrev pub all_kinds : List Terminal
all_kinds =
{kinds}

kind_at : (t : Terminal) → get_or (map spelling_of all_kinds) (terminal_number t) None ≡ spelling_of t
{cases}

-- the bytes of a text that may be missing
abbrev pub bytes_of : Option (Bor (List ℕ)) → Option (List ℕ)
bytes_of text = option_map (λ text. text.now) text

bytes_at : (texts : List (Option (Bor (List ℕ)))) (i : ℕ) → bytes_of (get_or texts i None) ≡ get_or (map bytes_of texts) i None
bytes_at [] i = refl
bytes_at (text ∷ texts) zero = refl
bytes_at (text ∷ texts) (suc i) = bytes_at texts i

pub spelling_at : (texts : List (Option (Bor (List ℕ)))) (t : Terminal) (number : ℕ) → map bytes_of texts ≡ map spelling_of all_kinds →
    number ≡ terminal_number t → bytes_of (get_or texts number None) ≡ spelling_of t
spelling_at texts t number same is =
    bytes_at texts number ∙ ap (λ l. get_or l number None) same ∙ ap (λ n. get_or (map spelling_of all_kinds) n None) is ∙ kind_at t
"""


def files(root):
    """The text of each file, by its path."""
    g = Grammar((root / SOURCE).read_text())
    return {
        f"{CRATE}/src/nonterminal.rt": nonterminal_code(g),
        f"{CRATE}/src/terminal.rt": terminal_code(g),
        f"{CRATE}/src/row.rt": row_code(g),
        f"{CRATE}/src/tables.rt": table_code(g),
        f"{CRATE}/specs/Terminals.antt": terminals_spec(g),
        f"{CRATE}/specs/Nonterminals.antt": nonterminals_spec(g),
        f"{CRATE}/specs/Rows.antt": rows_spec(g),
        f"{CRATE}/specs/KindSets.antt": kind_sets_spec(g),
        f"{CRATE}/specs/Witnesses.antt": witnesses_spec(g),
        f"{CRATE}/proofs/Facts.antt": modules.shown(g.facts, MADE_SPEC),
        f"{CRATE}/proofs/SpelledAt.antt": spelled_proof(g),
    }
