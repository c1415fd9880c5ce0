"""Definitions that are made alike for both grammars."""

from layout import WIDTH, wrapped


def listed(items):
    """The lines of a list of short elements."""
    return wrapped([f"{item} ∷" for item in items] + ["[]"], "    ", WIDTH)


def flags(empty, names):
    return "\n".join(f"    {'true' if flag else 'false'} ∷  -- {name}" for flag, name in zip(empty, names))


def witnesses(facts, made, prefix, imports, following):
    """The lists of which the evidence for the laws is made."""
    return f"""-- What the evidence is made of, for each nonterminal in the order of their numbers.
{made}
{imports}

-- a number that falls from a row's left side to what the row may begin with
abbrev pub {prefix}_ranks : List ℕ
{prefix}_ranks =
{listed(facts.ranks)}

-- the row of a tree that is the least deep
abbrev pub smallest_rows : List ℕ
smallest_rows =
{listed(facts.smallest)}

-- a depth that no such tree exceeds
abbrev pub smallest_depth : ℕ
smallest_depth = {facts.depth}

-- the kinds that come next where what follows are such trees
abbrev pub {prefix}_next : List (List ℕ)
{prefix}_next =
{following}
    []
"""


def shown(facts, made):
    """The proofs that what the sets hold can be empty, begin and follow."""

    def lines(name, items):
        return listed([f"{name} {' '.join(map(str, item))}" for item in items])

    return f"""-- What can be empty, begin and follow, each fact with the row that shows it by facts that stand further down its list.
{made}
use Rattle.std.specs.Prelude.{{ℕ, List, [], ◌∷◌}}
use Rattle.predict.proofs.Sound.{{Fact, EmptyFact}}

-- a nonterminal, and its row that can be empty
abbrev empty : ℕ → ℕ → EmptyFact
empty left row = record {{ left = left; row = row }}

-- a nonterminal, a kind, and a row
abbrev fact : ℕ → ℕ → ℕ → Fact
fact left kind row = record {{ left = left; kind = kind; row = row }}

-- the nonterminals that can be empty
abbrev pub empty_facts : List EmptyFact
empty_facts =
{lines("empty", facts.empty_facts)}

-- the kinds with which a nonterminal can begin
abbrev pub begin_facts : List Fact
begin_facts =
{lines("fact", facts.begin_facts)}

-- the kinds that can follow a nonterminal
abbrev pub follow_facts : List Fact
follow_facts =
{lines("fact", facts.follow_facts)}
"""
