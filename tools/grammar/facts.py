"""What can be empty, begin and follow in a grammar, and what shows it. Symbols are ("kind", number) or ("left", number), and a
number is a place in the list of kinds or of nonterminals, counted from 0."""

from dataclasses import dataclass


@dataclass
class Row:
    left: int
    symbols: list
    # the row as it is written, and its name where it has one
    text: str
    name: str = ""


class Facts:
    """Of a grammar whose text is of one nonterminal, and is ended by one kind."""

    def __init__(self, rows, lefts, start, end_kind):
        self.rows = rows
        self.lefts = lefts
        self.start = start
        self.end_kind = end_kind
        self.empty_facts = self.find_empty()
        self.begin_facts = self.find_begins()
        self.follow_facts = self.find_follows()
        self.smallest, self.depth = self.find_smallest()
        self.following = self.find_following()
        self.ranks = [self.rank(left) for left in range(lefts)]

    # A fact is shown by a row and by facts that stand further down its list, so the lists are turned round at their ends.

    def find_empty(self):
        self.empty = [False] * self.lefts
        facts = []
        grows = True
        while grows:
            grows = False
            for i, row in enumerate(self.rows):
                if not self.empty[row.left] and self.are_empty(row.symbols):
                    self.empty[row.left] = True
                    facts.append((row.left, i))
                    grows = True
        return facts[::-1]

    def firsts(self, symbols, begins):
        """The kinds with which symbols begin, in order, by what is known of nonterminals."""
        kinds = []
        for sort, number in symbols:
            kinds += [number] if sort == "kind" else begins[number]
            if sort == "kind" or not self.empty[number]:
                break
        return list(dict.fromkeys(kinds))

    def are_empty(self, symbols):
        return all(sort == "left" and self.empty[number] for sort, number in symbols)

    def find_begins(self):
        begins = [[] for _ in range(self.lefts)]
        facts = []
        grows = True
        while grows:
            grows = False
            for i, row in enumerate(self.rows):
                for kind in self.firsts(row.symbols, begins):
                    if kind not in begins[row.left]:
                        begins[row.left].append(kind)
                        facts.append((row.left, kind, i))
                        grows = True
        self.begins = [sorted(kinds) for kinds in begins]
        return facts[::-1]

    def find_follows(self):
        follows = [[] for _ in range(self.lefts)]
        follows[self.start].append(self.end_kind)
        facts = [(self.start, self.end_kind, 0)]
        grows = True
        while grows:
            grows = False
            for i, row in enumerate(self.rows):
                for place, (sort, number) in enumerate(row.symbols):
                    if sort == "kind":
                        continue
                    rest = row.symbols[place + 1 :]
                    kinds = self.firsts(rest, self.begins) + (follows[row.left] if self.are_empty(rest) else [])
                    for kind in kinds:
                        if kind not in follows[number]:
                            follows[number].append(kind)
                            facts.append((number, kind, i))
                            grows = True
        self.follows = [sorted(kinds) for kinds in follows]
        return facts[::-1]

    def fits(self, row):
        """The kinds that a row fits: those with which it can begin, and those that can follow it where it can be empty."""
        return self.firsts(row.symbols, self.begins) + (self.follows[row.left] if self.are_empty(row.symbols) else [])

    def row_at(self, left, kind):
        """The number of the first row of the nonterminal that fits the kind, or None."""
        return next((i for i, row in enumerate(self.rows) if row.left == left and kind in self.fits(row)), None)

    def first_row(self, left):
        return next(i for i, row in enumerate(self.rows) if row.left == left)

    def find_smallest(self):
        """For each nonterminal the row of a tree that is the least deep, and a depth that none of these trees exceeds."""
        depths = {}
        smallest = [None] * self.lefts
        depth = 0
        while len(depths) < self.lefts:
            depth += 1
            found = {}
            for i, row in enumerate(self.rows):
                is_known = all(sort == "kind" or number in depths for sort, number in row.symbols)
                if row.left not in depths and is_known:
                    found.setdefault(row.left, i)
            for left, i in found.items():
                depths[left] = depth
                smallest[left] = i
        return smallest, depth

    def leads(self, symbols, after):
        """The kind with which symbols begin where nonterminals have their least deep trees and this kind comes after them."""
        for sort, number in reversed(symbols):
            after = number if sort == "kind" else self.leads(self.rows[self.smallest[number]].symbols, after)
        return after

    def find_following(self):
        """For each nonterminal the kinds that come next after it where what follows in a row are such trees."""
        following = [set() for _ in range(self.lefts)]
        following[self.start].add(self.end_kind)
        grows = True
        while grows:
            grows = False
            for row in self.rows:
                for place, (sort, number) in enumerate(row.symbols):
                    if sort == "left":
                        kinds = {self.leads(row.symbols[place + 1 :], after) for after in following[row.left]}
                        grows = grows or not kinds <= following[number]
                        following[number] |= kinds
        return [sorted(kinds) for kinds in following]

    def rank(self, left):
        """A number that falls from the left side of a row to each nonterminal that the row may begin with."""
        rank = 0
        for row in self.rows:
            if row.left == left:
                for sort, number in row.symbols:
                    if sort == "kind":
                        break
                    rank = max(rank, self.rank(number) + 1)
                    if not self.empty[number]:
                        break
        return rank
