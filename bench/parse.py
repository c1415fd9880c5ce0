#!/usr/bin/env python3
"""Times the parser and the source tree: `vaosdi compile` on texts of up to 2,000,000 tokens.

    bench/parse.py [--runs 5]

A long chain of statements stands in three texts. One ends in an unknown macro, so that it is read and expanded and no more; one in
a bad token, so that kinds and parse come to that; the third is a sentence that is not of the form that is built, so that its tree is
made and its sizes are looked at. Each is to grow in step with the text: at twice the text by a factor of at most 2.2. What
comes to the reading is to take at most 5 times as long as that, and at most 320 bytes a token. Of a list of arguments as long
as a text may hold, and of a million `(`, the numbers are printed. Nothing is kept: the texts are made in a fresh folder. It
ends with status 1 where a bound is passed.
"""
import os
import subprocess
import tempfile

from measure import GROWTH, PROGRAM, compiled, growth, run_bench

TIMES = 5
BYTES = 320
# A text may hold 2,000,000 tokens. A statement of the chain has 8.
CHAIN = 124_990
ARGUMENTS = 999_980

HEAD = """nature Voltage
units = "V";
access = V;
abstol = 1e-6;
endnature
nature Current
units = "A";
access = I;
abstol = 1e-12;
endnature
discipline electrical
potential Voltage;
flow Current;
enddiscipline
module chain(a, c);
inout a, c;
electrical a, c;
parameter real p = 2;
real x;
analog begin
x = V(a, c);
"""


def chain(end):
    """So many statements, and this end."""
    def text(write, n):
        write(HEAD)
        for k in range(1, n + 1):
            write(f'x = x * p + {k};\n')
        write(end)
        return 8 * n
    return text


def arguments(write, n):
    """A call with so many arguments."""
    write('module m; analog x = f(1')
    for _ in range(1, n):
        write(', 1')
    write('); endmodule\n')
    return 2 * n


def parentheses(write, n):
    """So many open parentheses, and nothing behind them."""
    write('module m; analog x = ')
    for _ in range(n):
        write('(')
    write('\n')
    return n


class Text:
    """A text in a folder of its own, with its tokens, and the code of the fault that it is to end with."""

    def __init__(self, top, name, make, n, code):
        self.name = name
        self.code = code
        self.folder = os.path.join(top, name)
        os.mkdir(self.folder)
        with open(os.path.join(self.folder, 'm.va'), 'w') as file:
            self.tokens = make(file.write, n)

    def ending(self):
        """A note where the text ends otherwise."""
        done = subprocess.run([PROGRAM, 'compile', 'm.va'], cwd=self.folder, capture_output=True, text=True, check=False)
        line = done.stderr.split()
        return [] if line and line[-1] == self.code else [f'ends with {done.returncode} {done.stderr.strip()}']


class Bench:
    def __init__(self, runs):
        self.runs = runs
        self.passed = 0
        [(_, run)] = self.taken([('an empty text', lambda write, n: 0, 0, 'Unbuilt')])
        self.base = run.peak

    def taken(self, rows):
        """The texts of some rows, each with what its compilation took."""
        with tempfile.TemporaryDirectory() as top:
            texts = [Text(top, *row) for row in rows]
            runs = compiled([text.folder for text in texts], self.runs)
            for text, run in zip(texts, runs):
                self.note(f'{text.name:>24} {text.tokens:9} {run.seconds:8.3f} {run.peak:8.1f}', text.ending())
            return list(zip(texts, runs))

    def note(self, line, notes):
        """Prints a line with what is not as it should be."""
        self.passed += bool(notes)
        print(f'{line}  {", ".join(notes)}')

    def chains(self):
        """The chain at n and 2n, read, parsed, and made a tree."""
        ends = [('read', '`NO\n', 'UnknownMacro'), ('bad token', 'end endmodule )\n', 'Syntax'), ('tree', 'end endmodule\n', 'Unbuilt')]
        rows = [(f'{name}, {times}n', chain(end), times * CHAIN, code) for name, end, code in ends for times in (1, 2)]
        taken = self.taken(rows)
        for (name, _, _), at in zip(ends, (0, 2, 4)):
            factor = growth(taken[at][1], taken[at + 1][1])
            self.note(f'{name:>24} {factor:27.2f}', [] if factor <= GROWTH else [f'above {GROWTH}'])
        (_, read), (text, tree) = taken[1], taken[5]
        factor = (tree.seconds - read.seconds) / read.seconds
        self.note(f'{"tree beside reading":>24} {factor:27.2f}', [] if factor <= TIMES else [f'above {TIMES}'])
        size = (tree.peak - self.base) * (1 << 20) / text.tokens
        self.note(f'{"bytes a token":>24} {size:27.0f}', [] if size <= BYTES else [f'above {BYTES}'])


def bounds_passed(runs):
    bench = Bench(runs)
    bench.chains()
    bench.taken([('a list of arguments', arguments, ARGUMENTS, 'Unbuilt'), ('open parentheses', parentheses, 1_000_000, 'Syntax')])
    return bench.passed


if __name__ == '__main__':
    run_bench(__doc__, f'{"text":>24} {"tokens":>9} {"s":>8} {"peak MB":>8}', bounds_passed)
