#!/usr/bin/env python3
"""Times the expansion: `vaosdi compile` on texts that end in an unknown macro, so that nothing comes after it.

    bench/expansion.py [--runs 7]

Texts of 16 MB, as they stand and skipped as a whole, are to take at most 12 times what `wc -w` takes on the same file in
the same run. Results that macros make, at n and 2n tokens, are to grow in step: for twice the result by a factor of at most
2.2. The peak of memory is to be at most 128 bytes a token of the result, the text, and what a run takes on an empty text;
it doesn't grow with the number of uses. Nothing is kept: the texts are made in a fresh folder. It ends with status 1 where
a bound is passed.
"""
import os
import shutil
import tempfile

from measure import GROWTH, PROGRAM, compiled, growth, measured, run_bench

TIMES = 12
BYTES = 128
SIZE = (16 << 20) - 64

# 17 tokens each, the line end among them.
LINE = '  I(anode, cathode) <+ conductance * V(anode, cathode); // {}\n'
PLAIN = LINE.format('the current of the branch between its two ports, by the law of Ohm, in siemens times volts')
SKIPPED = LINE.format('a branch current')


def plain(write):
    """Lines with comments. The tokens of the result."""
    lines = SIZE // len(PLAIN)
    for _ in range(lines):
        write(PLAIN)
    return 16 * lines


def skipped(write):
    """Lines that no condition chooses."""
    write('`ifdef NOPE\n')
    for _ in range(min(SIZE // len(SKIPPED), 3_900_000 // 17)):
        write(SKIPPED)
    write('`endif\n')
    return 0


def doubling(tokens):
    """Macros of which each uses the one before it twice."""
    def text(write):
        write('`define M0' + ' 1' * 30 + '\n')
        made, last = 30, 0
        while 2 * made <= tokens:
            write(f'`define M{last + 1} `M{last} `M{last}\n')
            made, last = 2 * made, last + 1
        write(f'`M{last}\n')
        return made
    return text


def formals(tokens):
    """A macro that gives its argument of 50 tokens 20 times."""
    def text(write):
        write('`define REPEAT(x)' + ' x' * 20 + '\n')
        uses = tokens // 1000
        for _ in range(uses):
            write('`REPEAT(' + ' 1' * 50 + ')\n')
        return 1000 * uses
    return text


def named(tokens):
    """One macro of that many formals, and a use of it: each name is found among all of them."""
    def text(write):
        write('`define MANY(first')
        for at in range(1, tokens):
            write(f', x{at}')
        write(') first')
        for at in range(1, tokens):
            write(f' x{at}')
        write('\n`MANY(1')
        for _ in range(1, tokens):
            write(', 1')
        write(')\n')
        return tokens
    return text


def uses(tokens, each):
    """Uses of a macro that gives so many tokens."""
    def text(write):
        write('`define SOME' + ' 1' * each + '\n')
        for _ in range(tokens // each):
            write('`SOME\n')
        return tokens // each * each
    return text


def empty(write):
    return 0


class Text:
    """A text in a folder of its own, an unknown macro at its end, with its size and the tokens of its result."""

    def __init__(self, top, name, text):
        self.name = name
        self.folder = os.path.join(top, name)
        os.mkdir(self.folder)
        path = os.path.join(self.folder, 'm.va')
        with open(path, 'w') as file:
            self.result = text(file.write)
            file.write('`NO\n')
        self.size = os.path.getsize(path)


class Bench:
    def __init__(self, runs):
        self.runs = runs
        self.passed = 0
        self.base = 0
        with tempfile.TemporaryDirectory() as top:
            text = Text(top, 'an empty text', empty)
            [run] = compiled([text.folder], runs)
            self.base = run.peak
            self.told(text, run)

    def told(self, text, run, bounded=True, beside=None):
        """Prints what a text took, beside another program where one is given."""
        notes = [] if run.status == 1 else [f'status {run.status}']
        most = self.base + (BYTES * text.result + text.size) / (1 << 20)
        if bounded and text.result and run.peak > most:
            notes.append(f'memory above {most:.0f} MB')
        factor = ''
        if beside is not None:
            factor = f'{run.seconds / beside.seconds:.1f} wc'
            if run.seconds > TIMES * beside.seconds:
                notes.append(f'above {TIMES}')
        self.passed += bool(notes)
        line = f'{text.name:>36} {text.size / (1 << 20):7.1f} {text.result:9} {run.seconds:8.3f} {run.peak:8.1f} {factor:>9}'
        print(f'{line}  {", ".join(notes)}')

    def compared(self, name, make):
        """A text, and `wc -w` on it in turn, where that is there."""
        with tempfile.TemporaryDirectory() as top:
            text = Text(top, name, make)
            commands = [(text.folder, [PROGRAM, 'compile', 'm.va'])]
            if shutil.which('wc'):
                commands.append((text.folder, ['wc', '-w', 'm.va']))
            run, *beside = measured(commands, self.runs)
            self.told(text, run, beside=beside[0] if beside else None)

    def grows(self, name, make, tokens, bounded=True):
        """The same text at so many tokens and at twice as many, in turn."""
        with tempfile.TemporaryDirectory() as top:
            texts = [Text(top, f'{name}, {n}', make(tokens * k)) for n, k in (('n', 1), ('2n', 2))]
            one, two = compiled([text.folder for text in texts], self.runs)
            for text, run in zip(texts, (one, two)):
                self.told(text, run, bounded)
        times = growth(one, two)
        note = '' if times <= GROWTH else f'above {GROWTH}'
        self.passed += bool(note)
        print(f'{name:>36} {times:53.2f}  {note}')


def bounds_passed(runs):
    bench = Bench(runs)
    bench.compared('text as it stands', plain)
    bench.compared('skipped text', skipped)
    bench.grows('macros that double', doubling, 990_000)
    bench.grows('arguments that formals give', formals, 950_000)
    # Its text has six tokens for each of the result, so the bound of memory is not asked of it.
    bench.grows('a macro of that many formals', named, 200_000, bounded=False)
    bench.grows('uses of one token', lambda n: uses(n, 1), 600_000)
    bench.grows('uses of 1000 tokens', lambda n: uses(n, 1000), 600_000)
    return bench.passed


if __name__ == '__main__':
    run_bench(__doc__, f'{"text":>36} {"MB":>7} {"tokens":>9} {"s":>8} {"peak MB":>8}', bounds_passed)
