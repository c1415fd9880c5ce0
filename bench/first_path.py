#!/usr/bin/env python3
"""Times `vaosdi compile` on texts of the first form, each at n and 2n, and prints seconds and peak memory.

    bench/first_path.py [--runs 7]

Both are to grow in step with the text: for twice the text by a factor of at most 2.2. Texts of a few kilobytes take
about as long as starting a program does, so their factors lie below. Nothing is kept: the texts are made in a fresh
folder. It ends with status 1 where a factor is above.
"""
import os
import tempfile

from measure import GROWTH, compiled, growth, run_bench


# So many summands stand in one chain: three levels of chains stay within the depth that a source may have.
WIDTH = 150


def nested(parts):
    """A sum of these summands, in parentheses where a chain would be too deep."""
    while len(parts) > WIDTH:
        chains = [parts[i:i + WIDTH] for i in range(0, len(parts), WIDTH)]
        parts = ['+ (' + '\n'.join(chain).removeprefix('+ ') + ')' for chain in chains]
    return '\n'.join(parts).removeprefix('+ ')


def text_of(params, terms):
    """A module with so many parameters, and a sum of so many products of them."""
    names = [f'p{i}' for i in range(params)]
    lines = ['module m(a, c);', 'inout a, c;', 'electrical a, c;']
    lines += [f'parameter real {name} = {i + 1};' for i, name in enumerate(names)]
    signs = ['+', '-']
    parts = []
    for i in range(terms):
        sign = '' if i % WIDTH == 0 else signs[i % 2] + ' '
        parts.append(f'{sign}V(a, c) * {names[i * 7919 % params]}')
    lines.append('analog I(a, c) <+ ' + nested(parts) + ';')
    lines.append('endmodule')
    return '\n'.join(lines) + '\n'


def written(top, name, text):
    """A new folder with the text in it."""
    folder = os.path.join(top, name)
    os.mkdir(folder)
    with open(os.path.join(folder, 'm.va'), 'w') as file:
        file.write(text)
    return folder


def bounds_passed(runs):
    """How many texts grow faster than they may."""
    cases = [(f'{n} parameters', n, lambda n: text_of(n, 100), 0) for n in (10, 1000, 2000)]
    cases += [(f'{n} terms', n, lambda n: text_of(10, n), 0) for n in (1000, 10000, 100000)]
    cases += [(f'{n} MB of spaces', n, lambda n: ' ' * (n << 20), 1) for n in (1, 4, 8)]
    late = 0
    for name, n, make, wanted in cases:
        with tempfile.TemporaryDirectory() as top:
            one, two = compiled([written(top, 'n', make(n)), written(top, '2n', make(2 * n))], runs)
        times = growth(one, two)
        sizes = two.peak / one.peak
        note = '' if times <= GROWTH and sizes <= GROWTH else '  above'
        if (one.status, two.status) != (wanted, wanted):
            note += f'  status {one.status}, {two.status}'
        late += bool(note)
        print(f'{name:>20} {one.seconds:9.3f} {one.peak:8.1f} {two.seconds:9.3f} {two.peak:8.1f} {times:6.2f} {sizes:6.2f}{note}')
    return late


if __name__ == '__main__':
    run_bench(__doc__, f'{"text":>20} {"n: s":>9} {"MB":>8} {"2n: s":>9} {"MB":>8} {"s":>6} {"MB":>6}', bounds_passed)
