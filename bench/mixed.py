#!/usr/bin/env python3
"""Measures `load`, `show syntax`, one `fill` and one `retype` on 1,000,000 bytes of ordinary mixed Pascal.

    bench/mixed.py [PROGRAM]

PROGRAM is the built pecan (crates/pecan/out/pecan). The text is written here from a fixed seed: constants, enumerations, records,
arrays, sets, procedures and functions with parameters, every statement and comments, and Free Pascal compiles it. Each figure is
the best of seven runs, in seconds. The yardstick is the time of `fpc -Miso -s` for the same text, where fpc is installed."""
import os, random, shutil, subprocess, sys, tempfile
from load import fpc_time, run

HERE = os.path.dirname(os.path.abspath(__file__))
PROGRAM = sys.argv[1] if len(sys.argv) > 1 else os.path.join(HERE, '..', 'crates', 'pecan', 'out', 'pecan')

HEAD = """program mixed(input, output);
{ A program of many parts, which does nothing of use }
const
  max = 100;
  low = -5;
  title = 'mixed';
type
  grade = (poor, fair, good);
  count = 0..1000;
  letters = set of char;
  item = record
    key: integer;
    mark: count;
    level: grade
  end;
  row = array [1..max] of integer;
  table = array [1..max] of item;
var
  items: table;
  numbers: row;
  total, i: integer;
  seen: letters;
"""


class Writer:
    """A text of about so many bytes, as a list of lines."""

    def __init__(self):
        self.source = random.Random(11)
        self.number = 0

    def name(self):
        return self.source.choice(['first', 'second', 'sum', 'left', 'right', 'k'])

    def factor(self, deep):
        kind = self.source.randrange(7)
        if kind == 0:
            return str(self.source.randrange(1, 1000))
        if kind == 1 and deep:
            return '(%s)' % self.expression(deep - 1)
        if kind == 2:
            return 'numbers[%s]' % self.name()
        if kind == 3:
            return 'items[%s].%s' % (self.name(), self.source.choice(['key', 'mark']))
        if kind == 4:
            return self.source.choice(['max', 'abs(%s)' % self.name(), 'sqr(%s)' % self.name()])
        return self.name()

    def expression(self, deep=2):
        parts = [self.factor(deep)]
        for _ in range(self.source.randrange(3)):
            operator = self.source.choice(['+', '-', '*', 'div', 'mod'])
            parts += [operator, self.name() if operator in ('div', 'mod') else self.factor(deep)]
        return ' '.join(parts)

    def condition(self):
        test = '%s %s %s' % (self.expression(1), self.source.choice(['=', '<>', '<', '>', '<=', '>=']), self.expression(1))
        if self.source.randrange(4) == 0:
            return "(%s) and not (chr(65) in seen)" % test
        return test

    def statement(self, indent, deep):
        pad = '  ' * indent
        kind = self.source.randrange(14) if deep else self.source.randrange(6)
        if kind < 4:
            return ['%s%s := %s' % (pad, self.source.choice([self.name(), 'numbers[%s]' % self.name(), 'items[%s].key' % self.name()]), self.expression())]
        if kind == 4:
            return ["%swriteln('at ', %s:6, %s)" % (pad, self.name(), self.expression(1))]
        if kind == 5:
            return ['%snext(%s, total)' % (pad, self.expression(1))]
        if kind == 6:
            return [pad + 'if %s then' % self.condition()] + self.statement(indent + 1, 0) + [pad + 'else'] + self.statement(indent + 1, deep - 1)
        if kind == 7:
            return [pad + 'while %s do' % self.condition()] + self.block(indent + 1, deep - 1)
        if kind == 8:
            return [pad + 'for m := 1 to %s do' % self.expression(0)] + self.statement(indent + 1, 0)
        if kind == 9:
            return [pad + 'repeat'] + self.statements(indent + 1, deep - 1) + [pad + 'until %s' % self.condition()]
        if kind == 10:
            lines = [pad + 'case %s of' % self.name()]
            for label in (1, 2, 3):
                lines += ['%s  %d:' % (pad, label)] + self.statement(indent + 2, 0)
                lines[-1] += ';' if label < 3 else ''
            return lines + [pad + 'end']
        if kind == 11:
            return [pad + 'with items[%s] do' % self.name()] + self.statement(indent + 1, 0)
        if kind == 12:
            return [pad + '{ the next part counts again }'] + self.statement(indent, 0)
        return self.block(indent, deep - 1)

    def statements(self, indent, deep):
        lines = []
        count = 2 + self.source.randrange(3)
        for j in range(count):
            lines += self.statement(indent, deep)
            lines[-1] += ';' if j + 1 < count else ''
        return lines

    def block(self, indent, deep):
        return ['  ' * indent + 'begin'] + self.statements(indent + 1, deep) + ['  ' * indent + 'end']

    def routine(self):
        self.number += 1
        n = self.number
        if n % 3 == 0:
            head = ['{ the value of part %d }' % n, 'function value%d(first, second: integer): integer;' % n]
        else:
            head = ['procedure part%d(first: integer; var second: integer);' % n]
        last = ['  value%d := first' % n] if n % 3 == 0 else ['  second := first']
        body = self.statements(1, 2)
        body[-1] += ';'
        return head + ['var', '  sum, left, right, k, m: integer;', 'begin', '  sum := 0;', '  left := first;', '  right := second;'] + body + last + ['end;', '']

    def program(self, size):
        lines = HEAD.split('\n') + ['procedure next(a: integer; var b: integer);', 'begin', '  b := b + a', 'end;', '']
        total = sum(len(line) + 1 for line in lines)
        while True:
            more = self.routine()
            length = sum(len(line) + 1 for line in more)
            if total + length > size - 60:
                break
            lines += more
            total += length
        return '\n'.join(lines + ['begin', '  total := 0; i := 1; { done }', '  seen := []', 'end.', ''])


def main():
    text = Writer().program(1_000_000)
    load = ('load <<END\n%sEND\n' % text).encode()
    peer = fpc_time(text)
    took, memory, out = run([PROGRAM], load)
    print('%d bytes, %d lines: %s' % (len(text), text.count('\n'), out.decode().strip()[:60]))
    ratio = lambda seconds: ', ratio to fpc %.3f' % (seconds / peer) if peer else ''
    if peer:
        print('fpc -Miso -s: %.3f s' % peer)
    print('load: %.4f s, %.0f MB%s' % (took, memory, ratio(took)))
    shown, memory, out = run([PROGRAM], load + b'show syntax\n' * 5)
    print('show syntax: %.4f s%s (over five, %.0f MB)' % ((shown - took) / 5, ratio((shown - took) / 5), memory))
    filled, memory, out = run([PROGRAM], load + b'fill /3/5/1/1 total := total + 1\n' * 20)
    print('fill of one statement: %.5f s, ratio to a load %.4f; %s' % ((filled - took) / 20, (filled - took) / 20 / took, out.decode().split('\n')[-2]))
    retyped, memory, out = run([PROGRAM], load + b'retype 1:9-1:14 other\nretype 1:9-1:14 mixed\n' * 2)
    print('retype of a name: %.4f s, ratio to a load %.2f, %.0f MB; %s' % ((retyped - took) / 4, (retyped - took) / 4 / took, memory, out.decode().split('\n')[-2]))


if __name__ == '__main__':
    main()
