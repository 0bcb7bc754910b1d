#!/usr/bin/env python3
"""Measures `load` with `show errors` on 1,000,000 bytes of Pascal, against `load` alone.

    bench/errors.py [PROGRAM]

PROGRAM is the built pecan (crates/pecan/out/pecan). The first text is the ordinary mixed Pascal of bench/mixed.py; the bar is that
`load` and `show errors` together take at most 0.18 of the yardstick. Two more texts ask much of one table each: names used inside
`with` of a record of 1,000 fields, each of them a field, and 50,000 variables in one declaration part. None has an error. Each
figure is the best of five runs, in seconds, with the largest resident memory. The yardstick is the time of `fpc -Miso -s` for the
same text in the same run, where fpc is installed."""
import random, sys
from load import fpc_time, run
from mixed import PROGRAM, Writer

BAR = 0.18
FIELDS = 1_000
VARIABLES = 50_000


def filled(head, piece, tail, size):
    """A program of about so many bytes: a head, as many pieces as fit, and a tail."""
    source = random.Random(13)
    pieces, total = [], len(head) + len(tail)
    while True:
        more = piece(source, len(pieces))
        if total + len(more) > size:
            return head + ''.join(pieces) + tail
        pieces.append(more)
        total += len(more)


def many_fields(size):
    """Procedures that use the fields of one record, inside `with`."""
    fields = ''.join('    field%d: integer;\n' % i for i in range(FIELDS))
    head = 'program fields;\ntype\n  wide = record\n%s    final: integer\n  end;\nvar\n  it: wide;\n' % fields

    def piece(source, number):
        field = lambda: 'field%d' % source.randrange(FIELDS)
        uses = ''.join('    %s := %s + %s;\n' % (field(), field(), field()) for _ in range(30))
        return 'procedure part%d;\nbegin\n  with it do begin\n%s    final := 0\n  end\nend;\n' % (number, uses)
    return filled(head, piece, 'begin\n  it.final := 0\nend.\n', size)


def many_variables(size):
    """Variables of one declaration part, each with a denoter of its own, and as many uses as there is room for."""
    head = 'program variables;\nvar\n' + ''.join('  v%d: integer;\n' % i for i in range(VARIABLES)) + 'begin\n'

    def piece(source, _number):
        return '  v%d := v%d;\n' % (source.randrange(VARIABLES), source.randrange(VARIABLES))
    return filled(head, piece, '  v0 := 0\nend.\n', size)


def measure(name, text, bar=None):
    """Prints the figures of a text; whether it has no entry and keeps the bar."""
    load = ('load <<END\n%sEND\n' % text).encode()
    peer = fpc_time(text)
    ratio = lambda seconds: ', ratio to fpc %.3f' % (seconds / peer) if peer else ''
    took, memory, out = run([PROGRAM], load)
    print('%s: %d bytes, %d lines, %s' % (name, len(text), text.count('\n'), 'fpc -Miso -s %.3f s' % peer if peer else 'no fpc'))
    print('  load: %.4f s, %.0f MB%s' % (took, memory, ratio(took)))
    both, memory, shown = run([PROGRAM], load + b'show errors\n')
    print('  load and show errors: %.4f s, %.0f MB%s, ratio to a load %.2f' % (both, memory, ratio(both), both / took))
    five, memory, _ = run([PROGRAM], load + b'show errors\n' * 5)
    alone = (five - took) / 5
    print('  show errors: %.4f s%s, ratio to a load %.2f (over five, %.0f MB)' % (alone, ratio(alone), alone / took, memory))
    good = out == shown == b'ok 0\n'
    if not good:
        print('  NO EMPTY LIST: ' + repr(shown[:80]))
    if bar and peer:
        kept = both / peer <= bar
        print('  the bar, %.2f of fpc for both: %s' % (bar, 'kept' if kept else 'NOT KEPT'))
        good = good and kept
    return good


def main():
    texts = [('mixed', Writer().program(1_000_000), BAR), ('fields of a with', many_fields(1_000_000), None), ('variables', many_variables(1_000_000), None)]
    return 0 if all([measure(*text) for text in texts]) else 1


if __name__ == '__main__':
    sys.exit(main())
