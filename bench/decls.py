#!/usr/bin/env python3
"""Measures `show decls` on 1,000,000 bytes of Pascal.

    bench/decls.py [PROGRAM]

PROGRAM is the built pecan (crates/pecan/out/pecan). The first text is the ordinary mixed Pascal of bench/mixed.py; the bar is that
`show decls` takes at most a tenth of the yardstick. Three more texts ask much of one table each: 50,000 variables in one declaration
part; forward routines, each with its later declaration behind all of them; and variables of a record type of 1,000 fields, each shown
with all of them, so that the view is over its limit. Each figure is the best of five runs, in seconds, with the largest resident
memory. The yardstick is the time of `fpc -Miso -s` for the same text in the same run, where fpc is installed."""
import sys
from errors import FIELDS, PROGRAM, filled, many_variables
from load import fpc_time, run
from mixed import Writer

BAR = 0.1


def forward_routines(size):
    """Routines that are declared forward, and behind all of them their later declarations."""
    count = size // 90
    heads = ''.join('procedure part%d(first, second: integer); forward;\n' % i for i in range(count))
    blocks = ''.join('procedure part%d;\nbegin\nend;\n' % i for i in range(count))
    return 'program waits;\n%s%sbegin\nend.\n' % (heads, blocks)


def wide_variables(size):
    """Variables of one record type with many fields."""
    fields = ''.join('    field%d: integer;\n' % i for i in range(FIELDS))
    head = 'program wide;\ntype\n  wide = record\n%s    final: integer\n  end;\nvar\n' % fields

    def piece(_source, number):
        return '  wide%d: wide;\n' % number
    return filled(head, piece, 'begin\nend.\n', size)


def measure(name, text, bar=None):
    """Prints the figures of a text; whether it keeps the bar."""
    load = ('load <<END\n%sEND\n' % text).encode()
    peer = fpc_time(text)
    ratio = lambda seconds: ', ratio to fpc %.3f' % (seconds / peer) if peer else ''
    took, memory, _ = run([PROGRAM], load)
    print('%s: %d bytes, %d lines, %s' % (name, len(text), text.count('\n'), 'fpc -Miso -s %.3f s' % peer if peer else 'no fpc'))
    print('  load: %.4f s, %.0f MB%s' % (took, memory, ratio(took)))
    five, memory, shown = run([PROGRAM], load + b'show decls\n' * 5)
    alone = (five - took) / 5
    print('  show decls: %.4f s%s, ratio to a load %.2f (over five, %.0f MB, %d bytes each)' % (alone, ratio(alone), alone / took, memory, (len(shown) - 5) // 5))
    if bar and peer:
        kept = alone / peer <= bar
        print('  the bar, %.2f of fpc: %s' % (bar, 'kept' if kept else 'NOT KEPT'))
        return kept
    return True


def main():
    texts = [('mixed', Writer().program(1_000_000), BAR), ('variables', many_variables(1_000_000), None), ('forward routines', forward_routines(1_000_000), None),
             ('variables of a wide record', wide_variables(200_000), None)]
    return 0 if all([measure(*text) for text in texts]) else 1


if __name__ == '__main__':
    sys.exit(main())
