#!/usr/bin/env python3
"""Measures edits of one place in a program of 100,000 nodes.

    bench/edits.py [PROGRAM]

PROGRAM is the built pecan (crates/pecan/out/pecan). Two programs of the same size are edited: one whose body is 100
compounds of 250 statements, and one whose body is a single list of 25,000. Each figure is the best of three runs: 10,000
pairs of a `put`, an `add` or a `fill` and its `undo`, and 10,000 puts in a row that are all kept. The yardstick is loading the whole text as
often, from a run of 40 loads. What the one load costs that stands before the edits is taken off."""
import os, subprocess, sys, tempfile, time

HERE = os.path.dirname(os.path.abspath(__file__))
PROGRAM = sys.argv[1] if len(sys.argv) > 1 else os.path.join(HERE, '..', 'crates', 'pecan', 'out', 'pecan')
EDITS = 10_000


def nested():
    """100 compounds of 250 statements: the text, and the list and number of a statement by a number."""
    block = 'begin\n' + ';\n'.join(['x := 1'] * 250) + '\nend'
    text = 'program nested;\nvar x: integer;\nbegin\n' + ';\n'.join([block] * 100) + '\nend.\n'
    return text, lambda i: '/3/5/1/%d/1 %d' % (i % 100 + 1, i * 7 % 250 + 1)


def flat():
    """25,000 statements in one list."""
    text = 'program flat;\nvar x: integer;\nbegin\n' + ';\n'.join(['x := 1'] * 25_000) + '\nend.\n'
    return text, lambda i: '/3/5/1 %d' % (i * 7 % 25_000 + 1)


def run(script):
    """The best time of three runs, and the peak memory in MB, of one that answers every command with `ok`."""
    best, memory = None, 0
    for _ in range(3):
        with tempfile.TemporaryFile() as given:
            given.write(script.encode())
            given.seek(0)
            began = time.perf_counter()
            child = subprocess.Popen([PROGRAM], stdin=given, stdout=subprocess.PIPE)
            out = child.stdout.read()
            _, _, used = os.wait4(child.pid, 0)
            took = time.perf_counter() - began
        assert out.replace(b'ok 0\n', b'') == b'', out[:200]
        best = took if best is None else min(best, took)
        memory = max(memory, used.ru_maxrss / 1024)
    return best, memory


def line(edit, place):
    """The line of an edit at a place."""
    words = place.split()
    return edit.format(path='/'.join(words), list=words[0], number=words[1]) + '\n'


def main():
    for name, (text, place) in (('100 lists of 250', nested()), ('one list of 25,000', flat())):
        load = 'load <<END\n%sEND\n' % text
        once, base = run(load)
        loads, kept = run(load * 41)
        whole = (loads - once) / 40
        print('%s: %d bytes; a load %.1f ms and %.1f MB more for each' % (name, len(text), whole * 1e3, (kept - base) / 40))
        for edit in 'put {path} ?statement', 'add {list} {number} ?statement', 'fill {path} x := x + 1':
            pairs, memory = run(load + ''.join(line(edit, place(i)) + 'undo\n' for i in range(EDITS)))
            print('  %d times %s with its undo: %.3f s, %.1f MB more; a load as often: %.0f s; ratio %.5f'
                  % (EDITS, edit[:4].strip(), pairs - once, memory - base, whole * EDITS, (pairs - once) / (whole * EDITS)))
        puts, memory = run(load + ''.join(line('put {path} ?statement', place(i)) for i in range(EDITS)))
        print('  %d puts, all kept: %.3f s, %.0f MB more; trees of their own would take %.0f MB; ratio %.5f'
              % (EDITS, puts - once, memory - base, (kept - base) / 40 * EDITS, (memory - base) / ((kept - base) / 40 * EDITS)))


if __name__ == '__main__':
    main()
