#!/usr/bin/env python3
"""Measures `load` and `show syntax` of programs of 10 KB, 100 KB and 1 MB, and the refusal of a deep text.

    bench/load.py [PROGRAM]

PROGRAM is the built pecan (crates/pecan/out/pecan). Each figure is the best of five runs, in seconds, with the largest
resident memory. The yardstick is the time of `fpc -Miso -s` for the same text, where fpc is installed. The texts have
integer variables, assignments, sums, calls and compounds, and are written here from a fixed seed."""
import os, random, resource, shutil, subprocess, sys, tempfile, time

HERE = os.path.dirname(os.path.abspath(__file__))
PROGRAM = sys.argv[1] if len(sys.argv) > 1 else os.path.join(HERE, '..', 'crates', 'pecan', 'out', 'pecan')


def program_of(size):
    """A program of about so many bytes."""
    source = random.Random(7)
    names = ['a%d' % i for i in range(1, 41)]
    head = 'program large(output);\nvar ' + ', '.join(names) + ': integer;\nbegin\n'
    lines, total = [], len(head) + 6

    def term():
        kind = source.randrange(4)
        if kind == 0:
            return str(source.randrange(10000))
        if kind == 1:
            return '(%s + %d)' % (source.choice(names), source.randrange(100))
        return source.choice(names)

    while total < size - 80:
        kind = source.randrange(6)
        if kind == 0:
            line = '  begin %s := %s; %s := %s end;\n' % (source.choice(names), term(), source.choice(names), term())
        elif kind == 1:
            line = '  write(%s + %s : 8);\n' % (term(), term())
        else:
            line = '  %s := %s + %s;\n' % (source.choice(names), term(), term())
        lines.append(line)
        total += len(line)
    return head + ''.join(lines) + '  a1 := 0\nend.\n'


def run(words, data):
    """The best time of five runs and the peak memory in MB of one, with the last run's output."""
    best, memory, out = None, 0, b''
    for _ in range(5):
        with tempfile.TemporaryFile() as given:
            given.write(data)
            given.seek(0)
            began = time.perf_counter()
            child = subprocess.Popen(words, stdin=given, stdout=subprocess.PIPE, stderr=subprocess.DEVNULL)
            out = child.stdout.read()
            _, _, used = os.wait4(child.pid, 0)
            took = time.perf_counter() - began
        best = took if best is None else min(best, took)
        memory = max(memory, used.ru_maxrss / 1024)
    return best, memory, out


def fpc_time(text):
    if shutil.which('fpc') is None:
        return None
    with tempfile.TemporaryDirectory() as folder:
        path = os.path.join(folder, 'large.pas')
        with open(path, 'w') as file:
            file.write(text)
        best = None
        for _ in range(3):
            began = time.perf_counter()
            subprocess.run(['fpc', '-Miso', '-s', '-o' + os.path.join(folder, 'large'), path], cwd=folder, stdout=subprocess.DEVNULL, stderr=subprocess.DEVNULL)
            took = time.perf_counter() - began
            best = took if best is None else min(best, took)
        return best


def main():
    nothing, _, _ = run([PROGRAM], b'')
    print('start alone: %.4f s' % nothing)
    for size in (10_000, 100_000, 1_000_000):
        text = program_of(size)
        script = ('load <<END\n%sEND\nshow syntax\n' % text).encode()
        took, memory, out = run([PROGRAM], script)
        assert out.startswith(b'ok 0\n'), out[:80]
        again, _, twice = run([PROGRAM], b'load <<END\n' + out[5:] + b'END\nshow syntax\n')
        same = 'the printed text reads and prints the same' if twice == out else 'the printed text has over 1,000,000 bytes' if len(out) > 1_000_005 else 'DIFFERS'
        line = '%7d bytes: %.4f s, %.0f MB; %s' % (len(text), took, memory, same)
        if size == 1_000_000:
            peer = fpc_time(text)
            line += '; fpc -Miso -s %.3f s, ratio %.3f' % (peer, took / peer) if peer else '; no fpc'
        print(line)
    for name, text in (('nested begin, closed', 'program d; ' + 'begin ' * 90_000 + 'end ' * 90_000 + '.'),
                       ('nested begin, open', 'program d; ' + 'begin ' * 90_000),
                       ('parentheses, closed', 'program d; begin x := ' + '(' * 400_000 + '1' + ')' * 400_000 + ' end.'),
                       ('parentheses, open', 'program d; begin x := ' + '(' * 400_000)):
        took, memory, out = run([PROGRAM], ('load <<END\n%s\nEND\n' % text).encode())
        print('%s: %.4f s, %.0f MB, %s' % (name, took, memory, out.decode().strip()))


if __name__ == '__main__':
    main()
