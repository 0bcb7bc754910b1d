#!/usr/bin/env python3
"""No counter of work is made but in `main` and in tests: refuses `Blank::new` anywhere else."""
import os, re, sys

TOP = os.path.join(os.path.dirname(os.path.abspath(__file__)), '..')
TESTS = re.compile(r'(?m)^#\[cfg\(test\)\]\s*(?:pub\s+)?mod\s+(\w+)\s*(;|\{)')


def main():
    faults = []
    for folder, _, names in os.walk(os.path.join(TOP, 'crates')):
        if os.path.basename(folder) != 'src':
            continue
        texts = {}
        for name in names:
            if name.endswith('.rt'):
                with open(os.path.join(folder, name), encoding='utf8') as file:
                    texts[name] = file.read()
        tests = {found[1] + '.rt' for text in texts.values() for found in TESTS.finditer(text)}
        for name, text in sorted(texts.items()):
            # a module of tests within a file stands at its end
            inline = [found.start() for found in TESTS.finditer(text) if found[2] == '{']
            code = text[:inline[0]] if inline else text
            if name != 'main.rt' and name not in tests and re.search(r'\bBlank::new\b', code):
                faults.append(os.path.relpath(os.path.join(folder, name), TOP))
    for fault in faults:
        print('counters: %s makes a counter of work' % fault)
    return 1 if faults else 0


if __name__ == '__main__':
    sys.exit(main())
