#!/usr/bin/env python3
"""Holds docs/DEFINITIONS.md to the pages that the headline stands on.

    .ci/definitions.py [--write]

The clauses of `pecan` cite definitions of some pages, those cite others, and so on. Each page that is reached so must be believed, and
the first list of docs/DEFINITIONS.md has each, with its number of lines; the rows of the other lists are held to their pages too.
A page of lemmas (`..Laws`) is proved, so nothing behind it counts. Prints what is missing, left over or miscounted, and then
ends with status 1. With --write the numbers of lines are put right first."""
import os, re, sys

TOP = os.path.join(os.path.dirname(os.path.abspath(__file__)), '..')
START = 'crates/pc_transcript/src/run.rt'
LIST = 'docs/DEFINITIONS.md'
USE = re.compile(r'(?m)^\s*(?:pub |ghost )*use (Rattle\.[\w.]+?)(?:\.\{[^}]*\}| as \w+)?;?\s*$')
ROW = re.compile(r'^\| `(\w+/specs/[\w/]+)` \| (\d+) \|')


def text_of(path):
    with open(os.path.join(TOP, path), encoding='utf8') as file:
        return file.read()


def page_of(module):
    """The page of a module's name, or of the item that it ends in."""
    parts = module.split('.')
    if len(parts) < 4 or parts[2] != 'specs' or parts[3] == 'declared':
        return None
    for end in (len(parts), len(parts) - 1):
        path = 'crates/%s/specs/%s.antt' % (parts[1], '/'.join(parts[3:end]))
        if os.path.exists(os.path.join(TOP, path)):
            return path
    return None


def reached(path, seen):
    """The pages that a file cites, callees first."""
    for module in USE.findall(text_of(path)):
        page = page_of(module)
        if page and page not in seen and not page.endswith('Laws.antt'):
            seen[page] = None
            reached(page, seen)
            seen[page] = seen.pop(page)
    return seen


def name_of(path):
    return path[len('crates/'):-len('.antt')]


def lines_of(name):
    path = 'crates/%s.antt' % name
    return text_of(path).count('\n') if os.path.exists(os.path.join(TOP, path)) else None


def main():
    if '--write' in sys.argv[1:]:
        rows = text_of(LIST).split('\n')
        for i, row in enumerate(rows):
            found = ROW.match(row)
            if found and lines_of(found[1]) is not None:
                rows[i] = '| `%s` | %d |' % (found[1], lines_of(found[1])) + row[found.end():]
        with open(os.path.join(TOP, LIST), 'w', encoding='utf8') as file:
            file.write('\n'.join(rows))
    wanted = [name_of(page) for page in reached(START, {})]
    parts = re.split(r'(?m)^## ', text_of(LIST))
    first = [ROW.match(row) for part in parts if part.startswith('The headline') for row in part.split('\n')]
    others = [ROW.match(row) for part in parts if not part.startswith('The headline') for row in part.split('\n')]
    first, others = [row for row in first if row], [row for row in others if row]
    listed = [row[1] for row in first]
    faults = ['%s: not in the list of %s' % (name, LIST) for name in wanted if name not in listed]
    faults += ['%s: listed, and the headline does not stand on it' % name for name in listed if name not in wanted]
    faults += ['%s: listed twice' % name for name in sorted(set(listed)) if listed.count(name) > 1]
    for row in first + others:
        lines = lines_of(row[1])
        if lines is None:
            faults.append('%s: listed, and there is no such page' % row[1])
        elif lines != int(row[2]):
            faults.append('%s: has %d lines, not %s' % (row[1], lines, row[2]))
    for fault in faults:
        print('definitions: ' + fault)
    return 1 if faults else 0


if __name__ == '__main__':
    sys.exit(main())
