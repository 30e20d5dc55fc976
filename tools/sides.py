#!/usr/bin/env python3
"""Lays two states of this repository side by side: python3 tools/sides.py OLD NEW, each a folder. Prints, as Markdown, every public function and type of
src/, every definition of specs/ and every exported statement of proofs/ that is gone, new or worded otherwise. DESIGN-PASS.md ends with what it prints."""
import glob
import os
import re
import sys


def flat(text):
    return re.sub(r'\s+', ' ', text).strip()


def crate_of(path, root):
    return path[len(root):].strip('/').split('/')[1]


def public_items(root):
    found = {}
    for path in sorted(glob.glob(root + '/crates/*/src/*.rt')):
        crate = crate_of(path, root)
        lines = open(path).read().split('\n')
        owner = None
        for i, line in enumerate(lines):
            at = re.match(r'^impl(?:<.*?>)? (?:\w+ for )?(\w+)', line)
            if at:
                owner = at.group(1)
            if line == '}':
                owner = None
            m = re.match(r'^( *)pub (?:extern "C" )?(fn|struct|enum|trait|const) (\w+)', line)
            if not m:
                continue
            kind, name = m.group(2), m.group(3)
            if kind == 'const' and m.group(1):
                continue
            text, j = [], i
            if kind == 'fn':
                while lines[j] != m.group(1) + '{' and not lines[j].endswith(' {'):
                    text.append(lines[j])
                    j += 1
                if lines[j].endswith(' {'):
                    text.append(lines[j][:-2])
            elif kind == 'const':
                text.append(line)
            else:
                while True:
                    text.append(lines[j])
                    if lines[j] in (m.group(1) + '}',) or lines[j].endswith(';'):
                        break
                    j += 1
                text = [t for t in text if not t.strip().startswith('//')]
            if owner and kind == 'fn':
                name = owner + '::' + name
            found[(crate, kind, name)] = flat(' '.join(text))
    return found


def declared(root, folder):
    found = {}
    for path in sorted(glob.glob(root + '/crates/*/' + folder + '/**/*.antt', recursive=True)):
        if os.path.basename(path) in ('Answers.antt', 'Invariants.antt', 'Lib.antt', 'OneAnswer.antt'):
            continue
        crate = crate_of(path, root)
        room = os.path.basename(path)[:-5]
        text = re.sub(r'(?m)(^|\s)--.*$', '', open(path).read())
        blocks, block = [], []
        for line in text.split('\n'):
            starts = re.match(r'^(\s{0,8})(?:unfoldable |abbrev )*pub (?:unfoldable |abbrev |record |data )?(?!mod\b|use\b)\S', line)
            if starts:
                blocks.append(block)
                block = [line]
            elif line.strip() == '' and folder == 'proofs':
                blocks.append(block)
                block = []
            elif block:
                block.append(line)
        blocks.append(block)
        for block in blocks:
            if not block:
                continue
            m = re.match(r'^\s*(?:unfoldable |abbrev )*pub (?:unfoldable |abbrev |record |data )?([^\s:(){}]+)', block[0])
            if not m or m.group(1) in ('mod', 'use'):
                continue
            name = m.group(1)
            if folder == 'proofs':
                # up to the proof, which begins at the statement's own depth, or behind its first line where that has an equation
                kept, depth = [block[0]], len(block[0]) - len(block[0].lstrip())
                for line in block[1:]:
                    if len(line) - len(line.lstrip()) <= depth or re.search(r'\s=(\s|$)', kept[-1]):
                        break
                    kept.append(line)
                body = ' '.join(kept)
            else:
                body = ' '.join(block)
            if (crate, name) not in found:
                found[(crate, name)] = (room, flat(body))
    return found


def clip(text, most=1400):
    return text if len(text) <= most else text[:most] + ' ..'


def main():
    old, new = sys.argv[1], sys.argv[2]
    a, b = public_items(old), public_items(new)
    print('### Public functions and types\n')
    for key in sorted(set(a) | set(b)):
        crate, kind, name = key
        if a.get(key) == b.get(key):
            continue
        print('- `%s::%s` (%s)' % (crate, name, kind))
        print('  - old: %s' % ('`' + clip(a[key]) + '`' if key in a else 'none'))
        print('  - new: %s' % ('`' + clip(b[key]) + '`' if key in b else 'gone'))
    print()
    for folder, title in (('specs', 'Definitions'), ('proofs', 'Exported statements of proofs, worded otherwise')):
        x, y = declared(old, folder), declared(new, folder)
        print('### %s\n' % title)
        for key in sorted(set(x) & set(y)):
            if x[key][1] != y[key][1]:
                print('- `%s` (%s, %s)' % (key[1], key[0], y[key][0]))
                print('  - old: `%s`' % clip(x[key][1], 700))
                print('  - new: `%s`' % clip(y[key][1], 700))
        print()
        gone, come = {}, {}
        for key in sorted(set(x) - set(y)):
            gone.setdefault('%s, %s' % (key[0], x[key][0]), []).append(key[1])
        for key in sorted(set(y) - set(x)):
            come.setdefault('%s, %s' % (key[0], y[key][0]), []).append(key[1])
        print('Gone:\n')
        for room, names in sorted(gone.items()):
            print('- %s: %s' % (room, ', '.join('`%s`' % n for n in names)))
        print('\nNew:\n')
        for room, names in sorted(come.items()):
            print('- %s: %s' % (room, ', '.join('`%s`' % n for n in names)))
        print()


main()
