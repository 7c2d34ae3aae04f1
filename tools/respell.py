#!/usr/bin/env python3
"""Brings the repository's own definitions and lemmas to today's spelling: words in snake case, types in camel case.

    python3 tools/respell.py

Run once at the top of the checkout, on what /opt/rattle/port/port.py left (docs/PORT.md). It renames what specs/ and
proofs/ declare, wherever a clause, a proof, a must-fail edit or a page names it. Names of src/, names that Rattle makes
(the answers that a proof hands to `tie.spec`) and fields of what Rattle makes stay as they are. A name that would fall
together with another is listed in FELL_TOGETHER with the name that it takes.
"""
import collections
import glob
import re
import sys

# a lemma that would have its function's name gets `_lem`
FELL_TOGETHER = {
    'field_in': 'field_in_lem',
    'field_room': 'field_room_lem',
    'no_record': 'no_record_lem',
    'nodes-from': 'nodes_from_lem',
    'record-in': 'record_in_lem',
    'slot-size': 'slot_size_lem',
    'tall-root': 'tall_root_lem',
    'with-header': 'with_header_lem',
    'root-below': 'root_below_lem',
}
WORDS = r"pub|abbrev|unfoldable|record|data|opaque"
DECLARED = re.compile(r'^\s*(?:(?:' + WORDS + r')\s+)*([^\s:(){}λ|]+)\s*(?:\([^)]*\)\s*|\{[^}]*\}\s*)*:\s')
BOUND = re.compile(r"(?:let|λ)\s+\(?([^\s:(){}λ|.]+)\s*[:=.]")
TOKEN = re.compile(r"[^\s(){}\[\],;:.\"`⌜⌝]+")


def files(pattern):
    return sorted(glob.glob(pattern, recursive=True))


def antt():
    return files('crates/*/specs/**/*.antt') + files('crates/*/proofs/**/*.antt')


def read(path):
    with open(path, encoding='utf8') as f:
        return f.read()


def snake(name):
    spelled = re.sub(r'([a-z0-9])([A-Z])', lambda m: m.group(1) + '_' + m.group(2).lower(), name)
    return spelled.replace('-', '_')


def answers(text):
    """The names that a proof by hand hands to `tie.spec`: Rattle's names of its goals."""
    found = re.search(r'tie\.spec\b(.*?)(?:\n\S|\Z)', text, re.S)
    return set(TOKEN.findall(found.group(1))) if found else set()


def odd(name):
    return re.fullmatch(r"[a-z][A-Za-z0-9_'-]*", name) and (('-' in name) or re.search('[A-Z]', name))


def main():
    renamed, kept = {}, collections.defaultdict(set)
    for path in antt():
        text = read(path)
        kept[path] = answers(text)
        for line in text.split('\n'):
            names = [m.group(1) for m in [DECLARED.match(line)] if m] + BOUND.findall(line)
            for name in names:
                if name in FELL_TOGETHER:
                    renamed[name] = FELL_TOGETHER[name]
                elif odd(name) and name not in kept[path] and not name.endswith('-spec'):
                    renamed[name] = snake(name)
    fell = collections.defaultdict(set)
    for old, new in renamed.items():
        fell[new].add(old)
    for new, olds in sorted(fell.items()):
        if len(olds) > 1:
            print('fall together:', new, sorted(olds))
    fields = set()
    for path in antt():
        for line in read(path).split('\n'):
            m = re.match(r'^\s+pub ([a-z][^\s:(){}]*)\s*:', line)
            if m and m.group(1) in renamed:
                fields.add(m.group(1))

    def turn(text, keep):
        out, last = [], 0
        for m in TOKEN.finditer(text):
            token, new = m.group(), renamed.get(m.group())
            if new is None or token in keep:
                continue
            before = text[m.start() - 1] if m.start() else ' '
            if before == '.' and not whole_path(text, m.start()) and token not in fields:
                continue
            out += [text[last:m.start()], new]
            last = m.end()
        return ''.join(out) + text[last:]

    def whole_path(text, at):
        """A token after a dot is a declared name where what stands before it is a module or an alias of one."""
        path = re.search(r"[^\s(){}\[\],;]*$", text[:at]).group()
        head = path.split('.')[0]
        return head == 'Rattle' or re.search(r'\buse \S+ as ' + re.escape(head) + r'\s', text) is not None and head != 'tie'

    for path in antt() + files('crates/*/src/**/*.rt') + files('crates/*/must-fail/*'):
        text = read(path)
        new = turn(text, kept[path])
        if path.endswith('.edit'):
            # port.py reads no edit: what it renamed elsewhere is named here as there
            new = re.sub(r'\b[a-z][A-Za-z0-9]*[A-Z][A-Za-z0-9]*\b', lambda m: snake(m.group()), new)
        if new != text:
            with open(path, 'w', encoding='utf8') as f:
                f.write(new)
    for path in ['README.md'] + files('docs/*.md') + files('oracle/*.md'):
        text = read(path)
        new = re.sub(r'`[^`\n]+`', lambda m: turn(m.group(), set()), text)
        if new != text:
            with open(path, 'w', encoding='utf8') as f:
                f.write(new)
    print(len(renamed), 'names')


sys.exit(main())
