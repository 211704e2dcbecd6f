#!/usr/bin/env python3
"""Brings the repository's own definitions and lemmas to snake case, and its own facts and types to camel case.

usage: python3 tools/respell_names.py     at the top of the repository, once, right after the turn to today's spelling

It takes every name with a dash that a file of specs/ or proofs/ declares (goals' answers, which Rattle names, are left),
and respells it in specs/, proofs/, the clauses of src/ and must-fail/. A name that the library declares with the same
spelling is left in the files that import it from there. Strings, and comments outside backquotes, are left.
"""
import collections
import pathlib
import re
import sys

TOKEN = r"[^\s(){}\[\],;.:⌜⌝«»\"`]+"
SIGNATURE = re.compile(r"\s*(?:abbrev |unfoldable )?(?:pub )?(?:ruleset )?(" + TOKEN + r")((?:\s*[({][^)}]*[)}])*)\s+:\s(.*)$")
DECLARED = re.compile(r"(?:^|\s)(?:record|data) (" + TOKEN + ")")
LEFT = re.compile(r"(goal|need|rules)\.")
FROM_STD = re.compile(r"use Rattle\.std[^{;]*\{([^}]*)\}")


def texts(*patterns):
    for pattern in patterns:
        for path in sorted(pathlib.Path('crates').glob(pattern)):
            if 'out' not in path.parts:
                yield path


def declared():
    """Each own name with a dash."""
    names = set()
    for path in texts('*/specs/**/*.antt', '*/proofs/**/*.antt'):
        for line in path.read_text().split('\n'):
            if line.strip().startswith(('--', 'use ')):
                continue
            found = DECLARED.findall(line)
            m = SIGNATURE.match(line)
            if m and not LEFT.match(m.group(3)):
                found.append(m.group(1))
            names |= {name for name in found if '-' in name and re.search(r'\w', name)}
    return names


def spelling(name):
    if name[0].isupper() and re.fullmatch(r"[\w-]+", name):
        return ''.join(part[:1].upper() + part[1:] for part in re.split('[-_]', name))
    return name.replace('-', '_')


def respell(text, table, comment, quiet):
    def word(m):
        return table.get(m.group(0), m.group(0)) if m.group(0) not in quiet else m.group(0)

    def line(text):
        code, mark, rest = text, '', ''
        m = re.search(r'(^|\s)' + comment + r'(\s|$)', text)
        if m:
            code, mark, rest = text[:m.start()], m.group(0), text[m.end():]
        parts = re.split(r'("(?:[^"\\]|\\.)*")', code)
        code = ''.join(p if p.startswith('"') else re.sub(TOKEN, word, p) for p in parts)
        rest = re.sub(r'`([^`]*)`', lambda q: '`' + re.sub(TOKEN, word, q.group(1)) + '`', rest)
        return code + mark + rest

    return '\n'.join(line(l) for l in text.split('\n'))


def main():
    table = {name: spelling(name) for name in declared()}
    back = collections.defaultdict(list)
    for old, new in table.items():
        back[new].append(old)
    clash = {new: old for new, old in back.items() if len(old) > 1}
    if clash:
        print('names that fall together:', clash)
    for path in texts('*/specs/**/*.antt', '*/proofs/**/*.antt', '*/src/**/*.rt', '*/must-fail/*.edit'):
        text = path.read_text()
        quiet = {n.strip() for block in FROM_STD.findall(text) for n in block.split(',')}
        new = respell(text, table, '//' if path.suffix == '.rt' else '--', quiet)
        if new != text:
            path.write_text(new)
    for old in sorted(table):
        print(old, table[old])
    return 0


if __name__ == '__main__':
    sys.exit(main())
