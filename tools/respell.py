#!/usr/bin/env python3
"""Respells the names of this repository's own definitions and lemmas as today's Rattle spells names.

    python3 tools/respell.py          at the top of the checkout, once, after port.py of the Rattle kit

Types and modules stay in camel case, everything else goes into snake case. A dash stays only between two names after
which a lemma is named, as in holds-opp, of which both are functions; a plain word hangs on by an underscore, as in
place_taken. Quoted texts, strings, bytes and the names of libraries stay. It ends with status 1, and writes nothing,
where two names would fall together. It goes over specs/, proofs/ and must-fail/ of every crate.
"""
import glob
import re
import sys

FILES = sorted(f for kind in ('specs/*.antt', 'proofs/*.antt', 'must-fail/*.edit') for f in glob.glob('crates/*/' + kind))
TOKEN = re.compile(r'"(?:\\.|[^"\\])*"|[^\s(){}\[\];,.λ∀|:"«»]+')
# Functions and operators of the libraries after which lemmas are named.
LIBRARY = set('length map replicate set take drop append flat_map not xor cond max eqb leb ltb get_or and or eq le lt mem '
              'suc cons nil zero'.split())
# Names that the rule would let fall together with others, and names that port.py left between two spellings.
AGAIN = {
    'in-range': 'mem-range',
    'in-pattern': 'in_pattern_gate',
    'is-output': 'is_output_mem',
    'output-of': 'gate_of_output',
    'tidy-step': 'tidy_step_sat',
    'getD-mem': 'get_or-mem',
    'getD-range': 'get_or-range',
    'get_d_map': 'get_or-map',
    'every_map': 'every-map',
    'all_append': 'all-append',
    'flatMap': 'flat_map',
}


def code_and_comment(line):
    """A line's code and its comment."""
    found = re.search(r'(^|\s)--(\s|$)', line)
    if found and '"' not in line[:found.start()]:
        return line[:found.start()], line[found.start():]
    return line, ''


def snake(word):
    """camelCase as snake_case."""
    return re.sub(r'(?<=[a-z0-9])([A-Z])', lambda m: '_' + m.group(1).lower(), word)


def imported(texts):
    """Names that a `use` line brings from a library."""
    names = set()
    for text in texts.values():
        for line in re.findall(r'^use .*$', text, re.M):
            if not line.startswith('use Rattle.'):
                names.update(re.findall(r"[^\s{},.]+", line))
                names.update(line.split('.')[-1:])
    return names


def declared(texts):
    """Names of the functions that specs/ declares, as they will be spelled."""
    names = set()
    for path, text in texts.items():
        if '/specs/' in path:
            for m in re.finditer(r'^\s*(?:(?:pub|abbrev|unfoldable|pattern)\s+)*([a-z][^\s:]*)\s+:', text, re.M):
                names.add(snake(m.group(1)))
    return names


def main():
    texts = {f: open(f, encoding='utf-8').read() for f in FILES}
    library, names = imported(texts), declared(texts) | LIBRARY

    def respelled(word):
        if word in library or word[0] == '"' or not re.match(r'[A-Za-z]', word):
            return word
        if word in AGAIN:
            return AGAIN[word]
        head = re.match(r'[A-Z]', word)
        if head and not re.search(r'[-·]', word):
            return word
        parts = [p if re.match(r'[A-Z]', p) else snake(p) for p in re.split(r'[-·]', word)]
        out = parts[0]
        for left, right in zip(parts, parts[1:]):
            both = (left in names or re.match(r'[A-Z]', left)) and (right in names or re.match(r'[A-Z]', right))
            out += ('-' if both else '_') + right
        return out

    seen, changed, words, new = {}, {}, set(), {}
    for path, text in texts.items():
        lines = []
        for line in text.split('\n'):
            if path.endswith('.edit') and line.startswith('file:'):
                lines.append(line)
                continue
            code, comment = code_and_comment(line)
            def put(m):
                old = m.group(0)
                word = old if old.startswith('"') else respelled(old)
                words.add(old)
                if word != old:
                    changed[old] = word
                return word
            code = TOKEN.sub(put, code)
            comment = re.sub(r'\b[a-z]+[a-z0-9]*(?:[A-Z][a-z0-9]*)+\b', lambda m: snake(m.group(0)), comment)
            lines.append(code + comment)
        new[path] = '\n'.join(lines)
    for old, word in sorted(changed.items()):
        if word in words and word not in changed and old != 'flatMap' or word in seen:
            print('falls together:', old, word, seen.get(word, ''))
            seen['!'] = True
        seen[word] = old
    if '!' in seen:
        return 1
    for path, text in new.items():
        if text != texts[path]:
            open(path, 'w', encoding='utf-8').write(text)
    for old, word in sorted(changed.items()):
        print(old, word)
    return 0


if __name__ == '__main__':
    sys.exit(main())
