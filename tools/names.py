#!/usr/bin/env python3
"""Brings our definitions and lemmas to the library's spelling, once, after the language's own renaming.

A definition, a field or a lemma is in snake case; a dash stands only between two names that are defined (`length-part`), a
plain word is added by `_` (`filled_more`). Types, constructors and the letters of the papers (`K`, `H₀`, `X`, `Σ₀`) stay.
Reads and writes specs/ and proofs/ of every crate, and the ghost lines and clauses of src/. Stops where two names of one
file would fall together.
"""
import glob
import re
import sys

# the library's words that our lemmas are about
LIBRARY = {'length', 'take', 'drop', 'set', 'sets', 'append', 'replicate', 'get_or', 'bit_xor', 'bit_or'}

# what the earlier renaming spelled in a way of its own
AGAIN = {
    'length_part': 'length-part', 'get_d_part': 'get_or-part', 'get_d_sets_before': 'get_or-sets_before',
    'getD-sets-after': 'get_or-sets_after', 'spacingIs': 'spacing_stands', 'storedIs': 'stored_stands',
    'read_as': 'read_as_lem', 'isPower-step': 'is_power_step', 'part-two': 'part_two', 'part-four': 'part_four',
}

# variables and letters that are the papers' own
LETTERS = {'dkLen'}

TOKEN = re.compile(r"[^\s(){}\[\].,;:λ∷×]+")
DEFINES = re.compile(r'^\s*(?:abbrev|unfoldable|pub|record|data)\b[^:=]*?([^\s(){}:]+)\s+(?:\(.*|:.*|where.*)$')


def snake(word):
    """a camel-case word in snake case"""
    if not word or not word[0].islower():
        return word
    word = re.sub(r'^getD$', 'get_or', word)
    return re.sub(r'(?<=[a-z0-9])([A-Z])', lambda m: '_' + m.group(1).lower(), word)


def files():
    antt = [f for f in glob.glob('crates/*/specs/*.antt') + glob.glob('crates/*/proofs/**/*.antt', recursive=True)]
    return sorted(antt), sorted(glob.glob('crates/*/src/*.rt'))


def lemmas(f):
    return f.count('/') == 3  # crates/C/specs/M.antt or crates/C/proofs/M.antt


def imported(text):
    """the names that a file takes from the kit, and those that it takes from us"""
    kit, ours = set(), set()
    for path, names in re.findall(r'^(?:ghost )?(?:pub )?use ([^\s{]+?)\.\{([^}]*)\}', text, re.M):
        into = kit if not path.startswith('Rattle.') or path.startswith('Rattle.std.') else ours
        into.update(n.strip().split(' as ')[-1] for n in names.split(','))
    return kit, ours


def main():
    antt, rust = files()
    texts = {f: open(f, encoding='utf-8').read() for f in antt + rust}

    defined = set(LIBRARY)
    for f in antt:
        if lemmas(f):
            for line in texts[f].split('\n'):
                m = DEFINES.match(line)
                if m and re.match(r'\s*(abbrev|unfoldable|(pub )?(record|data))\b', line) and '-' not in m.group(1):
                    defined.add(snake(m.group(1)))

    def respelled(name):
        if name in AGAIN:
            return AGAIN[name]
        if name in LETTERS or '.' in name or re.search(r'[^\w\'-]', name) or not re.search(r'[^\W\d_]', name):
            return name
        if name.startswith('-') or name.endswith('-') or '--' in name:
            return name
        parts = [snake(p) for p in name.split('-')]
        out = parts[0]
        for i in range(1, len(parts)):
            known = parts[i - 1] in defined and parts[i] in defined
            out += ('-' if known else '_') + parts[i]
        return out

    # what is declared or bound in the files of definitions and lemmas
    table = {}
    for f in antt:
        if not lemmas(f):
            continue
        kit, _ = imported(texts[f])
        body = re.sub(r'--.*', '', texts[f])
        for name in set(TOKEN.findall(body)):
            if name not in kit and respelled(name) != name and name not in {'specs', 'proofs'}:
                table[name] = respelled(name)

    lemma_files = {f for f in antt if lemmas(f)}
    clashes = 0
    for f, text in texts.items():
        kit, ours = imported(text)
        uses = set(TOKEN.findall(re.sub(r'(--|//).*', '', text)))
        if f in rust:
            hits = {n: table[n] for n in uses if n in table}
        elif lemmas(f):
            hits = {n: table[n] for n in uses if n in table and n not in kit}
        else:  # a function's own proof: only what it takes from us
            hits = {n: table[n] for n in uses if n in table and n in ours}
            hits.update({n: table[n] for n in uses if n in table and n not in kit and '-' not in n})
        seen = {}
        for old, new in sorted(hits.items()):
            if (new in uses and new not in hits and f in lemma_files) or new in seen:
                print(f'{f}: {old} would fall together with {new}', file=sys.stderr)
                clashes += 1
            seen[new] = old

        def sub(m):
            return hits.get(m.group(0), m.group(0))

        if f in rust:
            # only where the contracts speak: ghost lines and clauses
            out, clause = [], False
            for line in text.split('\n'):
                starts = re.match(r'\s*(ghost|requires|ensures)\b', line)
                if starts or clause or line.startswith('//'):
                    line = TOKEN.sub(sub, line)
                if starts or clause:
                    depth = (0 if starts else clause) + line.count('{') - line.count('}')
                    clause = depth if depth > 0 else False
                out.append(line)
            texts[f] = '\n'.join(out)
        else:
            texts[f] = TOKEN.sub(sub, text)
    if clashes:
        sys.exit(1)
    for f, text in texts.items():
        open(f, 'w', encoding='utf-8').write(text)
    if '--table' in sys.argv:
        for old, new in sorted(table.items()):
            print(old, new)


main()
