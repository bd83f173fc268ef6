#!/usr/bin/env python3
"""Spells the repository's own definitions and lemmas as Rattle's library does: snake case, types in camel case.

usage: python3 tools/port_names.py     at the top, once, after the kit's script; prints what fell together, and changes nothing then

A name is one that specs/ or a lemma file of proofs/ declares: at the head of a line, as a field, or below `where`. A dash becomes `_`,
and `liesAt` becomes `lies_at`. Rattle's own names, those of goals and of steps, stay; so do functions of src/, strings and comments.
"""
import collections
import glob
import os
import re
import sys

SEP = re.compile(r'([\s(){}\[\],;"`.])')
HEAD = re.compile(r'^(\s*)((?:(?:abbrev|unfoldable|pub|record|data|ruleset)\s+)*)([^\s(){}\[\],;:".]+)\s*(?=[({:])')
# names that would fall together with another, and what they are called
OTHER = {
    'rdp-row': 'rdp_row_lem',
    'rdp-diagonal': 'rdp_diagonal_lem',
    'is-there': 'is_there_lem',
    'cell-there': 'cell_there_lem',
    'column-of': 'column_of_lem',
    'own-cell': 'own_cell_lem',
    'own-total': 'own_total_lem',
    'value-by-sums': 'value_by_sums_lem',
    'zero-by-sums': 'zero_by_sums_lem',
    'lane-sum': 'lane_sum_lem',
    'not-rdp': 'not_rdp_lem',
    'starts-at': 'starts_at_lem',
    'run-refused': 'run_refused_lem',
    'in-column': 'in_column_lem',
    'bit-and': 'bit_and_lem',
    'bit-or': 'bit_or_lem',
    'bit-xor': 'bit_xor_lem',
    'twoBytes': 'two_bytes_of',
    'inOrder': 'is_in_order',
    'someOut': 'some_are_out',
}


def new_name(name):
    if name in OTHER:
        return OTHER[name]
    t = re.sub(r'(?<=.)-(?=.)', '_', name)
    if t[:1].islower():
        t = re.sub(r'(?<=[a-z0-9])([A-Z])', lambda m: '_' + m.group(1).lower(), t)
    return t


def is_answer_file(path):
    return os.path.basename(path) in ('Proof.antt', 'Answers.antt', 'Invariants.antt')


def declared():
    names = collections.defaultdict(set)
    for folder in ('specs', 'proofs'):
        for path in sorted(glob.glob(f'crates/*/{folder}/**/*.antt', recursive=True)):
            if is_answer_file(path):
                continue
            for line in open(path, encoding='utf-8'):
                if line.lstrip().startswith(('--', 'use ', 'module ', 'unfolding ')):
                    continue
                m = HEAD.match(line)
                if m and m.group(3) not in ('_', 'where', 'let', 'in', 'mod'):
                    names[m.group(3)].add(path)
    return names


def foreign(text):
    """The names that a file imports from the library: they are not ours there."""
    out = set()
    for m in re.finditer(r'^\s*(?:ghost )?use ([\w.]+)\.\{([^}]*)\}', text, re.M):
        if not re.match(r'Rattle\.(?!std\b|core\b)', m.group(1)):
            out |= {w.strip().split(' ')[0] for w in m.group(2).split(',')}
    return out


def turn_tokens(text, names, keep):
    return ''.join(t if SEP.fullmatch(t) else names.get(t, t) if t not in keep else t for t in SEP.split(text))


def turn(path, names):
    text = open(path, encoding='utf-8').read()
    keep = foreign(text) - set(OTHER)
    lines, out, clause = text.split('\n'), [], False
    for line in lines:
        if path.endswith('.antt'):
            code, dash, note = line.partition('--') if line.lstrip().startswith('--') else (line, '', '')
            out.append(turn_tokens(code, names, keep) + dash + note)
        elif path.endswith('.edit'):
            word = line.split(':', 1)[0]
            out.append(turn_tokens(line, names, keep) if word in ('old', 'new') else line)
        else:
            out.append(line if line.lstrip().startswith('//') else turn_tokens(line, names, keep))
    new = '\n'.join(out)
    if new != text:
        open(path, 'w', encoding='utf-8').write(new)
        return True
    return False


def main():
    names = declared()
    to = {n: new_name(n) for n in names if new_name(n) != n}
    clash = collections.defaultdict(set)
    for n in names:
        clash[new_name(n)].add(n)
    bad = {k: v for k, v in clash.items() if len(v) > 1}
    words = collections.defaultdict(set)
    for path in glob.glob('crates/*/src/*.rt'):
        for line in open(path, encoding='utf-8'):
            if not line.lstrip().startswith('//'):
                for w in re.findall(r'[A-Za-z_]\w*', line):
                    words[w].add(path)
    same = {n: words[t] for n, t in to.items() if t in words}
    lib = collections.defaultdict(set)
    for path in glob.glob('crates/*/*/**/*.antt', recursive=True):
        for w in foreign(open(path, encoding='utf-8').read()):
            lib[w].add(path)
    taken = {n: lib[t] for n, t in to.items() if t in lib}
    if '--list' in sys.argv:
        print('together:', {k: sorted(v) for k, v in bad.items()})
        print('in src:', {n: sorted(v)[:3] for n, v in sorted(same.items())})
        print('of the library:', {n: sorted(v)[:3] for n, v in sorted(taken.items())})
        print(len(to), 'names')
        return
    if bad:
        print('these fall together:', {k: sorted(v) for k, v in bad.items()}, file=sys.stderr)
        raise SystemExit(1)
    n = 0
    for path in sorted(glob.glob('crates/*/specs/**/*.antt', recursive=True) + glob.glob('crates/*/proofs/**/*.antt', recursive=True)
                       + glob.glob('crates/*/src/*.rt') + glob.glob('crates/*/must-fail/*.edit')):
        n += turn(path, to)
    print(f'{len(to)} names, {n} files')


main()
