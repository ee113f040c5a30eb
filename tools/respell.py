#!/usr/bin/env python3
"""Brings this repository's own definitions and lemmas to one spelling: words in snake case, types and modules in camel case.

usage: python3 tools/respell.py        at the top of the repository, once, after the port of the language's spelling

- specs/Contracts.antt becomes specs/Clauses.antt, since the language makes a module `contracts` of its own.
- A name that specs/ or proofs/ declares is written in snake case: bitOf is bit_of, cells-fit is cells_fit. A name that begins with a capital stays.
- Where two names would fall together, the lemma gets `_lem` and the field `_is` (FALLS).
- The root file of each crate gets the line #![tactic(auto)].
Functions of src/, exported names, strings, inputs and outputs keep their names.
"""

import os
import re
import subprocess

# names that would fall together with another one of this repository
FALLS = {
    'all_whole': 'all_whole_lem', 'array-for': 'array_for_lem', 'array-line': 'array_line_lem', 'cell_in': 'cell_in_lem',
    'cell-places': 'cell_places_lem', 'cells-in': 'cells_in_lem', 'cells-met': 'cells_met_lem', 'col-sum': 'col_sum_lem',
    'column-places': 'column_places_lem', 'count_at': 'count_at_is', 'count-found': 'count_found_lem',
    'entry-between': 'entry_between_lem', 'from-columns': 'from_columns_lem', 'from-rows': 'from_rows_lem', 'goes_on': 'goes_on_is',
    'grid-at': 'grid_at_lem', 'grid-cell': 'grid_cell_lem', 'in_order': 'in_order_lem', 'in-turn': 'in_turn_is',
    'is-done': 'is_done_lem', 'is-smaller': 'is_smaller_lem', 'laid_out': 'laid_out_is', 'limit_is': 'limit_is_lem',
    'multiple-in': 'multiple_in_lem', 'none-applies': 'none_applies_lem', 'not-whole': 'not_whole_lem', 'nth-column': 'nth_column_lem',
    'nth-row': 'nth_row_lem', 'number-due': 'number_due_lem', 'numbers-drawn': 'numbers_drawn_are', 'one_cell': 'one_cell_lem',
    'one_more': 'one_more_lem', 'over-accepted': 'over_accepted_lem', 'part-number': 'part_number_lem', 'planned-sum': 'planned_sum_lem',
    'reply-number': 'reply_number_lem', 'rounded-down': 'rounded_down_is', 'rounds-table': 'rounds_table_lem',
    'row-places': 'row_places_lem', 'row-sum': 'row_sum_lem', 'taken-sum': 'taken_sum_lem', 'weight-at': 'weight_at_is',
}
DECLARED = re.compile(r'^\s*(?:(?:abbrev|unfoldable|pub|data|record)\s+)*([^\s:(){}.,;|«»]+)(?:\s+[({].*)?\s+:\s')
TOKEN = re.compile(r"[^\W\d][\w'-]*|[<>=≤≢][\w'-]*")
OWN = None


def snake(name):
    if name in FALLS:
        return FALLS[name]
    if not name[0].islower():
        return name
    return re.sub(r'(?<=[a-z0-9])([A-Z])', lambda m: '_' + m.group(1).lower(), name).replace('-', '_')


def read(path):
    with open(path, encoding='utf-8') as f:
        return f.read()


def write(path, text):
    with open(path, 'w', encoding='utf-8') as f:
        f.write(text)


def files(end):
    for folder, dirs, names in os.walk('crates'):
        dirs[:] = sorted(d for d in dirs if d not in ('out', 'must-fail'))
        for name in sorted(names):
            if name.endswith(end):
                yield os.path.join(folder, name)


def shared(path):
    """Whether a file of antt holds definitions or lemmas, and not one function's proof."""
    return len(path.split('/')) == 4


def declared():
    found = {}
    for path in files('.antt'):
        if not shared(path):
            continue
        for line in read(path).split('\n'):
            m = DECLARED.match(line)
            if m and not re.match(r'\s*(--|use|let|λ|elim|in\b|module)', line):
                new = snake(m.group(1))
                if new != m.group(1):
                    found[m.group(1)] = new
    return found


def of_the_kit(text):
    """The names that a file imports from elsewhere than this repository."""
    names = set()
    for m in re.finditer(r'^(?:ghost )?use ([\w.+·]+)\.\{([^}]*)\}', text, re.M):
        if not (m.group(1).startswith('Rattle.') and m.group(1).split('.')[1] in OWN):
            names |= {n.strip().split(' as ')[-1] for n in m.group(2).split(',')}
    return names


def generated(path, functions):
    """The names that the language makes in one function's proof: steps named after functions."""
    return functions if not shared(path) else set()


def turn_antt(path, names, functions):
    text = read(path)
    kit = of_the_kit(text)
    steps = generated(path, functions)
    out = []
    for line in text.split('\n'):
        head, dash, comment = line, '', ''
        k = line.find('--')
        if k == 0 or (k > 0 and line[k - 1] == ' '):
            head, dash, comment = line[:k], line[k:], ''

        def one(m):
            word = m.group(0)
            behind = m.start() > 0 and head[m.start() - 1] == '.'
            if word in kit and not behind:
                return word
            if behind and re.sub(r'\d+$', '', word) in steps:
                return word
            return names.get(word, word)

        out.append(TOKEN.sub(one, head) + dash)
    write(path, '\n'.join(out))


def turn_rt(path, names):
    """In src/ no function has a capital within its name, or a dash: only such words are turned."""
    text = read(path)
    kit = of_the_kit(text)
    ghost = {k: v for k, v in names.items() if re.search(r'[a-z0-9][A-Z]|-', k) and k not in kit}
    out = []
    for line in text.split('\n'):
        if line.lstrip().startswith('//') or '"' in line:
            out.append(line)
            continue
        out.append(TOKEN.sub(lambda m: ghost.get(m.group(0), m.group(0)), line))
    write(path, '\n'.join(out))


def rename_contracts():
    for path in list(files('.antt')):
        if path.endswith('/specs/Contracts.antt'):
            subprocess.run(['git', 'mv', path, path.replace('/Contracts.antt', '/Clauses.antt')], check=True)
    for path in list(files('.antt')) + list(files('.rt')):
        text = read(path)
        new = text.replace('.specs.Contracts', '.specs.Clauses')
        if path.endswith('/specs/Lib.antt'):
            new = re.sub(r'(?m)^pub mod Contracts$', 'pub mod Clauses', new)
        if new != text:
            write(path, new)


def tactics():
    for path in files('.rt'):
        if path.split('/')[-1] not in ('lib.rt', 'main.rt'):
            continue
        text = read(path)
        if '#![tactic(auto)]' in text:
            continue
        m = re.match(r'(?:(?://[^\n]*|#!\[[^\n]*\])\n)*', text)
        write(path, text[:m.end()] + '#![tactic(auto)]\n\n' + text[m.end():].lstrip('\n'))


def main():
    global OWN
    OWN = set(os.listdir('crates'))
    rename_contracts()
    names = declared()
    functions = set()
    for path in files('.rt'):
        for m in re.finditer(r'\bfn (\w+)', read(path)):
            functions |= {m.group(1), m.group(1).replace('_', '-')}
    for path in files('.antt'):
        turn_antt(path, names, functions)
    for path in files('.rt'):
        turn_rt(path, names)
    tactics()
    print(f'{len(names)} names')


if __name__ == '__main__':
    main()
