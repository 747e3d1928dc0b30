#!/usr/bin/env python3
"""Brings this repository's own definitions, fields and lemmas to the spelling of today's Rattle, once, after port.py: words in snake case,
a dash only where it joins the names of two functions, and a lemma that would have its function's name with _lem.

    python3 tools/port_names.py        at the top of the repository

tools/port-names.tsv has a row for each name: old, new, and, where a word names two things, the beginnings of the paths in which the row
holds. In a .antt file each such word turns, but in a comment only one in backticks; in a .rt file those of its clauses, of its 'ghost use' items
and of code spans of its comments. In a Proof.antt file the goals' names stay: what stands behind a dot, and what is given the type of a goal. Clauses that
port.py named by their text get a name that says what they ask (LABELS). A proof X of a function becomes f_spec."""
import glob, os, re

WORD = re.compile(r'[^\s(){}.;,@"«»]+')
CODE = re.compile(r'`[^`\n]*`')
LABELS = [
    ('block', 'tasks_value', '', 'sizes_read'), ('block', 'tasks_lt_word_size', '', 'tasks_fit'), ('block', 'index_lt_word_size', '', 'numbers_fit'),
    ('block', 'block_bound', '', 'few_rows'), ('counters', 'by_index', 'accessAt', 'cells_within'), ('counters', 'by_index_2', '', 'reads_within'),
    ('effect', 'index_in_bounds', '', 'cells_there'), ('filler', 'index_lt_most_blocks', '', 'within_limits'), ('filler', 'version_bound', '', 'version_fits'),
    ('filler', 'part_len', '', 'part_is_block'), ('filler', 'all_len', '', 'all_rows'), ('filler', 'workers_le_most_workers', '', 'sizes_fit'),
    ('fletcher', 'a_bound', '', 'sums_reduced'), ('fletcher', 'bytes_len_bound', '', 'few_bytes'), ('machine', 'index_lt_most_accesses', '', 'access_there'),
    ('machine', 'w_value', '', 'row_found'), ('places', 'index_lt_most_accesses', '', 'access_there'), ('row', 'j_lt_most_accesses', '', 'access_there'),
    ('row', 'count_le_most_accesses', '', 'few_accesses'), ('row', 'i_lt_most_operations', '', 'operation_there'),
    ('row', 'count_le_most_operations', '', 'few_operations'), ('row', 'cells_le_most_cells', '', 'few_cells'), ('row', 'table_value', '', 'table_of_row'),
    ('row', r'row_value\w*', 'countsSound', 'counts_sound'), ('row', r'row_value\w*', 'accessInRange', 'accesses_in_range'),
    ('row', r'row_value\w*', 'namedOnce', 'named_once'), ('row', r'row_value\w*', 'operationsSound', 'operations_sound'),
    ('sflw_held', 'measure_promise', '', 'measured'), ('sflw_held', 'most_cells_in_bounds', '', 'room_enough'),
    ('sflw_run', 'measure_promise', '', 'measured'), ('sflw_run', 'most_cells_in_bounds', '', 'room_enough'),
    ('writer', 'rows_len', '', 'rows_whole'), ('writer', 'version_bound', '', 'version_fits'),
]


def rows():
    for line in open('tools/port-names.tsv', encoding='utf-8'):
        old, new, paths = (line.rstrip('\n').split('\t') + [''])[:3]
        yield old, new, [p for p in paths.split(',') if p]


def table(path):
    """The words that turn in a file: a row with paths stands over one without."""
    plain, here = {}, {}
    for old, new, paths in rows():
        if not paths:
            plain[old] = new
        elif any(path.startswith(p) for p in paths):
            here[old] = new
    return plain | here


def turned(text, words, stays=frozenset(), dots=True):
    def one(m):
        if m[0] not in words or m[0] in stays or not dots and text[m.start() - 1 : m.start()] == '.':
            return m[0]
        return words[m[0]]

    return WORD.sub(one, text)


def comment(text, words):
    return CODE.sub(lambda m: '`' + turned(m[0][1:-1], words) + '`', text)


def antt(path, text):
    words, proof = table(path), path.endswith('Proof.antt')
    goals = {n for m in re.finditer(r'(?m)^ *(?:(?:pub|abbrev|unfoldable) )*([^\s:]+) : [^\n]*\btie\.', text) for n in [m[1]]} if proof else set()
    out = []
    for line in text.split('\n'):
        at = re.search(r'(?<![^\s(){}.;,@"«»])--', line)
        code, said = (line[: at.start()], line[at.start() :]) if at else (line, '')
        path_of_goals = proof and re.match(r'\s*use Rattle\.\w+\.proofs\.\S*(Tie|Statement)\b', code)
        out.append((code if path_of_goals else turned(code, words, goals, not proof)) + comment(said, words))
    return '\n'.join(out)


def clause_end(text, at):
    deep = 0
    for k in range(text.index('{', at), len(text)):
        deep += (text[k] == '{') - (text[k] == '}')
        if not deep:
            return k + 1


def rt(path, text):
    words, crate = table(path), path.split('/')[1]
    for of, label, has, new in LABELS:
        if of == crate:
            text = re.sub(rf'(?m)^( *(?:requires|ensures) ){label}( \{{[^\n]*{has})', rf'\g<1>{new}\g<2>', text)
    out, at = [], 0
    for m in re.finditer(r'(?m)^ *(?:ghost use|requires|ensures|ghost \w+:)|//[^\n]*', text):
        if m.start() < at:
            continue
        said = m[0].startswith('//')
        end = m.end() if said else text.index(';', m.end()) if 'use' in m[0] else clause_end(text, m.end())
        out += [text[at : m.start()], comment(m[0], words) if said else turned(text[m.start() : end], words)]
        at = end
    return ''.join(out) + text[at:]


def main():
    for path in sorted(glob.glob('crates/**/*', recursive=True)):
        if not path.endswith(('.antt', '.rt')) or '/out/' in path:
            continue
        with open(path, encoding='utf-8') as f:
            text = f.read()
        new = (antt if path.endswith('.antt') else rt)(path, text)
        if new != text:
            with open(path, 'w', encoding='utf-8') as f:
                f.write(new)


main()
