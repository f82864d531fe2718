#!/usr/bin/env python3
"""Lists the places in src/ that read like older Rattle, point by point, for docs/DESIGN-PASS.md.

usage: python3 tools/places.py [COMMIT]     the working tree, or a commit
       python3 tools/places.py -c [COMMIT]  only how many there are of each point

The patterns find candidates: whether one is a place, and what became of it, is said in docs/DESIGN-PASS.md.
"""
import collections
import re
import subprocess
import sys

POINTS = {
    1: ('results, flags and numbers by hand', [
        ('own enum', r'^\s*(pub(\(crate\))? )?enum \w+'),
        ('result taken apart and made again', r'^\s*(Ok\((\w+|\(\))\) => (Ok\(|match)|Err\(\w+\) => (Err\(|unreachable|None)|None => (unreachable|None|Ok\(|return)|Some\(\w+\) => (Ok|Err|Some)\()'),
        ('result thrown away', r'^\s*let _ = '),
        ('no told by a number', r'^\s*(0|end)$'),
    ]),
    3: ('loops that count an index', [
        ('range loop', r'\bfor \w+ in \(?[\w(].*\.\.'),
        ('search loop', r'\bfor \(\w+, \w+\) in .*enumerate\(\)'),
        ('while', r'^\s*while '),
        ('count by hand', r'^\s*[\w.]+ \+= 1;'),
    ]),
    4: ('conversions, copies and printing by hand', [
        ('cast', r' as (u8|u16|u32|u64|usize)\b'),
        ('impl of a trait of std', r'^\s*impl(<.*>)? (PartialEq|Eq|PartialOrd|Ord|Clone|Copy|Hash|Debug|fmt::Display|Display|From<.*>|TryFrom<.*>) for'),
        ('field copied from self', r'^\s*\w+: self\.\w+,'),
        ('larger by hand', r'if \w+(\[\w+\])? [<>] \w+(\[\w+\])? \{ '),
    ]),
    6: ('buffers with a length beside, parallel lists, hand searches', [
        ('array field', r'^\s*(pub(\(crate\))? )?\w+: \[\(?(u\d+|usize|bool|[A-Z]\w*)\b[^;]*; \w+\],$'),
        ('length beside', r'^\s*(pub )?(len|count): usize,'),
        ('slice up to a length', r'\[0?\.\.(self\.)?(len|count|\w+\.len\(\))\]'),
    ]),
    7: ('a switch on which step to run', [
        ('function pointer or dyn', r'\bfn\(|\bdyn \w'),
    ]),
}


def files(commit):
    if commit:
        names = subprocess.run(['git', 'ls-tree', '-r', '--name-only', commit, 'crates'], capture_output=True, text=True, check=True).stdout.split('\n')
    else:
        names = subprocess.run(['git', 'ls-files', '-co', '--exclude-standard', 'crates'], capture_output=True, text=True, check=True).stdout.split('\n')
    for name in sorted(set(names)):
        if '/src/' in name and name.endswith('.rt'):
            if commit:
                yield name, subprocess.run(['git', 'show', f'{commit}:{name}'], capture_output=True, text=True, check=True).stdout
            else:
                try:
                    with open(name) as f:
                        yield name, f.read()
                except FileNotFoundError:
                    pass


def signatures(text):
    """Each function's name, its parameters and its clauses."""
    for m in re.finditer(r'^\s*(?:pub(?:\(crate\))? )?fn (\w+)(<[^(]*>)?\(', text, re.M):
        depth, i = 1, m.end()
        while depth:
            depth += {'(': 1, ')': -1}.get(text[i], 0)
            i += 1
        params = re.findall(r'(\w+): ([^,()]*(?:\([^()]*\)[^,()]*)*)', text[m.end():i - 1])
        rest = re.split(r'\n\s*\{\n| \{\n|;\n|\{\}\n', text[i:], maxsplit=1)[0]
        clauses = re.findall(r'(?:requires|ensures)\s*\w*\s*\{ (.*) \}', rest)
        yield m.group(1), [(n, ' '.join(t.split())) for n, t in params], clauses


def main():
    args = [a for a in sys.argv[1:] if a != '-c']
    short = '-c' in sys.argv[1:]
    tree = list(files(args[0] if args else None))
    for point, (title, patterns) in sorted(POINTS.items()):
        print(f'point {point}: {title}')
        for label, pattern in patterns:
            found = [(n, i, line.strip()) for n, text in tree for i, line in enumerate(text.split('\n'), 1)
                     if re.search(pattern, line) and not line.strip().startswith('//')]
            print(f'  {label}: {len(found)}')
            if not short:
                for n, i, line in found:
                    print(f'    {n}:{i}: {line}')
    by_name, facts, pairs = (collections.defaultdict(set) for _ in range(3))
    for name, text in tree:
        for fn, params, clauses in signatures(text):
            by_name[fn].add(name)
            for clause in clauses:
                for fact in re.split(r' × ', clause):
                    facts[fact.strip(' ()')].add((name, fn))
            for a in range(len(params)):
                for b in range(a + 1, len(params)):
                    pairs[f'{params[a][0]}: {params[a][1]}, {params[b][0]}: {params[b][1]}'].add((name, fn))
    tables = [
        ('point 2: names that functions of several files share', {k: v for k, v in by_name.items() if len(v) > 1}),
        ('point 5: facts in the contracts of three functions or more', {k: v for k, v in facts.items() if len(v) > 2}),
        ('point 5: pairs of parameters in three signatures or more', {k: v for k, v in pairs.items() if len(v) > 2}),
    ]
    for title, table in tables:
        print(f'{title}: {len(table)}')
        if not short:
            for k, v in sorted(table.items(), key=lambda e: -len(e[1])):
                print(f'    {len(v)}: {k}')


main()
