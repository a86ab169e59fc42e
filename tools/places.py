#!/usr/bin/env python3
"""Counts the places of docs/DESIGN-PASS.md in src/, point by point, by their text: places.py [-l] [CRATE ..] (-l lists them)."""
import glob
import itertools
import re
import sys

PROGRAMS = ('program_text levels level_cases hour_levels stored_calls limit_vectors random_order_vectors '
            'generated_vectors mirror_vectors mirror_files node_lines cut_set_lines').split()
words = sys.argv[1:]
listed = '-l' in words
crates = [w for w in words if w != '-l']


def sources():
    for path in sorted(glob.glob('crates/*/src/*.rt')):
        crate = path.split('/')[1]
        if not crates or crate in crates:
            with open(path, encoding='utf-8') as file:
                yield path, crate, re.sub(r'//[^\n]*', '', file.read())


def behind(text, at):
    """Where the bracket that opens before a place is closed."""
    depth = 1
    while depth:
        depth += {'(': 1, '[': 1, '{': 1, ')': -1, ']': -1, '}': -1}.get(text[at], 0)
        at += 1
    return at


def functions(text):
    """Of each function its name, its parameters, and what stands between these and its body."""
    for m in re.finditer(r'fn (\w+)(?:<[^(]*>)?\(', text):
        end = behind(text, m.end())
        head = end
        while text[head] not in '{;':
            head += 1
            clause = re.compile(r'(requires|ensures)\s*\w*\s*\{').match(text, head)
            head = behind(text, clause.end()) if clause else head
        yield m.group(1), text[m.end():end - 1], text[end:head]


def factors(fact):
    """The parts of a product of facts."""
    parts, depth = [''], 0
    for c in fact:
        depth += (c in '([{') - (c in ')]}')
        if c == '×' and depth == 0:
            parts.append('')
        else:
            parts[-1] += c
    parts = [' '.join(part.split()) for part in parts]
    if len(parts) == 1:
        inner = parts[0]
        return factors(inner[1:-1]) if inner[:1] == '(' and behind(inner, 1) == len(inner) else parts
    return [f for part in parts for f in factors(part)]


def required(head):
    """The facts that the clauses of a function ask, and for each its predicate, where it has one."""
    for m in re.finditer(r'requires\s*\w*\s*\{', head):
        for fact in factors(head[m.end():behind(head, m.end()) - 1]):
            fact = re.sub(r'\.(now|old|new|entry)\b', '', fact)
            yield fact.split()[0] if re.match(r'[A-Z]\w* ', fact) else fact


def often(rows):
    """What stands in three functions or more, with them."""
    where = {}
    for what, function in rows:
        where.setdefault(what, set()).add(function)
    return [f'{what}: {", ".join(sorted(w))}' for what, w in sorted(where.items()) if len(w) >= 3]


def show(point, found):
    print(f'{point}: {len(found)}')
    if listed:
        for place in found:
            print(f'    {place}')


def by_line(pattern, keep=lambda crate: True):
    return [f'{path}: {line.strip()}' for path, crate, text in sources() if keep(crate)
            for line in text.split('\n') if re.search(pattern, line)]


def by_parameters(*names):
    return [f'{path}: {name}' for path, _, text in sources() for name, parameters, _ in functions(text)
            if all(re.search(rf'\b{word}\b', parameters) for word in names)]


def two_armed():
    found = []
    for path, _, text in sources():
        for m in re.finditer(r'enum (\w+) \{(.*?)\n\}', text, re.S):
            arms = [a for a in m.group(2).split(',') if a.strip()]
            if len(arms) == 2 and any('(' in a for a in arms):
                found.append(f'{path}: {m.group(1)}')
    return found


def asked():
    return often((f'{crate}: {fact}', name) for path, crate, text in sources() for name, _, head in functions(text) for fact in required(head))


def together():
    rows = []
    for path, crate, text in sources():
        for name, parameters, _ in functions(text):
            words = sorted({' '.join(p.split()) for p in re.split(r',(?![^<(]*[>)])', parameters) if ':' in p})
            rows += [(f'{crate}: {a}, {b}', name) for a, b in itertools.combinations(words, 2)]
    return often(rows)


show('1 enums of two arms, one with a value', two_armed())
show('1 functions of programs that answer whether all was written or read',
     [f'{path}: {name}' for path, crate, text in sources() if crate in PROGRAMS
      for name, _, head in functions(text) if '-> bool' in head])
show('1 numbers for kinds and rules', by_line(r'_KIND\b|\bconst (EVENT|AND|OR)\b|[!=<>]= (EVENT|AND|OR)\b|rule_number|which: u8'
                                         r'|[!=]= \w+::\w+ as u'))
show('3 loops that count by hand', by_line(r"^\s*('\w+: )?(while|loop)\b"))
show('3 loops over the indices of a slice', by_line(r'\bin 0\.\.\w+\.len\(\)'))
show('5 lower, upper and marks together', by_parameters('lower', 'upper', 'marks'))
show('5 k and n together', by_parameters('k: u32', 'n: u32'))
show('5 the state and a store together', by_parameters('state: State', r'(tree|sheet|\w*store|file)'))
show('6 a draft and a place in it', by_parameters('draft', 'place'))
show('5 facts that three functions of a crate ask of their callers', asked())
show('5 pairs of parameters in three functions of a crate', together())
