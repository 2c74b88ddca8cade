#!/usr/bin/env python3
"""Lists places of the code that an older form of the language would explain.

Run it at the top of the repository: `python3 tools/count_places.py [POINT]`. It reads crates/*/src alone, and prints
one line for each place and a count for each point:

1  values in the place of types: enums that a reader has to judge, success told by a bool, numbers for the kinds of
   sheet, matches that wrap again what they unwrapped
2  functions whose bodies are the same but for names, literals and types (judge: accessors may be alike by nature)
3  loops that count: over a range, or by `while`
4  equality, order, copying, conversion and printing written by hand (judge: a reader of words is no conversion)
5  premises that stand in three or more contracts; parameters that travel together in three or more functions
6  arrays and lists with a length or a number beside them
7  enums that are passed down to say which step to run
"""
import collections
import glob
import re
import sys

FUNCTION = re.compile(r'^\s*(?:pub(?:\(crate\))? )?(?:const )?fn (\w+)', re.M)


def files():
    for path in sorted(glob.glob('crates/*/src/**/*.rt', recursive=True)):
        with open(path, encoding='utf-8') as handle:
            yield path, handle.read()


def functions():
    """Path, line, name, head (signature and clauses) and body of each function."""
    for path, text in files():
        text = text.split('#[cfg(test)]')[0]
        for found in FUNCTION.finditer(text):
            end = re.compile(r'^\s*\{$|\{\n|;\n', re.M)
            start = found.start(1)
            depth, at, body = 0, start, None
            # The body begins at the first brace that no clause opens.
            while at < len(text):
                clause = re.compile(r'\s*(requires|ensures)\*?( \w+)? \{').match(text, at)
                if clause and text[at] == '\n':
                    at, depth = clause.end(), 1
                    while depth:
                        depth += {'{': 1, '}': -1}.get(text[at], 0)
                        at += 1
                    continue
                if text[at] == '{':
                    body = at
                    break
                if text[at] == ';' and text[at - 1] in ')>}' or text.startswith(';\n', at):
                    break
                at += 1
            if body is None:
                continue
            at, depth = body + 1, 1
            while depth:
                depth += {'{': 1, '}': -1}.get(text[at], 0)
                at += 1
            line = text.count('\n', 0, start) + 1
            yield path, line, found.group(1), text[start:body], text[body:at]


def plain(code):
    code = re.sub(r'//[^\n]*', '', code)
    return re.sub(r'\s+', ' ', code)


def skeleton(code):
    code = re.sub(r'"[^"]*"|b?\'.\'', 'TEXT', plain(code))
    code = re.sub(r'\b\d[\d_]*(?:[iu]\d+)?\b', 'NUMBER', code)
    keep = {'if', 'else', 'match', 'for', 'in', 'while', 'return', 'let', 'mut', 'self', 'Some', 'None', 'Ok', 'Err', 'TEXT', 'NUMBER'}
    return re.sub(r'\b[A-Za-z_]\w*\b', lambda m: m.group(0) if m.group(0) in keep else 'x', code).replace(' ', '')


def point_1():
    for path, text in files():
        for found in re.finditer(r'^\s*(?:pub(?:\(crate\))? )?enum (\w+)', text, re.M):
            body = text[found.end():text.index('\n}', found.end())]
            variants = re.findall(r'^    (\w+)(\([^)]*\))?,', body, re.M)
            empty = sum(1 for _, held in variants if not held)
            if len(variants) in (2, 3) and 0 < empty < len(variants):
                yield path, text.count('\n', 0, found.start()) + 2, 'enum ' + found.group(1)
    for path, line, name, head, body in functions():
        if re.search(r'&mut .*-> (?:io::)?(?:Result<)?bool', plain(head)):
            yield path, line, name + ': success by a bool'
        if re.search(r'\b(FACTORS|SERIES|STRIKES)\b', body):
            yield path, line, name + ': numbers for kinds'
        body = plain(body)
        wrapped = re.search(r'(?:Some|Ok)\([^=]*\) (?:if [^=]*(?:==)?[^=]*)?=> ', body)
        if re.search(r'None => None|Err\((\w+)\) => Err\(', body) or wrapped and '_ => None' in body:
            yield path, line, name + ': wraps again'
        for _ in re.findall(r'let (?:Some|Ok)\(\w+\) = [^;]* else \{ return (?:Err\([^;]*\)|None|Ok\([^;]*\)); \};', body):
            yield path, line, name + ': let else'


def point_2():
    groups = collections.defaultdict(list)
    for path, line, name, head, body in functions():
        groups[skeleton(body)].append((path, line, name))
    for shape, members in groups.items():
        if len(members) > 1 and len(shape) > 12:
            for path, line, name in members:
                yield path, line, name + ' ~ ' + ' '.join(other for _, _, other in members if other != name)


def point_3():
    for path, line, name, head, body in functions():
        for found in re.findall(r'for (\w+) in \d+\.\.|while [^{]*\{', plain(body)):
            yield path, line, name + (': for ' + found if found else ': while')
        for found in re.findall(r'for [^{]* in (?!\d)[^{]*\{ if [^{]*\{ return', plain(body)):
            yield path, line, name + ': tests each item'


def point_4():
    for path, text in files():
        for found in re.finditer(r'^impl.* (PartialEq|Eq|PartialOrd|Ord|Clone|Copy|Hash|Display|Debug|From<\S*>|TryFrom<\S*>|FromStr|Ranked) for (\w+)', text, re.M):
            yield path, text.count('\n', 0, found.start()) + 1, found.group(1) + ' for ' + found.group(2)
    for path, line, name, head, body in functions():
        if re.match(r'(is_same|same_|eq_|outranks)', name):
            yield path, line, name + ': a comparison'
        if re.search(r"-> &'static str", head):
            yield path, line, name + ': a text for a value'
        if re.search(r'match \w+ \{ "', plain(body)):
            yield path, line, name + ': reads a value from a word'


def point_5():
    premises, groups = collections.defaultdict(list), collections.defaultdict(list)
    for path, line, name, head, body in functions():
        for clause in re.findall(r'requires(?: \w+)? \{ (.*?) \}\n', head):
            for part in re.split(r' × ', clause):
                premises[part.strip('() ')].append((path, line, name))
        names = re.findall(r'(\w+): (&?(?:mut )?\w+)', plain(head).split('->')[0])
        kinds = sorted({kind for _, kind in names if kind.startswith('&') and 'str' not in kind and kind != '&mut'})
        for i, one in enumerate(kinds):
            for other in kinds[i + 1:]:
                groups[path.split('/')[1] + ': ' + one + ', ' + other].append((path, line, name))
    for fact, members in premises.items():
        if len(members) > 2:
            for path, line, name in members:
                yield path, line, name + ': requires ' + fact
    for pair, members in groups.items():
        if len(members) > 2:
            for path, line, name in members:
                yield path, line, name + ': takes ' + pair.split(': ', 1)[1]


def point_6():
    for path, text in files():
        for found in re.finditer(r'struct (\w+)[^;{]*\{(.*?)\n\}', text, re.S):
            fields = found.group(2)
            if re.search(r': (?:&\S+ (?:mut )?)?\[[^\]]*\],|: \w+<\w+, \d+>,|: Cells<', fields):
                yield path, text.count('\n', 0, found.start()) + 1, 'struct ' + found.group(1)
    for path, line, name, head, body in functions():
        if re.search(r'-> \[\w+; \w+\]', head) or re.search(r'let mut \w+ = \[', body):
            yield path, line, name + ': an array that is filled'


def point_7():
    for path, text in files():
        for found in re.finditer(r'enum (Counting|Change|Asked|\w*Step|\w*Mode)\b', text):
            yield path, text.count('\n', 0, found.start()) + 1, found.group(0)
    for path, line, name, head, body in functions():
        if re.search(r'(how|asked|change|spaces): (Counting|Asked|Change|bool)', head):
            yield path, line, name + ': is told which step'
        if re.search(r'match self', body) and len(re.findall(r'=> \w+\.\w+\(', body)) > 2:
            yield path, line, name + ': passes on to each variant'


def main():
    points = [point_1, point_2, point_3, point_4, point_5, point_6, point_7]
    for number, point in enumerate(points, 1):
        if sys.argv[1:] and str(number) not in sys.argv[1:]:
            continue
        places = list(point())
        for path, line, what in places:
            print(f'{number}  {path}:{line}  {what}')
        print(f'point {number}: {len(places)} lines, in {len({(p, l) for p, l, _ in places})} items')


main()
