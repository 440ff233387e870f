#!/usr/bin/env python3
"""Counts, at a commit, the places that docs/DESIGN-PASS.md speaks of: count_places.py COMMIT [--list]

Each count is of a form of the text. Which of its places are to change is for a reader to say."""
import collections
import re
import subprocess
import sys


def git(*words):
    return subprocess.run(['git', *words], capture_output=True, text=True, check=True).stdout


def files(commit, pattern):
    names = git('ls-tree', '-r', '--name-only', commit, 'crates').splitlines()
    return {name: git('show', f'{commit}:{name}') for name in names if re.search(pattern, name)}


def functions(text):
    """Name, parameters and body of each function: a body is the first block after the contract."""
    for m in re.finditer(r'\bfn (\w+)(?:<[^()]*?>)?\(', text):
        depth, i = 1, m.end()
        while depth:
            depth += {'(': 1, ')': -1}.get(text[i], 0)
            i += 1
        # a block or a `;` ends the signature; a clause's braces stand on the lines that say requires or ensures
        rest = re.sub(r'(?:requires|ensures)(?: \w+)? \{(?:[^{}]|\{[^{}]*\})*\}',
                      lambda n: ' ' * len(n.group()), text[i:])
        b = re.search(r'[{;]', rest)
        if not b or rest[b.start()] == ';':
            continue
        depth, k = 1, b.end()
        while depth and k < len(rest):
            depth += {'{': 1, '}': -1}.get(rest[k], 0)
            k += 1
        yield m.group(1), text[m.end():i - 1], rest[b.end():k - 1]


TOKEN = re.compile(r'b?"(?:[^"\\]|\\.)*"|\d\w*|\w+|<<|>>|&&|\|\||[-+*/%&|^!=<>]=?|\S')


def shape(body):
    """A body with its names numbered as they come, and its literals and operators left out."""
    seen, out = {}, []
    for t in TOKEN.findall(re.sub(r'//[^\n]*', '', body)):
        if t == 'self' or t in '(){}[];,.:?':
            out.append(t)
        elif re.match(r'b?"|\d', t):
            out.append('LITERAL')
        elif re.match(r'\w', t):
            out.append(str(seen.setdefault(t, len(seen))))
        else:
            out.append('OPERATOR')
    return ' '.join(out)


def main():
    commit = sys.argv[1]
    src = files(commit, r'/src/.*\.rt$')
    found = collections.defaultdict(list)

    def lines(key, pattern, only=lambda name: True):
        for name, text in src.items():
            if only(name):
                for n, line in enumerate(text.splitlines(), 1):
                    if re.search(pattern, line):
                        found[key].append(f'{name}:{n}: {line.strip()}')

    for name, text in src.items():
        for m in re.finditer(r'enum (\w+)(?:<\w+>)? \{\n(.*?)\n\}', text, re.S):
            variants = [v for v in re.findall(r'^    (\w+.*),$', m.group(2), re.M)]
            if len(variants) == 2 and any('(' in v or '{' in v for v in variants):
                found['1 enums of two variants, one of them with a value'].append(f'{name}: {m.group(1)}')
        for m in re.finditer(r'let (?:Some|Ok|Err)\(.*\) = [^;{]* else \{\n\s*return Err\(', text):
            found['1 a `let` that only returns an error'].append(f'{name}: {m.group().split(chr(10))[0]}')
    lines('1 numbers for refusals and kinds', r'(?<!words)\.number\(\)|\) -> i32|: i32\b.*Refusal')
    lines('1 an error that is replaced by hand', r'is_err\(\)|Err\(_\) =>|Fault\(cause, origin\) => Ok')

    shapes = collections.defaultdict(list)
    for name, text in src.items():
        for fn, _, body in functions(text):
            if len(TOKEN.findall(body)) >= 4 and '#[test]' not in text[max(0, text.find(f'fn {fn}(') - 20):text.find(f'fn {fn}(')]:
                shapes[shape(body)].append(f'{name}: {fn}')
    for s, names in shapes.items():
        if len(names) > 1:
            found['2 functions whose bodies differ only in names, literals or operators'].extend(names)

    lines('3 loops', r'^\s*(for|while|loop)\b', lambda n: 'model_tests' not in n)
    lines('3 loops of the tests', r'^\s*(for|while|loop)\b', lambda n: 'model_tests' in n)
    lines('3 of them by an index or a count', r'^\s*for \w+ in (\(?0\.\.)|enumerate\(\)|^\s*while|^\s*\w+ \+= 1;')
    lines('4 conversion, printing, equality by hand',
          r'fn (from_\w+|number|text|refusal|mask_of)\((self|number|word)\b|fn (is_at|\w+_at)\((cell|origin): .*-> bool|let number = ')
    lines('5 requires', r'^\s*requires')
    clauses, groups = collections.Counter(), collections.defaultdict(set)
    for name, text in src.items():
        for m in re.finditer(r'requires(?: \w+)? \{(.*)\}', text):
            clauses[(name.split('/')[1], m.group(1).strip())] += 1
        for fn, params, _ in functions(text):
            if 'model_tests' in name:
                continue
            ps = sorted(set(re.sub(r"'\w+ ?", '', p.strip()) for p in params.split(',') if ':' in p))
            for i, p in enumerate(ps):
                for q in ps[i + 1:]:
                    groups[(name.split('/')[1], p, q)].add(fn)
    for (crate, clause), n in clauses.items():
        if n >= 3:
            found['5 a `requires` that stands three times or more'].append(f'{crate}: {n} times {clause}')
    for (crate, p, q), fns in groups.items():
        if len(fns) >= 3:
            found['5 two parameters that three functions or more take together'].append(f'{crate}: {p}, {q}: {", ".join(sorted(fns))}')
    lines('6 positions and counts beside a buffer', r'(at|count|position|n|length|places): usize, \w+: &|&(mut )?\[\w+\], (at|count|position|n|length|places): \w+|starts|Vec<usize>|\bat (=|\+=) ')
    lines('7 enums of steps, and their switches', r'enum (Task|Inspection)\b|match (task|inspection) |\bfn\(|dyn ')
    proofs = files(commit, r'/proofs/.*\.antt$')
    for name, text in proofs.items():
        found['8 proof files'].append(name)
        for m in re.finditer(r'^(?:pub )?(?:abbrev )?(?:pub )?([\w-]+) : (?:goal\.)', text, re.M):
            found['8 answers'].append(f'{name}: {m.group(1)}')
    print(f'{sum(t.count(chr(10)) for t in proofs.values())} lines of proofs, '
          f'{sum(t.count(chr(10)) for t in src.values())} lines of src')
    for key in sorted(found):
        print(f'{len(found[key]):4} {key}')
        if '--list' in sys.argv:
            for place in found[key]:
                print(f'       {place}')


main()
