#!/usr/bin/env python3
"""Counts, in crates/*/src, the places of each point of docs/DESIGN-PASS.md. `-v` lists them."""
import glob
import re
import sys

POINTS = {
    '1': [
        ('an error matched only to be passed on', r'Err\((\w+)\) => Err\('),
        ('an error thrown away for another', r'if let Err\(_\) = '),
        ('what cannot be, matched', r'=> unreachable\(\)'),
        ('a value matched only to be passed on', r'(Ok|Some)\((\w+)\) => (Ok|Some|Err)\(\2\)'),
        ('nothing where there is nothing, by a match', r'(Err\(_\)|None) => None,'),
        ('a number tested for a kind', r'(== 1 \{|!= 1 \{|\) >= 2$)'),
        ('a match from a case to its number', r'::(Assigned => 0|Ring => 11|Narrow => 18|Form => 23),$'),
        ('a number that says nothing as a result', r'fn \w+_close<.*> *\(\) -> u8'),
        ('a flag beside its value', r'^\s+(negative|safe|enqueues): bool,$|, (safe|negative): bool'),
        ('numbers for a layer and a refusal', r'pub (layer|number): u16'),
    ],
    '3': [
        ('a loop whose end is tested by hand', r'^\s+while |= .*loop \{$|^\s+loop \{'),
        ('a loop over numbers', r'for \w+ in .*\.\.'),
        ('a sum or test over items, by a loop', r'^    for (field|place|column|cell) in (fields|places\.iter_mut\(\)|columns|cells) \{'),
        ('bytes pushed one by one', r'for (byte|mark) in '),
    ],
    '4': [
        ('numbers compared for the types round them', r'\.0 (==|!=|<|<=|>|>=) | (==|!=|<|<=|>|>=) [\w.]+\.0\b'),
        ('a case asked for by a match', r'^\s+_ => false,'),
        ('a flag turned into a number', r'if \w+ \{ 1 \} else \{ 0 \}'),
        ('a conversion by a function', r'fn (chosen_\w+|explain\w*|same)\('),
        ('a trait of one function for a conversion', r'pub trait AtLine'),
        ('a cast of a number that was tested', r'\b(n|level|cells|workers|count) as (u16|u32|i16)\b|\)\? as u16'),
    ],
    '6': [
        ('a line in a buffer of its own', r'let mut line = \['),
        ('an array beside the workers', r'let mut enqueues = '),
    ],
    '7': [
        ('a switch on a row, a kind or a letter', r'^\s+match (row|due\.row|letter|call|order|items|phase_of.*|workers\[at\]\.phase|worker\.phase|\(.*ring.*items\)) \{'),
    ],
}


def sources():
    for path in sorted(glob.glob('crates/*/src/**/*.rt', recursive=True)):
        if not path.endswith('tests.rt'):
            yield path, open(path).read().split('\n')


def by_line(point):
    for name, pattern in POINTS[point]:
        for path, lines in sources():
            for at, line in enumerate(lines, 1):
                if not line.lstrip().startswith('//') and re.search(pattern, line):
                    yield name, f'{path}:{at}: {line.strip()}'


def functions():
    """Each function: where it stands, its parameters, its clauses and its body's lines."""
    for path, lines in sources():
        text = '\n'.join(lines)
        for found in re.finditer(r'^( *)(pub |pub\(crate\) )?fn (\w+)(.*?)^\1\{?(.*?)^\1\}', text, re.M | re.S):
            at = text[:found.start()].count('\n') + 1
            yield f'{path}:{at}', found.group(3), found.group(0)


def shape(code):
    """The body without its names of types, parameters and numbers."""
    body = code[code.find('{\n'):] if '\n{' not in code else code[code.find('\n{'):]
    body = re.sub(r'//.*', '', body)
    body = re.sub(r'\b[A-Z]\w*\b', 'T', body)
    body = re.sub(r'\b\d[\d_]*\b', '0', body)
    body = re.sub(r'\b(?!if|let|else|match|for|in|return|mut|fn|while|loop)[a-z_]\w*\b', 'x', body)
    return re.sub(r'\s+', ' ', body)


def twins():
    seen = {}
    for where, name, code in functions():
        if len(shape(code)) > 15 and shape(code) != '{ x(x, x) ':
            seen.setdefault(shape(code), []).append(f'{where}: {name}')
    return [places for places in seen.values() if len(places) > 1]


def passed_on():
    """Functions that only pass their own parameters on to one other."""
    for where, name, code in functions():
        body = re.sub(r'//.*', '', code[code.find('\n' + re.match(r' *', code).group(0) + '{'):]).strip()
        call = re.fullmatch(r'\{\s*([\w:<>., ]+)\(\s*([\w,\s]*?),?\s*\)\s*\}?', body)
        if call and call.group(2):
            taken = [word for word in re.findall(r'(\w+): ', code[:code.find(') ->')]) if word.islower()]
            given = re.split(r',\s*', call.group(2).strip())
            if given == taken:
                yield f'{where}: {name}'


def facts():
    """A `requires` that stands, up to the names of what it speaks of, in three functions or more."""
    seen = {}
    for where, name, code in functions():
        for clause in re.findall(r'requires(?: \w+)? \{ (.*) \}', code):
            key = re.sub(r'\b(self|control|calls|cells|workers|columns|buffer)\.(now|old|new)', r'\1', clause)
            key = re.sub(r'calls( \+ .*)? <', 'calls <', key)
            key = re.sub(r'^.*?(1 ≤ number\.0).*$', r'\1', key)
            key = key.replace('self.calls', 'calls').replace('play.body', 'body').replace('body.now', 'body')
            seen.setdefault(key, []).append(f'{where}: {name}')
    return [(key, places) for key, places in seen.items() if len(places) > 2]


GROUPS = [('control', 'cells', 'workers'), ('found|due', 'worker', 'cell'), ('ring', 'head', 'number'), ('calls', 'out'), ('header', 'body'), ('safe', 'epoch')]


def groups():
    for group in GROUPS:
        places = []
        for where, name, code in functions():
            head = code[:code.find(')') if ') ->' not in code else code.find(') ->')]
            if all(re.search(rf'\b({word}): ', head) for word in group):
                places.append(f'{where}: {name}')
        if len(places) > 2 or (places and group == ('safe', 'epoch')):
            yield group, places


def main():
    verbose = '-v' in sys.argv
    for point in POINTS:
        found = list(by_line(point))
        print(f'point {point}: {len(found)}')
        for name in dict.fromkeys(name for name, _ in found):
            places = [place for other, place in found if other == name]
            print(f'  {len(places):3} {name}')
            if verbose:
                print('\n'.join(f'        {place}' for place in places))
    pairs = twins()
    print(f'point 2: {len(pairs)} groups of functions of one shape, {sum(map(len, pairs))} functions')
    for places in pairs if verbose else []:
        print('\n'.join(f'        {place}' for place in places) + '\n')
    alone = list(passed_on())
    print(f'  {len(alone):3} functions that only pass their parameters on')
    if verbose:
        print('\n'.join(f'        {place}' for place in alone))
    replies = [f'{path}:{at}' for path, lines in sources() for at, line in enumerate(lines, 1) if re.search(r'Ok\(answer\) => (answer|\($|\()', line) and 'number' in ' '.join(lines[at - 1:at + 2])]
    print(f'  {len(replies):3} matches for the number of what a call came to')
    if verbose:
        print('\n'.join(f'        {place}' for place in replies))
    print('point 5:')
    for key, places in facts():
        print(f'  {len(places):3} functions require: {key}')
        if verbose:
            print('\n'.join(f'        {place}' for place in places))
    for group, places in groups():
        print(f'  {len(places):3} functions take together: {", ".join(group)}')
        if verbose:
            print('\n'.join(f'        {place}' for place in places))


main()
