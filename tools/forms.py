#!/usr/bin/env python3
"""forms.py [-v] [COMMIT]: counts the places in crates/*/src that have a form for which today's Rattle has a better one, as docs/DESIGN-PASS.md numbers
them: at a commit, or in the files as they stand. With -v each place is printed. A line with `// kept: ` right above a place, or above the function
that it stands in, keeps it: such places are counted apart."""
import collections, pathlib, re, subprocess, sys

args = [a for a in sys.argv[1:] if a != '-v']
verbose = '-v' in sys.argv


def sources(commit):
    """the path and the text of each source"""
    if commit is None:
        for p in sorted(pathlib.Path('crates').glob('*/src/**/*.rt')):
            yield str(p), p.read_text(encoding='utf8')
        return
    listed = subprocess.run(['git', 'ls-tree', '-r', '--name-only', commit, 'crates'], capture_output=True, text=True, check=True).stdout
    for name in listed.split():
        if re.fullmatch(r'crates/\w+/src/.*\.rt', name):
            yield name, subprocess.run(['git', 'show', f'{commit}:{name}'], capture_output=True, text=True, check=True).stdout


def code_of(line):
    return re.sub(r'//.*', '', line)


def is_kept(lines, i):
    """whether a comment that begins `// kept: ` stands above line i, or above the function or item that it stands in"""
    def above(j):
        while j > 0 and re.match(r'\s*(//|#\[|requires|ensures|×|≡)', lines[j - 1]):
            j -= 1
            if '// kept: ' in lines[j]:
                return True
        return False
    if '// kept: ' in lines[i] or above(i):
        return True
    j = i
    while j > 0 and not re.match(r'(pub(\(\w+\))? )?(extern "C" )?(const |fn |struct |enum |impl|static )', lines[j]):
        j -= 1
    return above(j)


FLAGS = r'\s+(pub(\(crate\))? )?(code: u64|faulty: \w+|\w+: bool),'
REFUSALS = (r'\b(answer_with|refused|refuse|scan_fails|limits_fail|unread_to|Row::Unread)\(\s*(1\d|2[01]|[1-9])\b'
            r'|\breturn [23];|\bcode: (1\d|2[01]|[1-9])\b|answer_with\((fault|code|found\.code)\b')
KINDS = r'(pub(\(\w+\))? )?const [A-Z_]+: u64 = (\d|1[0-5]);'
GROUPS = [('action', 'process', 'time'), ('times', 'processes', 'actions'), ('n', 'b', 'c', 'a')]
LENGTHS = r'length \w+\.(?:now|old) (?:≡|≤) (?:length \w+|\w+_length|\d{3,})|\w+_length ≤ length'


def places(text):
    """(point, line number, what) of each place"""
    lines = text.split('\n')
    for m in re.finditer(r'^(?:pub(?:\(\w+\))? )?(enum|struct) (\w+)[^{;]*\{\n(.*?)^\}', text, re.M | re.S):
        at = text[:m.start()].count('\n')
        body = [line for line in map(code_of, m[3].split('\n')) if line.strip()]
        if m[1] == 'enum' and len(body) == 2:
            yield '1 an enum of two variants', at, m[2]
        if m[1] == 'struct' and any(re.fullmatch(FLAGS, line.rstrip()) for line in body):
            yield '1 a struct with a code or a flag', at, m[2]
    for i, line in enumerate(lines):
        code = code_of(line)
        if re.search(REFUSALS, code):
            yield '1 a refusal by its number', i, code.strip()
        if re.search(r'\bcode (==|!=) \d+', code):
            yield '1 a test of a code', i, code.strip()
        if re.match(KINDS, code):
            yield '1 a number for a kind', i, code.strip()
        if re.match(r'\s*(while|loop)\b', code):
            yield '3 a while', i, code.strip()
        m = re.match(r'\s*for (\w+) in .*\.\.', code)
        if m:
            yield '3 a for over a range', i, code.strip()
        for clause in re.findall(LENGTHS, code):
            yield '5 a length in a clause', i, clause
    for m in re.finditer(r'\bfn (\w+)(?:<[^(]*>)?\(([^)]*)\)', text):
        names = [p.split(':')[0].replace('mut ', '').strip() for p in m[2].split(',') if ':' in p]
        at = text[:m.start()].count('\n')
        for group in GROUPS:
            if all(g in names for g in group):
                yield '5 parameters ' + ', '.join(group), at, m[1]


def main():
    found, kept = collections.defaultdict(list), collections.defaultdict(list)
    for name, text in sources(args[0] if args else None):
        lines = text.split('\n')
        for point, i, what in places(text):
            (kept if is_kept(lines, i) else found)[point].append(f'{name}:{i + 1}: {what}')
    for point in sorted(set(found) | set(kept)):
        print(f'{point}: {len(found[point])}, and {len(kept[point])} kept')
        if verbose:
            for place in found[point]:
                print('    ' + place)
            for place in kept[point]:
                print('    kept ' + place)


main()
