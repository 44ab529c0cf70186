#!/usr/bin/env python3
"""Counts the places of the design pass in crates/*/src. With --list POINT it prints them, with --clauses the facts that three or more functions state.
What a pattern finds is a candidate: docs/DESIGN-PASS.md has the counts."""
import collections, glob, os, re, sys

PATTERNS = {
    '1 enums': r'^\s*(?:pub )?enum \w+',
    '1 flags and numbers beside a value': r'^\s*(?:pub )?(?:found|ok|number|word|count|line|inner|level|all): (?:bool|u32|u64|usize),$',
    '1 sentinels': r'\b(?:TOO_MANY|NOWHERE|REFUSED|NONE|NOTHING)\b|MOST \+ 1|DIRECTIONS;|^\s*return 4;|^\s*4$',
    '1 numbers of refusals': r'^\s*(?:return )?\d+;?$|number: \d+|=> \d+,|\{ \d+ \}',
    '1 numbers for kinds': r'\b(?:CORNER|LINE|UPRIGHT|LEVEL|KINDS|LOCKED)\b.*:|\b(?:d|s|dir|kind|arrived): usize\b|kind: u32\b',
    '2 helpers that std has': r'fn (?:wide|long|lesser|greater|least_of|greatest_of|chosen|pick|less|gaps|more|gap|middle|opposite)\(',
    '2 twins by name': r'fn (?:same_bytes|same_words|unsigned|signed|behind|coord|letter_at|word_at|read_full|read_list|zero_\w+|move_up|move_down|x_of|y_of|x_at|y_at|find|find_\w+|points_have_\w+|bound_\w+|own_fits|member_fits|each_\w+|all_own|all_belong|add_\w+|retire_\w+|put_(?:kinds|directions|places)|write_(?:kinds|directions|places)|separate_\w+|move_\w+)\b',
    '3 while': r'^\s*while ',
    '3 loop': r"^\s*(?:'\w+: )?loop ",
    '3 index counted by hand': r'^\s*(?:i|j|k|n|m|p|q|v|d|w|at|fields|line|t) [+-]= ',
    '4 by hand': r'fn (?:same_bytes|same_words|same|kind_of|letter_of|end_letter|tag|up|down|is_start|rank|bit|direction|unsigned|signed|print)\(',
    '4 types without Debug or PartialEq': r'^#\[derive\((?!.*PartialEq).*\)\]$',
    '6 offsets in one list': r'^(?:pub )?const (?:MIN_Y|MAX_X|MAX_Y|ANCHOR_\w+|YS|LINKS|MARKS|\w+_AT|NEXT|SUM|SCORE|ESTIMATE|PRED|MARK|WIDTH)\b',
    '6 scratch arrays': r'\blet (?:mut )?\w+(?:: \[[^\]]*\])? = \[',
}
ROOT = os.path.join(os.path.dirname(os.path.abspath(__file__)), '..') if os.path.basename(os.path.dirname(os.path.abspath(__file__))) == 'tools' else '.'

def sources(root):
    return sorted(glob.glob(os.path.join(root, 'crates', '*', 'src', '*.rt')))

def functions(text):
    """name, parameters, clauses of each function"""
    for m in re.finditer(r'\bfn (\w+)(?:<[^(]*>)?\(', text):
        depth, i = 1, m.end()
        while depth:
            depth += {'(': 1, ')': -1}.get(text[i], 0)
            i += 1
        parameters = [p for p in re.split(r',(?![^<\[(]*[>\])])', text[m.end():i - 1]) if p.strip()]
        end = re.compile(r'^\s*\{|\{$', re.M).search(text, i)
        head = text[i:end.start() if end else len(text)]
        yield m.group(1), parameters, head

def main():
    root = os.environ.get('PLACES_ROOT', ROOT)
    listed = sys.argv[2] if len(sys.argv) > 2 and sys.argv[1] == '--list' else None
    texts = {p: open(p).read() for p in sources(root)}
    for name, pattern in PATTERNS.items():
        if listed and not name.startswith(listed):
            continue
        hits = []
        for p, t in texts.items():
            for n, line in enumerate(t.split('\n'), 1):
                if line.lstrip().startswith('//') or line.startswith('ghost use'):
                    continue
                if re.search(pattern, line):
                    hits.append(f'{os.path.relpath(p, root)}:{n}: {line.strip()}')
        print(f'{name}: {len(hits)}')
        if listed:
            print('\n'.join('    ' + h for h in hits))
    many, facts, pairs = [], collections.Counter(), []
    for p, t in texts.items():
        crate = p.split(os.sep)[-3]
        for name, parameters, head in functions(t):
            if len(parameters) > 7:
                many.append((len(parameters), f'{crate}::{name}'))
            here = set()
            for clause in re.findall(r'requires[^{]*\{(.*)\}', head):
                for fact in re.split(r' × ', clause):
                    here.add(re.sub(r'\b\w+\.(?:now|old)\b', '_', re.sub(r'^[\s(]+|[\s)]+$', '', fact)))
            for fact in here:
                facts[fact] += 1
            if re.search(r'\b(\w+): &(?:mut )?\[', ','.join(parameters)) and re.search(r'\b(?:n|m|nn|ne|nb|np|b|a|count|order|len): usize', ','.join(parameters)):
                pairs.append(f'{crate}::{name}')
    repeated = [(c, f) for f, c in facts.items() if c >= 3]
    print(f'5 functions with more than 7 parameters: {len(many)}')
    print(f'5 facts that three or more functions require: {len(repeated)}, in {sum(c for c, _ in repeated)} places')
    print(f'6 functions with a slice and a count beside it: {len(pairs)}')
    if listed == '5' or '--clauses' in sys.argv:
        for c, f in sorted(repeated, reverse=True):
            print(f'    {c} {f}')
        for c, f in sorted(many, reverse=True):
            print(f'    {c} {f}')
    if listed == '6':
        print('\n'.join('    ' + f for f in pairs))
    proofs = [p for p in glob.glob(os.path.join(root, 'crates', '*', 'proofs', '**', '*.antt'), recursive=True)]
    for kind in ('Answers.antt', 'Invariants.antt', 'Proof.antt'):
        files = [p for p in proofs if p.endswith(os.sep + kind)]
        print(f'8 {kind}: {len(files)} files, {sum(os.path.getsize(p) for p in files)} bytes')
    laws = [p for p in proofs if os.path.basename(p) not in ('Answers.antt', 'Invariants.antt', 'Proof.antt', 'Lib.antt')]
    print(f'8 lemma files: {len(laws)}, {sum(os.path.getsize(p) for p in laws)} bytes')

main()
