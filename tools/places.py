"""Counts the places of docs/DESIGN-PASS.md in a checkout's crates/*/src: python3 tools/places.py [-v] [CHECKOUT]. With -v it names each."""
import glob
import os
import re
import sys

verbose = '-v' in sys.argv[1:]
roots = [a for a in sys.argv[1:] if a != '-v']
os.chdir(os.path.join(roots[0] if roots else os.path.join(os.path.dirname(os.path.abspath(__file__)), '..'), 'crates'))
texts = {p: open(p).read() for p in sorted(glob.glob('*/src/*.rt'))}


def functions(text):
    """each function's name, parameters, result, clauses and body"""
    head = re.compile(r'^ *(?:pub )?(?:extern "C" )?fn (\w+)(?:<[^>]*>)?\(([^{]*?)\)(?: -> ([^\n]*))?\n((?: +(?:requires|ensures|where)[^\n]*\n)*)( *)\{\n', re.M)
    for m in head.finditer(text):
        end = text.find('\n' + m.group(5) + '}\n', m.end() - 1)
        yield m.group(1), m.group(2), m.group(3) or '', m.group(4), text[m.end():end + 1], m.start()


def line(path, start):
    return f'{path}:{texts[path].count(chr(10), 0, start) + 1}'


def found(pattern, flags=re.M):
    return [(line(p, m.start()), m.group(0).strip()) for p, t in texts.items() for m in re.finditer(pattern, t, flags)]


def show(point, what, places):
    print(f'{point}  {len(places):4}  {what}')
    if verbose:
        for place in places:
            print('           ', *place)


every = [(p, *f) for p, t in texts.items() for f in functions(t)]

show(1, 'enums', found(r'^(?:pub )?enum \w+'))
show(1, 'fields of a struct that are flags', [(line(p, m.start() + f.start()), f.group(0).strip()) for p, t in texts.items()
     for m in re.finditer(r'^(?:pub )?struct \w+[^{;]*\{\n(?:.*\n)*?\}', t, re.M) for f in re.finditer(r'^ +(?:pub )?\w+: bool,', m.group(0), re.M)])
show(1, 'numbers with names: constants of eight bits', found(r'^(?:pub )?const [A-Z_]+: u8 = '))
show(1, 'parameters that are kinds by number', found(r'\b(?:kind|other): u8'))
show(1, 'functions that give a number, or 0 for none', [(line(p, at), name) for p, name, _, result, _, body, at in every
     if result in ('u8', 'usize') and re.search(r'^    (?:0|\w+(?:::\w+)+\([^)]*\) => 0,)$', body, re.M)])

twins = [
    ('buffers', 'clear', 'clear_numbers'), ('numbers', 'two_at', 'three_at', 'four_at', 'eight_at'), ('numbers', 'put_two', 'put_three', 'put_four', 'put_eight'),
    ('numbers', 'wide', 'wide_two', 'wide_four'), ('numbers', 'as_u16', 'as_u32', 'as_u64'), ('reading', 'are_letters', 'are_spare'),
    ('paths', 'arrive', 'end_at_once'), ('restsets', 'add_state', 'add_states'), ('desk', 'saved', 'save'), ('desk', 'returned', 'return_to'),
    ('desk', 'forgotten', 'forget'), ('desk', 'fired', 'fire'), ('desk', 'looked', 'look'), ('desk', 'counted', 'count'), ('exports', 'number_of', 'place_of'),
    ('hours', 'delay_of', 'fits_never'), ('lengths', 'joined', 'rest'), ('verdict', 'answer_limit', 'answer_and_run_limit'), ('reach', 'answer_table', 'answer_and_run_table'),
]
names = {(p.split('/')[0], name) for p, name, *_ in every}
show(2, 'twins: functions of one crate that differ in a type, a size or a constant, or repeat one another',
     [(c, *fs) for c, *fs in twins if sum((c, f) in names for f in fs) > 1])
show(2, 'the lesser or the greater of two numbers, by hand', [(line(p, at), name) for p, name, params, result, _, body, at in every
     if re.fullmatch(r'(?:    let \w+ = \w+ \+ \w+;\n)?    if \w+ < \w+ (?:\{ \w+ \} else \{ \w+ \}|\{\n        return \w+;\n    \}\n    \w+)\n', body)])

loops = [(p, m) for p, t in texts.items() for m in re.finditer(r'^( *)(?:\'\w+: )?while ([^{]+?) \{\n((?:.*\n)*?)\1\}\n', t, re.M)]
counts = re.compile(r'^ *\w+ [+-]= 1;$', re.M)
show(3, 'while loops that count by one', [(line(p, m.start()), m.group(2)) for p, m in loops if re.search(r'^' + m.group(1) + r'    \w+ [+-]= 1;$', m.group(3), re.M)])
show(3, 'other while loops', [(line(p, m.start()), m.group(2)) for p, m in loops if not re.search(r'^' + m.group(1) + r'    \w+ [+-]= 1;$', m.group(3), re.M)])
show(3, 'for loops', found(r'^ *for \w.* in '))
show(3, 'iterator chains and library methods over slices', found(r'\.(?:iter|iter_mut|zip|fill|copy_from_slice|copy_within|chunks_exact|windows|contains|ends_with|starts_with|rev)\('))

show(4, 'conversions by hand', [(line(p, at), name) for p, name, *_, at in every if name in ('as_u16', 'as_u32', 'as_u64', 'as_bit', 'wide', 'wide_two', 'wide_four', 'figure')])
show(4, 'equality by hand', [(line(p, at), name) for p, name, *_, at in every if name in ('same', 'same_from', 'same_bytes')])
show(4, 'printing by hand', [(line(p, at), name) for p, name, *_, at in every if p.startswith(('listing/', 'cases/')) and name.startswith(('put_', 'print_'))])

show(5, "clauses that say of a table's bytes and counts that they belong together", found(r'Holds (?:table|bytes)\.now t\b'))
show(5, "a table's bytes and counts as two parameters", [(line(p, at), name) for p, name, params, *_, at in every if re.search(r'&\[u8\],\s+t: Table', params)])
show(5, 'clauses that say of a log and the scratch that the records are in rings', found(r'\bRinged (?:log|self)'))
show(5, 'hours, counts and stays as three parameters', [(line(p, at), name) for p, name, params, *_, at in every if re.search(r'hours:.*\s+counts:.*\s+stays:', params)])
show(5, 'clauses that say of a desk that it is good', found(r'requires \{ Good '))

show(6, 'a buffer and a place in it, of which the next is given', [(line(p, at), name) for p, name, params, result, *_, at in every if 'out: &mut [u8]' in params and 'at: usize' in params and result == 'usize'])
show(6, 'arrays side by side', found(r'^ +(?:pub )?masks: \[|changes: &mut \[u32\]|^ +stays: \[u16|^ +counts: \[u8', re.M))

show(7, 'tests of which kind or step it is, one after the other', found(r'^ +if kind [!=]= \d'))

print('8 ', sum(1 for p in glob.glob('*/proofs/**/*.antt', recursive=True) for l in open(p) if l.strip()), ' lines of proofs;', len(glob.glob('*/proofs/**/Answers.antt', recursive=True)), 'files of answers;',
      sum(open(p).read().count('\npub ') for p in glob.glob('*/proofs/**/Answers.antt', recursive=True)), 'answers')
