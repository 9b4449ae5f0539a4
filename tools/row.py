#!/usr/bin/env python3
"""Turns a script and packages, given as trees in a plain text form, into a row of pj_meaning.

    tools/row.py FILE             prints the row, to be pasted into a file of specs/
    tools/row.py --compute FILE   computes what the case puts out, by a check of a copy of the crate

docs/MEANING.md describes the form. A name is a local where a scope of the body introduces it, and else a name of
the module; the names that a scope introduces are found here from its assignments.
"""
import os
import re
import shutil
import subprocess
import sys
import tempfile

OPERATORS = {'+', '-', '*', 'div', 'rem', '==', '!=', '<', '<=', '>', '>=', '!'}
WORDS = {
    'int', 'negative', 'str', 'local', 'name', 'name_of', 'field', 'call', 'call_of', 'call_local', 'latest', 'op', 'set',
    'set_global', 'set_field', 'when', 'while', 'for', 'println', 'type', 'type_in', 'typed', 'typed_in', 'free', 'def',
    'def_in', 'function', 'payload_def', 'abstract', 'struct', 'mutable', 'const', 'using', 'run', 'show', 'directive',
    'directive_of', 'source', 'Puts', 'files_of', 'built_onto', 'args', 'block', 'names_of', 'computing',
}
TREES = {
    'TopItem', 'Def', 'Declare', 'StructDef', 'Nothing', 'False', 'True', 'And', 'Or', 'Cond', 'Same', 'Value', 'Break', 'Continue', 'Return',
    'Eval', 'Define', 'SetBinding', 'Evaluate', 'body',
}


class Quoted(str):
    """A text in double quotes."""


def tokens(text):
    pattern = re.compile(r'\s+|;[^\n]*|\(|\)|"(?:\\.|[^"\\])*"|[^\s()";]+')
    place = 0
    while place < len(text):
        found = pattern.match(text, place)
        if not found:
            sys.exit(f'nothing can be read at {text[place:place + 20]!r}')
        place = found.end()
        token = found.group()
        if not token.isspace() and not token.startswith(';'):
            yield token


def forms(text):
    stack = [[]]
    for token in tokens(text):
        if token == '(':
            stack.append([])
        elif token == ')':
            if len(stack) == 1:
                sys.exit('a ) stands alone')
            done = stack.pop()
            stack[-1].append(done)
        elif token.startswith('"'):
            stack[-1].append(Quoted(token))
        else:
            stack[-1].append(token)
    if len(stack) != 1:
        sys.exit('a ) is missing')
    return stack[0]


def listed(items):
    return '(' + ' ∷ '.join(list(items) + ['[]']) + ')' if items else '[]'


def quoted(name):
    return f'"{name}"'


def qualified(name):
    """The module before a name, or none, and the name."""
    found = re.match(r'([A-Z]\w*)\.(.+)$', name)
    return (found.group(1), found.group(2)) if found else (None, name)


def type_ref(name):
    module, plain = qualified(name)
    return f'type_in {quoted(module)} {quoted(plain)}' if module else f'type {quoted(plain)}'


def parameter(form):
    if isinstance(form, str):
        return f'free {quoted(form)}'
    name, declared = form
    module, plain = qualified(declared)
    if module:
        return f'typed_in {quoted(name)} {quoted(module)} {quoted(plain)}'
    return f'typed {quoted(name)} {quoted(plain)}'


def parameter_names(forms_):
    return [form if isinstance(form, str) else form[0] for form in forms_]


def introduced(statements, outside):
    """The names that are assigned directly in these statements and that no scope outside introduces, in order."""
    names = []

    def walk(statement):
        if isinstance(statement, list) and statement:
            if statement[0] == 'set' and statement[1] not in outside and statement[1] not in names:
                names.append(statement[1])
            if statement[0] == 'if':
                for part in statement[2:]:
                    for inner in part:
                        walk(inner)

    for statement in statements:
        walk(statement)
    return names


def expression(form, scope):
    if isinstance(form, Quoted):
        return f'str {form}'
    if isinstance(form, str):
        if form in ('nothing', 'true', 'false'):
            return {'nothing': 'Nothing', 'true': 'True', 'false': 'False'}[form]
        if re.fullmatch(r'\d+', form):
            return f'int {form}'
        if re.fullmatch(r'-\d+', form):
            return f'negative {form[1:]}'
        if form in scope:
            return f'local {quoted(form)}'
        module, plain = qualified(form)
        return f'name_of {quoted(module)} {quoted(plain)}' if module else f'name {quoted(plain)}'
    head, rest = form[0], form[1:]
    values = [f'({expression(part, scope)})' for part in (rest[:1] if head == 'field' else rest)]
    if head == 'field':
        return f'field {values[0]} {quoted(rest[1])}'
    if head in ('and', 'or', '===', '?'):
        return {'and': 'And', 'or': 'Or', '===': 'Same', '?': 'Cond'}[head] + ' ' + ' '.join(values)
    if head == '!==':
        return f'Cond (Same {values[0]} {values[1]}) False True'
    if head == 'invokelatest':
        return f'latest {values[0]} {listed(values[1:])}'
    if head in scope:
        return f'call_local {quoted(head)} {listed(values)}'
    if head in OPERATORS:
        return f'call_of "Base" {quoted(head)} {listed(values)}'
    module, plain = qualified(head)
    if module:
        return f'call_of {quoted(module)} {quoted(plain)} {listed(values)}'
    return f'call {quoted(plain)} {listed(values)}'


def statements(parts, scope, top):
    return listed([f'({statement(part, scope, top)})' for part in parts])


def statement(form, scope, top):
    head = form[0] if isinstance(form, list) else None
    if head == 'set' and not (top and form[1] not in scope):
        return f'set {quoted(form[1])} ({expression(form[2], scope)})'
    if head in ('set', 'global'):
        return f'set_global {quoted(form[1])} ({expression(form[2], scope)})'
    if head == 'set-field':
        return f'set_field ({expression(form[1], scope)}) {quoted(form[2])} ({expression(form[3], scope)})'
    if head == 'if':
        other = form[3] if len(form) > 3 else []
        return f'when ({expression(form[1], scope)}) {statements(form[2], scope, top)} {statements(other, scope, top)}'
    if head == 'while':
        names = introduced(form[2:], scope)
        inside = statements(form[2:], scope | set(names), False)
        return f'while {listed([quoted(n) for n in names])} ({expression(form[1], scope)}) {inside}'
    if head == 'for':
        names = introduced(form[4:], scope | {form[1]})
        inside = statements(form[4:], scope | {form[1]} | set(names), False)
        bounds = f'({expression(form[2], scope)}) ({expression(form[3], scope)})'
        return f'for {quoted(form[1])} {bounds} {listed([quoted(n) for n in names])} {inside}'
    if form in (['break'], ['continue']):
        return form[0].capitalize()
    if head == 'return':
        return f'Return ({expression(form[1], scope)})' if len(form) > 1 else 'Return Nothing'
    if head == 'eval':
        return f'Eval [] ({payload(form[1])})'
    if head == 'eval-in':
        return f'Eval (codes {quoted(form[1])}) ({payload(form[2])})'
    return f'Value ({expression(form, scope)})'


def body(parameters, parts):
    names = set(parameter_names(parameters))
    inner = introduced(parts, names)
    return inner, statements(parts, names | set(inner), False)


def definition(form, word):
    head, target, parameters = form[0], form[1], form[2]
    parts = form[3:] if head == 'function' else [form[3]]
    module, plain = qualified(target)
    inner, code = body(parameters, parts)
    ps = listed([parameter(p) for p in parameters])
    where = f'(codes {quoted(module)})' if module else '[]'
    names = listed([f'codes {quoted(n)}' for n in inner])
    return f'{word} {where} (codes {quoted(plain)}) {ps} (body (names_of {ps}) {names} (block {code}))'


def payload(form):
    if isinstance(form, list) and form[0] in ('def', 'function'):
        return definition(form, 'Define')
    if isinstance(form, list) and form[0] == 'set':
        return f'SetBinding (codes {quoted(form[1])}) ({expression(form[2], set())})'
    return f'Evaluate ({expression(form, set())})'


def item(form):
    head = form[0] if isinstance(form, list) else None
    if head == 'using':
        return f'using {listed([quoted(n) for n in form[1:]])}'
    if head == 'abstract':
        return f'abstract {quoted(form[1])} ({type_ref(form[3] if len(form) > 3 else "Any")})'
    if head in ('struct', 'mutable'):
        rest = form[2:]
        parent = 'Any'
        if rest and rest[0] == '<:':
            parent, rest = rest[1], rest[2:]
        kind = 'true' if head == 'mutable' else 'false'
        return f'StructDef {kind} (codes {quoted(form[1])}) ({type_ref(parent)}) {listed([parameter(p) for p in rest])}'
    if head in ('def', 'function'):
        return definition(form, 'Def')
    if head == 'declare':
        return f'Declare (codes {quoted(form[1])})'
    if head == 'const':
        return f'const {quoted(form[1])} ({expression(form[2], set())})'
    if head == 'precompile':
        module, plain = qualified(form[1])
        types = listed([type_ref(t) for t in form[2:]])
        return f'directive_of {quoted(module)} {quoted(plain)} {types}' if module else f'directive {quoted(plain)} {types}'
    return f'run ({statement(form, set(), True)})'


def items(parts):
    return listed([item(part) for part in parts])


def read(path):
    case = {'packages': [], 'items': [], 'steps': '1000000', 'puts': None, 'row': 'tried'}
    with open(path, encoding='utf-8') as file:
        for form in forms(file.read()):
            head = form[0]
            if head == 'package':
                uses = listed([quoted(n) for n in form[2]])
                case['packages'].append(f'source {quoted(form[1])} {uses} {items(form[3:])}')
            elif head == 'script':
                case['items'] += form[1:]
            elif head in ('steps', 'puts', 'row'):
                case[head] = form[1]
            else:
                sys.exit(f'no such form: {head}')
    return case


def imports(text):
    plain = re.sub(r'"(?:\\.|[^"\\])*"', '', text)
    found = set(re.findall(r'[A-Za-z_]+', plain))
    lines = ['use Rattle.std.specs.Prelude.{◌≡◌, ℕ, true, false, List, [], ◌∷◌, take, drop, length, refl}', 'use lib.Chars.{codes}']
    trees = sorted(TREES & found)
    if trees:
        lines.append(f'use Rattle.pj_meaning.specs.Tree.{{{", ".join(trees)}}}')
    lines.append(f'use Rattle.pj_meaning.specs.Written.{{{", ".join(sorted(WORDS & found))}}}')
    return '\n'.join(lines)


def row(case):
    name = case['row']
    text = case['puts'] or '"?"'
    return f'abbrev pub {name} : Type 0\n{name} = Puts {listed(case["packages"])} {case["steps"]} {items(case["items"])} {text}\n'


# the output is asked for in pieces, since the check cuts long lists: 480 bytes in all
CHUNK, CHUNKS = 12, 40


def compute(case):
    top = os.path.dirname(os.path.dirname(os.path.abspath(__file__)))
    output = 'pub output : List ℕ\n' 'output = whole_output (run_script (use_from (files_of (built_onto [] packages))) script steps)\n'
    text = (
        f'abbrev packages : List Source\npackages = {listed(case["packages"])}\n\n'
        f'abbrev script : List TopItem\nscript = {items(case["items"])}\n\n'
        f'abbrev steps : ℕ\nsteps = {case["steps"]}\n\nabbrev {output}\n'
    )
    for k in range(CHUNKS):
        text += f'\npart_{k} : take {CHUNK} (drop {CHUNK * k} output) ≡ 0 ∷ []\nunfolding computing\npart_{k} = refl\n'
    head = imports(text + ' computing files_of built_onto TopItem') + (
        '\nuse Rattle.pj_meaning.specs.Packages.{Source}\nuse Rattle.pj_meaning.specs.Script.{run_script}\n'
        'use Rattle.pj_meaning.specs.Using.{use_from}\nuse Rattle.pj_meaning.specs.Endings.{whole_output}\n\n'
    )
    with tempfile.TemporaryDirectory() as folder:
        for name in ('crates.txt', 'HANDLES'):
            shutil.copy(os.path.join(top, name), folder)
        shutil.copytree(os.path.join(top, 'crates', 'pj_meaning'), os.path.join(folder, 'crates', 'pj_meaning'))
        with open(os.path.join(folder, 'crates.txt'), 'w', encoding='utf-8') as file:
            file.write('pj_meaning:\n')
        crate = os.path.join(folder, 'crates', 'pj_meaning')
        with open(os.path.join(crate, 'proofs', 'Tried.antt'), 'w', encoding='utf-8') as file:
            file.write(head + text)
        with open(os.path.join(crate, 'proofs', 'Lib.antt'), 'a', encoding='utf-8') as file:
            file.write('pub mod Tried\n')
        told = subprocess.run(['rt', 'check'], cwd=crate, capture_output=True, text=True)
    said = told.stdout + told.stderr
    parts = {}
    for block in re.split(r'\n(?=\./proofs/)', said):
        part = re.search(r'`part_(\d+)`', block)
        value = re.search(r'differ only where one has `0 ∷ \[\]`\s*\(expected\)\s*and the other has `([^`]*)`\s*\(found\)', block)
        value = value or re.search(r'the two types are `Path \(List ℕ\) \(?([^`()]*)\)? \(0 ∷ \[\]\)`', block)
        if part and value and '…' in value.group(1):
            sys.exit(f'the check cut piece {part.group(1)}: make CHUNK smaller')
        if part and value:
            parts[int(part.group(1))] = [int(n) for n in re.findall(r'\d+', value.group(1))]
    if 0 not in parts:
        sys.exit('the case was not computed:\n' + '\n'.join(line for line in said.splitlines() if 'Tried' in line or 'part_0' in line)[:2000])
    bytes_ = []
    for k in range(CHUNKS):
        bytes_ += parts.get(k, [])
        if len(parts.get(k, [])) < CHUNK:
            break
    sys.stdout.buffer.write(bytes(bytes_))
    if len(bytes_) == CHUNK * CHUNKS:
        print('\n.. and maybe more', file=sys.stderr)


def main():
    words = sys.argv[1:]
    if words[:1] == ['--compute'] and len(words) == 2:
        compute(read(words[1]))
    elif len(words) == 1:
        made = row(read(words[0]))
        print(imports(made) + '\n\n' + made, end='')
    else:
        sys.exit(__doc__)


if __name__ == '__main__':
    main()
