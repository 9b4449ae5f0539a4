#!/usr/bin/env python3
"""Prints an image file for people: its sections, its trees indented, and what each mention names.

    tools/image.py FILE

It reads the whole format of docs/FORMAT.md, also what `decode` refuses today, and stops at bytes that it can't read.
"""
import hashlib
import struct
import sys

KINDS = ['type', 'function', 'method', 'binding', 'object', 'record', 'tree']
BASE_TYPES = ['Any', 'Number', 'Real', 'Integer', 'Signed', 'Int64', 'Bool', 'AbstractString', 'String', 'Nothing', 'Function']
BASE_FUNCTIONS = ['+', '-', '*', 'div', 'rem', '==', '!=', '<', '<=', '>', '>=', '!', 'abs', 'min', 'max', 'print', 'println', 'error']
SECTIONS = ['head', 'strings', 'types', 'functions', 'bindings', 'objects', 'trees', 'methods', 'directives', 'records', 'code', 'entries']
EXPRESSIONS = ['Nothing', 'False', 'True', 'Int', 'Str', 'Local', 'Global', 'Field', 'Call', 'CallLocal', 'Latest', 'And', 'Or', 'Cond', 'Same']
STATEMENTS = ['Value', 'SetLocal', 'SetGlobal', 'SetField', 'If', 'While', 'For', 'Break', 'Continue', 'Return', 'Eval']
# the fields of each tag: s string, m module, e expression, E expressions, b block, S strings, i integer, n tree
FIELDS = {
    0: '', 1: '', 2: '', 3: 'i', 4: 's', 5: 's', 6: 'ms', 7: 'es', 8: 'msE', 9: 'sE', 10: 'eE', 11: 'ee', 12: 'ee', 13: 'eee', 14: 'ee',
    32: 'e', 33: 'se', 34: 'se', 35: 'ese', 36: 'ebb', 37: 'Seb', 38: 'seeSb', 39: '', 40: '', 41: 'e', 42: 'mn',
    64: 'msPn', 65: 'se', 66: 'e', 67: 'SSb',
}
NAMES = {64: 'Def', 65: 'SetBinding', 66: 'Payload', 67: 'Body'}
NAMES.update(enumerate(EXPRESSIONS))
NAMES.update(enumerate(STATEMENTS, 32))


class Reader:
    def __init__(self, data, at, end):
        self.data, self.at, self.end = data, at, end

    def take(self, count):
        if self.at + count > self.end:
            sys.exit(f'bytes end at {self.end}, and {count} more are wanted from {self.at}')
        self.at += count
        return self.data[self.at - count:self.at]

    def number(self):
        return struct.unpack('<I', self.take(4))[0]

    def integer(self):
        return struct.unpack('<q', self.take(8))[0]

    def text(self):
        return self.take(self.number()).decode('utf-8', 'backslashreplace')

    def list(self, member):
        return [member() for _ in range(self.number())]


class Image:
    """Lines of an image, with each mention as `{place}` to be filled in when the entries are known."""

    def __init__(self, data):
        self.data = data
        self.lines, self.strings, self.functions, self.types, self.dependencies = [], [], [], [], []
        self.name = '?'

    def put(self, line, depth=0):
        self.lines.append('  ' * depth + line)

    def string(self, number):
        return repr(self.strings[number]) if number < len(self.strings) else f'string {number}?'

    def plain(self, number):
        return self.strings[number] if number < len(self.strings) else f'string {number}?'

    def mention(self, r):
        at = r.at
        return f'\0{at}:{r.number()}\0'

    def value(self, r):
        tag = r.number()
        if tag < 3:
            return ['nothing', 'false', 'true'][tag]
        if tag == 3:
            return str(r.integer())
        if tag == 4:
            return self.string(r.number())
        if tag in (5, 6):
            return self.mention(r)
        if tag == 7:
            return f'{self.mention(r)}({", ".join(r.list(lambda: self.value(r)))})'
        sys.exit(f'no value has the tag {tag}, before {r.at}')

    def element(self, r):
        tag = r.number()
        if tag == 1:
            return 'one of ' + ', '.join(r.list(lambda: self.mention(r)))
        if tag == 2:
            return 'below ' + self.mention(r)
        return {0: 'no value', 3: 'any'}.get(tag) or sys.exit(f'no element has the tag {tag}, before {r.at}')

    def edge(self, r):
        tag, fun = r.number(), self.mention(r)
        if tag == 0:
            types = ', '.join(r.list(lambda: self.mention(r)))
            picked = r.number()
            picked = self.mention(r) if picked == 0 else {1: 'none', 2: 'none of several'}.get(picked, '?')
            return f'{fun}({types}) picks {picked}'
        elements = '; '.join(r.list(lambda: self.element(r)))
        return f'{fun}({elements}) can pick ' + ', '.join(r.list(lambda: self.mention(r)))

    def tree(self, r, depth):
        tag = r.number()
        if tag not in FIELDS:
            sys.exit(f'no tree has the tag {tag}, before {r.at}')
        line, below = len(self.lines), []
        self.put(NAMES[tag], depth)
        for field in FIELDS[tag]:
            if field == 's':
                below.append(self.string(r.number()))
            elif field == 'm':
                below.append(f'of {self.string(r.number())}')
            elif field == 'S':
                below.append('[' + ', '.join(self.string(n) for n in r.list(r.number)) + ']')
            elif field == 'P':
                parameters = r.list(lambda: [self.string(r.number()) for _ in range(3)])
                below.append('(' + ', '.join(f'{name}::{home}.{kind}' for name, home, kind in parameters) + ')')
            elif field == 'i':
                below.append(str(r.integer()))
            elif field == 'n':
                below.append(f'tree {r.number()}')
            elif field == 'e':
                self.tree(r, depth + 1)
            else:
                for _ in range(r.number()):
                    self.tree(r, depth + 1)
        self.lines[line] = ' '.join([self.lines[line]] + below)

    def section(self, number, r):
        def member(put):
            for n in range(r.number()):
                put(n)

        if number == 1:
            self.name = r.text()
            self.put(f'name {self.name}', 1)
            for _ in range(r.number()):
                name = r.text()
                self.dependencies.append(name)
                self.put(f'dependency {name} {r.take(32).hex()}', 1)
        elif number == 2:
            self.strings = r.list(r.text)
            for n, text in enumerate(self.strings):
                self.put(f'{n} {text!r}', 1)
        elif number == 3:
            def put(n):
                name, form = self.plain(r.number()), r.number()
                self.types.append(name)
                parent = self.mention(r)
                fields = ', '.join(r.list(lambda: f'{self.string(r.number())}::{self.mention(r)}'))
                self.put(f'{n} {["abstract", "immutable", "mutable"][form]} {name} <: {parent} ({fields})', 1)
            member(put)
        elif number == 4:
            def put(n):
                self.functions.append(self.plain(r.number()))
                self.put(f'{n} {self.functions[-1]}', 1)
            member(put)
        elif number == 5:
            member(lambda n: self.put(f'{n} {self.string(r.number())} {["const", "global"][r.number()]} {self.value(r)}', 1))
        elif number == 6:
            member(lambda n: self.put(f'{n} {self.mention(r)} ({", ".join(r.list(lambda: self.value(r)))})', 1))
        elif number == 7:
            def put(n):
                self.put(f'{n}', 1)
                self.tree(r, 2)
            member(put)
        elif number == 8:
            member(lambda n: self.put(f'{n} {self.mention(r)}({", ".join(r.list(lambda: self.mention(r)))}) tree {r.number()}', 1))
        elif number == 9:
            member(lambda n: self.put(f'{n} {self.mention(r)}({", ".join(r.list(lambda: self.mention(r)))})', 1))
        elif number == 10:
            def put(n):
                method = self.mention(r)
                params = '; '.join(r.list(lambda: self.element(r)))
                self.put(f'{n} {method} ({params}) gives {self.element(r)}', 1)
                for edge in r.list(lambda: self.edge(r)):
                    self.put(edge, 2)
                for link in r.list(lambda: self.mention(r)):
                    self.put(f'enters {link}', 2)
                self.put(f'{r.number()} registers, {r.number()} instructions', 2)
            member(put)
        elif number == 11:
            words = r.list(r.number)
            for n in range(0, len(words), 4):
                self.put(f'{n // 4} ' + ' '.join(str(word) for word in words[n:n + 4]), 1)
        else:
            self.entries = r.list(lambda: [r.number() for _ in range(4)])
            for n, (place, kind, dependency, ordinal) in enumerate(self.entries):
                self.put(f'{n} at {place}: {self.target(kind, dependency, ordinal)}', 1)

    def target(self, kind, dependency, ordinal):
        own = len(self.dependencies) + 1
        home = 'Base' if dependency == 0 else self.name if dependency == own else \
            self.dependencies[dependency - 1] if dependency < own else f'image {dependency}?'
        what = KINDS[kind] if kind < len(KINDS) else f'kind {kind}?'
        lists = {('Base', 0): BASE_TYPES, ('Base', 1): BASE_FUNCTIONS, (self.name, 0): self.types, (self.name, 1): self.functions}
        names = lists.get((home, kind), [])
        return f'{what} {home}.{names[ordinal]}' if ordinal < len(names) else f'{what} {ordinal} of {home}'

    def dump(self):
        data = self.data
        if len(data) < 44 or data[:8] != b'PJIMAGE1':
            sys.exit('this is no image: it is too short, or begins in another way')
        self.put(f'version {struct.unpack("<I", data[8:12])[0]}, {len(data)} bytes')
        r = Reader(data, 12, len(data) - 32)
        for number, title in enumerate(SECTIONS, 1):
            at, found, length = r.at, r.number(), r.number()
            if found != number:
                sys.exit(f'section {number} has the number {found}, at {at}')
            self.put(f'section {number} {title}, {length} bytes from {r.at}')
            inner = Reader(data, r.at, r.at + len(r.take(length)))
            self.section(number, inner)
            if inner.at != inner.end:
                self.put(f'and {inner.end - inner.at} bytes more', 1)
        if r.at != r.end:
            self.put(f'{r.end - r.at} bytes behind the last section')
        right = hashlib.sha256(data[:-32]).digest() == data[-32:]
        self.put(f'identity {data[-32:].hex()}, which is {"the digest" if right else "NOT THE DIGEST"} of the bytes before')
        for line in self.lines:
            pieces = line.split('\0')
            for n in range(1, len(pieces), 2):
                place, number = (int(x) for x in pieces[n].split(':'))
                entry = self.entries[number] if number < len(self.entries) else None
                pieces[n] = f'<{self.target(*entry[1:])}>' if entry and entry[0] == place else f'<mention {number} at {place}?>'
            print(''.join(pieces))


if __name__ == '__main__':
    if len(sys.argv) != 2:
        sys.exit(__doc__)
    with open(sys.argv[1], 'rb') as file:
        Image(file.read()).dump()
