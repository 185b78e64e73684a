"""Certificates: docs/CERTIFICATES.md, section by section."""
import re
from collections import namedtuple

import grail
from refusals import Refused

# ## What a certificate says
#
# Annotations are a dict from constructors to units. params: {local: annotations}; blocks: {block: (need, {local:
# annotations})}; makes: {(block, place): annotations}.
Certificate = namedtuple('Certificate', 'unit functions')
Function = namedtuple('Function', 'name need back params result blocks makes')

def nodes(values):
    """All nodes of these values."""
    due = list(values)
    while due:
        value = due.pop()
        yield value
        if type(value) is tuple:
            due += value[1:]

def potential(value, annotations):
    return sum(annotations.get(node[0], 0) for node in nodes([value]) if type(node) is tuple)

# ## The text of a certificate
UNITS, NEEDS, OTHERS = 2 ** 31, 2 ** 40, 2 ** 32 - 1
SHAPES = {
    'grail': 'grail certificate 1', 'unit': 'unit P', 'function': 'function ([a-z][A-Za-z0-9_]{0,63}) need N back N',
    'param': 'param N VEC', 'result': 'result VEC', 'block': 'block N need N', 'var': 'var N VEC',
    'make': 'make N N VEC', 'end': 'end',
}
FORMS = {word: re.compile(shape.replace('VEC', 'V').replace(' V', '((?: (?:0|[1-9][0-9]*)=[1-9][0-9]*)+)')
                          .replace('N', '(0|[1-9][0-9]*)').replace('P', '([1-9][0-9]*)').encode())
         for word, shape in SHAPES.items()}
LIMITS = {'unit': [UNITS], 'function': [NEEDS, NEEDS], 'block': [OTHERS, NEEDS]}
NEXT = 'make function end'
FOLLOWS = {
    None: 'grail', 'grail': 'unit', 'unit': 'function end', 'function': 'param result block ' + NEXT,
    'param': 'param result block ' + NEXT, 'result': 'block ' + NEXT, 'block': 'var block ' + NEXT,
    'var': 'var block ' + NEXT, 'make': NEXT, 'end': '',
}

def size(digits):
    """By these numbers are compared, however many digits they have."""
    return len(digits), digits

def ascend(sizes):
    return all(less < more for less, more in zip(sizes, sizes[1:]))

def read_certificate(text):
    """The certificate with this text; else its first wrong line."""
    lines, last, keys, said = text.split(b'\n'), None, {}, []
    for line_number, line in enumerate(lines, 1):
        word = line.split(b' ')[0].decode('latin-1')
        found = word in FOLLOWS[last].split() and FORMS[word].fullmatch(line)
        if last == 'end' and line_number == len(lines) and not line:
            break
        if not found or line_number == len(lines):
            raise Refused('certificate line %d' % line_number)
        numbers = [group for group in found.groups() if group[:1].isdigit()]
        pairs = [pair.split(b'=') for group in found.groups() if group[:1] == b' ' for pair in group.split()]
        key = [size(number) for number in numbers[:2 if word == 'make' else 1]]
        ordered = word not in ('param', 'block', 'var', 'make') or key > keys.get(word, [])
        if not ordered or not ascend([size(con) for con, _ in pairs]):
            raise Refused('certificate line %d' % line_number)
        keys = {} if word == 'function' else dict(keys, var=[]) if word == 'block' else keys
        keys[word] = key
        limited = list(zip(numbers, LIMITS.get(word, [OTHERS, OTHERS])))
        limited += [pair for con, units in pairs for pair in ((con, OTHERS), (units, UNITS))]
        if any(size(number) > size(b'%d' % limit) for number, limit in limited):
            raise Refused('certificate number line %d' % line_number)
        said.append((word, found.groups(), [int(number) for number in numbers], {int(c): int(u) for c, u in pairs}))
        last = word
    return put_together(said)

def put_together(said):
    functions = []
    for word, groups, numbers, annotations in said[2:]:
        if word == 'function':
            functions.append(Function(groups[0].decode(), numbers[0], numbers[1], {}, {}, {}, {}))
        elif word == 'param':
            functions[-1].params[numbers[0]] = annotations
        elif word == 'result':
            functions[-1].result.update(annotations)
        elif word == 'block':
            functions[-1].blocks[numbers[0]] = numbers[1], {}
            block = numbers[0]
        elif word == 'var':
            functions[-1].blocks[block][1][numbers[0]] = annotations
        elif word == 'make':
            functions[-1].makes[tuple(numbers)] = annotations
    return Certificate(said[1][2][0], functions)

def certificate_text(certificate):
    def line(words, annotations=()):
        lines.append(words + ''.join(' %d=%d' % (con, annotations[con]) for con in annotations))
    lines = ['grail certificate 1', 'unit %d' % certificate.unit]
    for said in certificate.functions:
        line('function %s need %d back %d' % (said.name, said.need, said.back))
        for local, annotations in said.params.items():
            line('param %d' % local, annotations)
        if said.result:
            line('result', said.result)
        for block, (need, carried) in said.blocks.items():
            line('block %d need %d' % (block, need))
            for local, annotations in carried.items():
                line('var %d' % local, annotations)
        for (block, place), annotations in said.makes.items():
            line('make %d %d' % (block, place), annotations)
    return ''.join(each + '\n' for each in lines + ['end']).encode()

# ## When a certificate fits a code
class Reach:
    """The constructors that kinds reach, ascending."""

    def __init__(self, types):
        cons = grail.constructors(types)
        self.by_type = []
        for kind in range(len(types)):
            found, due = set(), [kind]
            while due:
                t = due.pop()
                if t not in found and type(t) is int and grail.is_heap(types, t):
                    found.add(t)
                    due += [field for con in types[t].cons for field in con.fields]
            self.by_type.append([c for c, (t, _, _) in enumerate(cons) if t in found])

    def of(self, kind):
        return self.by_type[kind] if type(kind) is int else []

def fit(code, certificate):
    reach = Reach(code.types)
    for f, (func, said) in enumerate(zip(code.funcs, certificate.functions)):
        wrong = wrong_blocks(code, func, said, reach)
        if wrong:
            raise Refused('shape function %d block %d' % (f, min(wrong)))
    if len(code.funcs) != len(certificate.functions):
        raise Refused('shape function %d block 0' % min(len(code.funcs), len(certificate.functions)))

def wrong_blocks(code, func, said, reach):
    """The blocks at which what is said doesn't fit. No line has no annotations, so that its kind reaches something."""
    kinds, lent, cons = grail.kinds_of(func), grail.lent_locals(code.types, func), grail.constructors(code.types)

    def carry(params, carried):
        return all(local in params and local not in lent and set(annotations) <= set(reach.of(kinds[local]))
                   for local, annotations in carried.items())

    def makes(block, place, annotations):
        lets = func.blocks[block].lets if block < len(func.blocks) else []
        op = lets[place - 1][1] if 0 < place <= len(lets) else ('none',)
        return op[0] == 'make' and set(annotations) <= set(reach.of(cons[op[1]][0]))
    wanted = range(1, len(func.blocks))
    named = func.name == said.name and set(said.result) <= set(reach.of(func.result))
    wrong = [] if named and carry(range(len(func.params)), said.params) else [0]
    wrong += [block for block in wanted if block not in said.blocks]
    wrong += [block for block, (_, carried) in said.blocks.items()
              if block not in wanted or not carry(func.blocks[block].params, carried)]
    return wrong + [block for (block, place), annotations in said.makes.items() if not makes(block, place, annotations)]

# ## The rules
#
# What is lent has no line in a certificate that fits, so that it carries nothing without being looked at.
class Rules:
    """All checks of a code with a certificate in order: (function, block, place), a constructor or None, what is there,
    and what is asked. Amounts are whole numbers, or sums of unknowns (inference.py)."""

    def __init__(self, code, certificate):
        self.code, self.unit, self.said = code, certificate.unit, certificate.functions
        self.reach, self.cons = Reach(code.types), grail.constructors(code.types)

    def checks(self):
        for f, func in enumerate(self.code.funcs):
            self.func, self.kinds, self.mine = func, grail.kinds_of(func), self.said[f]
            for b, block in enumerate(func.blocks):
                self.left, carried = self.mine.blocks[b] if b > 0 else (self.mine.need, self.mine.params)
                self.carried = dict(carried)
                for place, (target, op) in enumerate(block.lets, 1):
                    yield from self.let((f, b, place), target, op)
                yield from self.end((f, b, len(block.lets) + 1), block.term)

    # ## The order of checks
    def value(self, at, kind, there, asked):
        for con in self.reach.of(kind):
            yield at, con, there.get(con, 0), asked.get(con, 0)

    def let(self, at, target, op):
        carried, annotations = self.carried, {}
        if op[0] == 'copy':
            annotations = carried.get(op[1], {})
        elif op[0] == 'make' and self.reach.of(self.cons[op[1]][0]):
            annotations = self.mine.makes.get(at[1:], {})
            for x in op[2]:
                yield from self.value(at, self.kinds[x], carried.get(x, {}), annotations)
            asked = annotations.get(op[1], 0) + (self.unit if op[3] == 'new' else 0)
            yield at, None, self.left, asked
            self.left = self.left - asked
        elif op[0] == 'call':
            yield from self.call(at, op)
            annotations = self.said[op[1]].result
        carried[target] = annotations

    def call(self, at, op):
        said = self.said[op[1]]
        for i, (x, (kind, mark)) in enumerate(zip(op[2], self.code.funcs[op[1]].params)):
            if not mark:
                yield from self.value(at, kind, self.carried.get(x, {}), said.params.get(i, {}))
        yield at, None, self.left, said.need
        self.left = self.left - said.need + said.back

    def end(self, at, term):
        if term[0] == 'ret':
            yield from self.value(at, self.func.result, self.carried.get(term[1], {}), self.mine.result)
            yield at, None, self.left, self.mine.back
        elif term[0] == 'tail':
            yield from self.call(at, term)
            yield from self.value(at, self.func.result, self.said[term[1]].result, self.mine.result)
            yield at, None, self.left, self.mine.back
        elif term[0] == 'case':
            found = self.carried.get(term[1], {})
            first = next(con for con, (t, _, _) in enumerate(self.cons) if t == self.kinds[term[1]])
            for con, (fields, cell, block) in enumerate(term[2], first):
                left = self.left + found.get(con, 0) + (self.unit if cell == 'free' else 0)
                yield from self.jump(at, block, left, {**self.carried, **dict.fromkeys(fields, found)})
        else:
            for block, _ in grail.jumps_of(term):
                yield from self.jump(at, block, self.left, self.carried)

    def jump(self, at, block, left, carried):
        need, asked = self.mine.blocks[block]
        for x in self.func.blocks[block].params:
            yield from self.value(at, self.kinds[x], carried.get(x, {}), asked.get(x, {}))
        yield at, None, left, need

def grant(code, certificate):
    """Refuses the first check that fails."""
    for (f, block, place), con, have, need in Rules(code, certificate).checks():
        if have < need:
            where = 'function %d block %d place %d' % (f, block, place)
            told = 'need ' + where if con is None else 'weak %s con %d' % (where, con)
            raise Refused('%s have %d need %d' % (told, have, need))

# The text of a bundle: docs/COMPILER.md.
DIGITS = re.compile(rb'(?:[0-9a-f]{2}){1,32}')

def bundle_text(data, certificate):
    """The bundle of a code's bytes and a certificate's text."""
    digits = data.hex()
    lines = ['grail code'] + [digits[at:at + 64] for at in range(0, len(digits), 64)]
    return ''.join(line + '\n' for line in lines).encode() + certificate

def read_bundle(text):
    """The code's bytes and the certificate's text; else the first wrong line."""
    at, number, digits = 0, 0, []
    while True:
        end, number = text.find(b'\n', at), number + 1
        line = text[at:end] if end >= 0 else b''
        if number == 1:
            good = line == b'grail code'
        elif number > 2 and line == b'grail certificate 1':
            return bytes.fromhex(b''.join(digits).decode()), text[at:]
        else:
            good = DIGITS.fullmatch(line) and len(digits[-1] if digits else '.' * 64) == 64
            digits.append(line)
        if not good:
            raise Refused('bundle line %d' % number)
        at = end + 1

# ## What the verifier answers
def licence(text):
    """The code and the certificate of a bundle; else the first cause."""
    return granted(*read_bundle(text))

def granted(data, text):
    """The code of these bytes and the certificate of this text, which grants it."""
    code = grail.decode(data)
    grail.check(code)
    certificate = read_certificate(text)
    fit(code, certificate)
    grant(code, certificate)
    return code, certificate

def bound(certificate, function, arguments):
    said = certificate.functions[function]
    carried = sum(potential(value, said.params.get(i, {})) for i, value in enumerate(arguments))
    return (said.need + carried) // certificate.unit

def cells(types, arguments):
    """The cells of arguments: boxed nodes and diamonds."""
    inline = [con.inline for _, _, con in grail.constructors(types)]
    return sum(node == '<>' or type(node) is tuple and not inline[node[0]] for node in nodes(arguments))

def lease(code, certificate, function, arguments):
    return max(1, cells(code.types, arguments) + bound(certificate, function, arguments))

# ## The bounds as text
def verify(text):
    code, certificate = licence(text)
    lines = ['accepted unit %d\n' % certificate.unit]
    names = grail.names_of(code.types)
    for said in certificate.functions:
        terms = [' + %d*%s(%d)' % (annotations[con], names[con], local)
                 for local, annotations in said.params.items() for con in annotations]
        lines.append('function %s (%d%s)/%d\n' % (said.name, said.need, ''.join(terms), certificate.unit))
    return ''.join(lines).encode()

# Migrate: docs/PLATFORMS.md.
def migrate(text):
    data, rest = read_bundle(text)
    return bundle_text(grail.encode(grail.decode(data)), rest)
