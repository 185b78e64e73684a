"""Bundles for the commands `verify` and `migrate`: altered codes, certificates and texts, and codes at random."""
import contextlib
import functools

import certificates
import commands
import grail
import inference
from grail import Block, Code, Con, Func, TypeDef
from refusals import Refused

from generate_draw import Draw, edited_bytes, edited_lines, edited_list, edited_words
from generate_sources import files, sources, typed

@functools.lru_cache(None)
def compiled(text):
    """The bundle of a source, or None."""
    try:
        return commands.compiled(text)
    except Refused:
        return None

@functools.lru_cache(None)
def examples():
    found = files('examples/*.bundle') + [files('examples/look.script')[0].split(b'grail\n', 1)[1].split(b'.\n')[0]]
    return found + [text for text in map(compiled, sources()) if text and len(text) < 2000]

def bundle(draw):
    """The bundle of an example, of a typed program or of a code at random."""
    form = draw.pick((4, 'example'), (4, 'typed'), (3, 'random'))
    if form == 'random':
        return random_bundle(draw)
    return form == 'typed' and compiled(typed(Draw('program %d' % draw.randrange(300)))) or draw.choice(examples())

def parts_of(text):
    """The code's bytes and the lines of the certificate."""
    data, certificate = certificates.read_bundle(text)
    return data, certificate.split(b'\n')[:-1]

def bundle_of(data, lines):
    return certificates.bundle_text(data, b''.join(line + b'\n' for line in lines))

# Altered codes.
def code(draw):
    """A bundle whose code was altered, in its bytes or in its parts; seldom one as it was."""
    data, lines = parts_of(bundle(draw))
    form = draw.pick((1, 'none'), (2, 'bytes'), (7, 'parts'))
    if form == 'parts':
        tree = grail.decode(data)
        for _ in range(draw.choice([1, 1, 1, 2, 3])):
            tree = altered_part(draw, tree)
        with contextlib.suppress(AttributeError, IndexError, TypeError, ValueError):    # some have no spelling
            data = grail.encode(tree)
    elif form == 'bytes':
        at = draw.randrange(len(data))
        near = [data[at] + 1, data[at] - 1, data[at] ^ 1 << draw.randrange(8)]
        near = data[:at] + bytes([draw.choice(near) % 256]) + data[at + 1:]
        data = near if draw.chance(0.6) else edited_bytes(draw, data)
    return bundle_of((data[:3] + b'1' + data[4:] if draw.chance(0.15) else data) or b'G', lines)

def altered_part(draw, node, key=None):
    """The tree of a code in which one part is another one: a number, kind, mark, name or cell, or a list of parts."""
    if isinstance(node, list) and node and draw.chance(0.15):
        return edited_list(draw, node)
    if isinstance(node, (list, tuple)) and node:
        heavy = [at for at, part in enumerate(node) if isinstance(part, (list, tuple)) and part]
        at = draw.choice(heavy if heavy and draw.chance(0.7) else range(len(node)))
        is_arm = isinstance(node, tuple) and len(node) == 3 and isinstance(node[0], list)
        key = node._fields[at] if hasattr(node, '_fields') else 'arm' if is_arm and at == 1 else key
        parts = [altered_part(draw, part, key) if at == here else part for here, part in enumerate(node)]
        return node._make(parts) if hasattr(node, '_make') else type(node)(parts)
    if isinstance(node, bool):
        return not node
    if isinstance(node, int):
        return max(0, draw.choice([node - 1, node + 1, draw.randrange(8), draw.randrange(300)]))
    if key == 'name':
        return draw.choice([node + 'a', 'f', 'f0', 'Cons', 'Nil', 'A', 'ilist', 'n' * 64])
    if key == 'arm':
        return draw.choice(['inline', 'free', 'look', 'look', ('keep', draw.randrange(8))])
    if node in ('inline', 'new'):
        return draw.choice(['inline', 'new', ('reuse', draw.randrange(8))])
    kinds = ['int', 'bool', '<>', 0, 1]
    return draw.choice(grail.PRIMS if node in grail.PRIMS else kinds if node in kinds else [node])

# Codes at random.
class CodeWriter:
    """Writes a code whose locals are bound and of the right kinds.

    `kinds` are those of the running function's locals. The `ready` ones may be used; `lent` ones stay ready.
    """

    def __init__(self, draw):
        self.draw, self.types = draw, [TypeDef('l', [Con('N', True, []), Con('C', False, ['int', 0])])]
        if draw.chance(0.5):
            cons = [Con('A', draw.chance(0.3), []), Con('B', False, [0, 1][:draw.randrange(3)])]
            self.types.append(TypeDef('t', cons))
        self.cons = grail.constructors(self.types)
        self.some, self.heads = ['int', 'bool', 0, 0, len(self.types) - 1], []
        for number in range(draw.choice([1, 1, 2, 3])):
            params = [(draw.choice(self.some), draw.chance(0.3)) for _ in range(draw.randint(1, 3))]
            lent = any(mark and type(kind) is int for kind, mark in params)
            self.heads.append(('f%d' % number, params, draw.choice(self.some[:2] if lent else self.some)))

    def function(self, name, params, result):
        self.kinds, self.blocks, self.result = [kind for kind, _ in params], [], result
        self.lent = {x for x, (kind, mark) in enumerate(params) if mark and type(kind) is int}
        self.block(list(range(len(params))), 3)
        return Func(name, params, result, self.kinds[len(params):], self.blocks)

    def local(self, kind):
        self.kinds.append(kind)
        return len(self.kinds) - 1

    def block(self, params, depth):
        """Writes a block and those to which it leads, and answers its number."""
        number, lets, self.ready = len(self.blocks), [], set(params)
        self.blocks.append(None)
        for _ in range(self.draw.randrange(4)):
            self.let(lets, self.draw.choice(self.some))
        self.blocks[number] = Block(params, lets, self.end(lets, depth))
        return number

    def owned(self, kind):
        return [x for x in sorted(self.ready - self.lent) if self.kinds[x] == kind]

    def operand(self, lets, kind, mark=False):
        """A local that may be used; where there is none, one is bound by a let."""
        there = [x for x in sorted(self.ready) if self.kinds[x] == kind] if mark else self.owned(kind)
        fresh = not there or kind != '<>' and self.draw.chance(0.1)
        x = self.let(lets, kind, True) if fresh else self.draw.choice(there)
        self.ready -= {x} if kind not in ('int', 'bool') and not mark else set()
        return x

    def let(self, lets, kind, small=False):
        """Writes a let of this kind, and answers its local."""
        op, x = self.op(lets, kind, small), self.local(kind)
        lets.append((x, op))
        self.ready.add(x)
        return x

    def op(self, lets, kind, small):
        draw, calls = self.draw, [f for f, head in enumerate(self.heads) if head[2] == kind]
        if calls and not small and draw.chance(0.3):
            return self.called('call', draw.choice(calls), lets)
        if self.owned(kind) and draw.chance(0.2):
            return 'copy', self.operand(lets, kind)
        if kind in ('int', 'bool') and (small or draw.chance(0.3)):
            return ('lit', draw.choice([0, 1, 2, -1, 2 ** 31 - 1])) if kind == 'int' else ('flag', draw.chance(0.5))
        if kind in ('int', 'bool'):
            prims = [name for name in grail.PRIMS if (name in ('add', 'sub', 'mul', 'div', 'mod')) == (kind == 'int')]
            return 'prim', draw.choice(prims), self.operand(lets, 'int'), self.operand(lets, 'int')
        c = draw.choice([c for c, (t, _, con) in enumerate(self.cons) if t == kind and not (small and con.fields)])
        con, given = self.cons[c][2], [self.operand(lets, field) for field in self.cons[c][2].fields]
        reuses = not con.inline and self.owned('<>') and draw.chance(0.6)
        return 'make', c, given, ('reuse', self.operand(lets, '<>')) if reuses else 'inline' if con.inline else 'new'

    def called(self, word, f, lets):
        """A call; what is read is chosen behind the other arguments."""
        params = list(enumerate(self.heads[f][1]))
        taken = {i: self.operand(lets, kind) for i, (kind, mark) in params if not mark}
        return word, f, [taken[i] if i in taken else self.operand(lets, kind, True) for i, (kind, _) in params]

    def end(self, lets, depth):
        draw, calls = self.draw, [f for f, head in enumerate(self.heads) if head[2] == self.result]
        form = draw.pick((2, 'ret'), (1, 'tail'), (depth, 'goto'), (depth, 'if'), (3 * depth, 'case'))
        on = sorted(x for x in self.ready if type(self.kinds[x]) is int)
        if form == 'case' and on:
            return self.case(draw.choice(on), depth)
        if form in ('ret', 'case'):
            return 'ret', self.operand(lets, self.result)
        if form == 'tail':
            return self.called('tail', draw.choice(calls), lets)
        x, ready = self.operand(lets, 'bool') if form == 'if' else None, self.ready
        to = [self.jump(ready, [], depth) for _ in range(2 if form == 'if' else 1)]
        return ('if', x, to[0], draw.choice(to)) if form == 'if' else ('goto', to[0])

    def case(self, x, depth):
        lent, ready, arms = x in self.lent, self.ready - ({x} - self.lent), []
        for con in self.types[self.kinds[x]].cons:
            cell, fields = 'inline' if con.inline else 'look' if lent else 'free', list(map(self.local, con.fields))
            self.lent |= {field for field in fields if lent and type(self.kinds[field]) is int}
            bound = list(fields)
            if cell == 'free' and self.draw.chance(0.6):
                bound.append(self.local('<>'))
                cell = 'keep', bound[-1]
            arms.append((fields, cell, self.jump(ready, bound, depth)))
        return 'case', x, arms

    def jump(self, ready, bound, depth):
        return self.block([y for y in sorted(ready | set(bound)) if self.draw.chance(0.8)], depth - 1)

def random_bundle(draw):
    """A code at random with its certificate, or with one of zeros where it has none."""
    writer = CodeWriter(draw)
    tree = Code(writer.types, [writer.function(*head) for head in writer.heads])
    try:
        grail.check(tree)
        told = certificates.certificate_text(inference.infer(tree)).split(b'\n')[:-1]
    except Refused:
        told = [b'grail certificate 1', b'unit 1']
        for func in tree.funcs:
            told.append(b'function %s need 0 back 0' % func.name.encode())
            told += [b'block %d need 0' % number for number in range(1, len(func.blocks))]
        told.append(b'end')
    return bundle_of(grail.encode(tree), told)

# Altered certificates.
def certificate(draw):
    """A bundle whose certificate was altered, in its numbers most often."""
    data, lines = parts_of(bundle(draw))
    for _ in range(draw.choice([1, 1, 1, 2, 4])):
        form = draw.pick((9, numbered), (3, added), (1, edited_words), (1, edited_bytes), (2, edited_list))
        paid = [here for here, line in enumerate(lines) if b'=' in line and form is numbered and draw.chance(0.8)]
        at = draw.choice(paid or range(min(1, len(lines) - 1), len(lines)))
        one = None if form is edited_list else form(draw, lines[at]).split(b'\n')
        lines = (lines[:at] + one + lines[at + 1:] if one else edited_list(draw, lines)) or [b'end']
    return bundle_of(data, lines)

def numbered(draw, line):
    """A number is another one, near it or near a limit, seldom with a zero in front."""
    words = line.replace(b'=', b' = ').split(b' ')
    places = [place for place, word in enumerate(words) if word.isdigit()]
    if places:
        place = draw.choice(places[-1:] if draw.chance(0.5) else places)
        old, edge = int(words[place]), draw.near(draw.choice([2 ** 31, 2 ** 32 - 1, 2 ** 40, 2 ** 40, 10 ** 40]))
        new = draw.choice([old + 1, old + 1, old - 1, old - 1, 0, 1, old * 2, draw.randrange(8), edge, edge])
        words[place] = b'0' * draw.chance(0.04) + b'%d' % max(0, new)
    return b' '.join(words).replace(b' = ', b'=')

def added(draw, line):
    """This line with one more pair, or with one more line of annotations behind it."""
    cons = sorted(draw.sample(range(4), draw.randint(1, 2)))
    pairs = b''.join(b' %d=%d' % (con, draw.randint(1, 2)) for con in cons)
    if b'=' in line and draw.chance(0.5):
        return line + pairs
    word = draw.choice(b'param 0,param 1,result,var 0,var 2,make 0 1,make 1 1,block 1 need 0'.split(b','))
    return line + b'\n' + word + (b'' if b'need' in word else pairs)

# Altered texts of bundles.
def text(draw):
    told = bundle(draw)
    for _ in range(draw.choice([1, 1, 1, 2])):
        told = draw.pick((3, edited_bytes), (2, edited_lines), (4, rewrapped))(draw, told)
    return told

def rewrapped(draw, told):
    """The digits on lines of another length, as capitals, with blanks or with carriage returns."""
    lines = told.split(b'\n')
    at = draw.randrange(min(len(lines), 6))
    digits, width = b''.join(lines[1:at + 1]), draw.choice([2, 32, 62, 63, 64, 65, 66, 128])
    wrapped = [digits[here:here + width] for here in range(0, len(digits), width)]
    one = [lines[at].upper(), lines[at] + b'\r', b' ' + lines[at], lines[at] + b'0']
    return b'\n'.join((lines[:1] + wrapped if draw.chance(0.3) else lines[:at] + [draw.choice(one)]) + lines[at + 1:])

def foreign(draw):
    """A bundle for `migrate`: an old or a new code, well formed or not, with some certificate or none."""
    made = draw.pick((3, code), (2, text), (1, certificate), (2, bundle))(draw)
    head = draw.choice([b'47524c31', b'47524c31', b'47524c32', b'47524c33', b'47524c'])
    made = made.replace(b'47524c32', head, 1) if draw.chance(0.6) else made
    return made.partition(b'grail certificate 1')[0] + b'grail certificate 1\nany\xff' if draw.chance(0.1) else made
