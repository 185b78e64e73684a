"""Camelot programs: random ones by their types, altered ones, and ones at the limits."""
import functools
import pathlib
import re
from collections import namedtuple

from grail import Con

from generate_draw import edited_bytes, edited_list

TOP = pathlib.Path(__file__).resolve().parent.parent
INTS = '0 0 1 1 2 3 7 10 100 65536 2147483647 007 -1 -2 -2147483648'.split()
LOCALS = 'a b c d e h k l m n p q r s t v w x y z'.split()

def source(draw):
    """A text for the command `compile`."""
    return draw.pick((320, typed), (500, altered), (120, limit), (60, nested), (40, paying), (10, branching))(draw)

# Random programs.
def typed(draw):
    return Writer(draw).program()

Function = namedtuple('Function', 'name params result')     # params: Variables
class Unit(str):
    """A text that is a `unit` of the grammar as it stands."""

class Variable:
    def __init__(self, name, kind, lent=False):
        self.name, self.kind, self.lent = name, kind, lent

class Writer:
    """Writes a program whose types are right, but for diamonds that aren't there, and where it isn't careless its uses.

    A scope is a dict of Variables by their names. `used` has those that own cells and were used on this path. `left` is
    how many expressions there may still be.
    """

    def __init__(self, draw):
        self.draw, self.left, self.used, self.careless = draw, 70, set(), draw.choice([0, 0.1])
        ilist = [Con('Nil', True, []), Con('Cons', False, ['int', 'ilist'])]
        self.types = {'ilist': ilist} if draw.chance(0.5) else {}
        self.declare_types(draw.sample(['t', 'u', 'tree', 'w1_'], draw.choice([0, 1, 1, 2])))
        self.kinds = ['int', 'int', 'bool'] + list(self.types) * 2
        self.functions = [self.header('f%d' % number) for number in range(draw.choice([1, 1, 2, 2, 3, 4]))]

    def declare_types(self, names):
        draw, letters = self.draw, iter('ABCDEFGHIJ')
        self.types.update((name, []) for name in names)
        for name in names:
            for number in range(draw.choice([1, 2, 2, 3])):
                small, inline = number == 0 and draw.chance(0.97), draw.chance(0.3)
                kinds = ['int', 'int', 'int', 'bool', '<>'] + ([] if small else [name] * 4 + list(self.types))
                fields = [draw.choice(kinds) for _ in range(0 if inline else draw.choice([0, 1, 2, 2, 3, 4]))]
                self.types[name].append(Con(next(letters), inline, fields))

    def header(self, name):
        draw, result, params = self.draw, self.draw.choice(self.kinds), []
        for param in draw.sample(LOCALS, draw.choice([1, 1, 2, 2, 3, 5])):
            kind = draw.choice(self.kinds + ['<>'])
            kept = self.is_heap(kind) and self.is_heap(result)
            params.append(Variable(param, kind, not kept and draw.chance(0.3)))
        return Function(name, params, result)

    def is_heap(self, kind):
        return kind == '<>' or not all(con.inline for con in self.types.get(kind, []))

    def program(self):
        told = ['type %s = %s' % (name, self.constructors(name)) for name in self.types]
        told += map(self.function, self.functions)
        if self.draw.chance(0.3):
            self.draw.shuffle(told)
        return self.draw.choice(['\n', '\n', ' ', '\n(* \n (* *) *)\n', '\r\n\t']).join(told).encode() + b'\n'

    def constructors(self, name):
        return ' | '.join('!' * con.inline + con.name + ' of ' * bool(con.fields) + ' * '.join(con.fields)
                          for con in self.types[name])

    def function(self, function):
        self.used = set()
        scope = {one.name: Variable(one.name, one.kind, one.lent and self.is_heap(one.kind)) for one in function.params}
        body = self.expression(function.result, scope, self.draw.choice([1, 2, 3, 4]), self.matching)
        result = ' : ' + function.result if self.draw.chance(0.5) else ''
        return 'let %s %s%s = %s' % (function.name, ' '.join(map(self.param, function.params)), result, body)

    def param(self, param):
        kind = ' : ' + param.kind if self.draw.chance(0.6) else ''
        plain = not kind and not param.lent and self.draw.chance(0.9)
        return param.name if plain else '(%s%s%s)' % ('read ' * param.lent, param.name, kind)

    def expression(self, kind, scope, depth, form=None):
        """An `expr` of this kind, of the form that is asked for or of any other one."""
        self.left -= 1
        if depth <= 0 or self.left < 0:
            return self.leaf(kind, scope, 0)
        if not form or self.draw.chance(0.4):
            form = self.draw.pick((4, self.plain), (3, self.call), (3, self.matching), (2, self.conditional),
                                  (2, self.binding), (2, self.leaf))
        return form(kind, scope, depth - 1)

    def unit(self, kind, scope, depth):
        told = self.expression(kind, scope, depth)
        return told if isinstance(told, Unit) else Unit('(%s)' % told)

    def leaf(self, kind, scope, _):
        there = self.ready(kind, scope)
        if there and self.draw.chance(0.8):
            return self.use(self.draw.choice(there))
        if kind in self.types:
            return self.build(kind, scope, 0)
        told = self.draw.choice({'int': INTS, 'bool': ['true', 'false']}.get(kind) or list(scope))
        return told if told.startswith('-') else Unit(told)

    def ready(self, kind, scope):
        """The variables of this kind that may be used here."""
        return [one for one in scope.values() if one.kind == kind and (
            self.draw.chance(self.careless) or one not in self.used and not one.lent)]

    def use(self, variable):
        self.used |= {variable} if self.is_heap(variable.kind) else set()
        return Unit(variable.name)

    def plain(self, kind, scope, depth):
        form = {'int': self.sum, 'bool': self.truth}.get(kind, self.build if kind in self.types else self.leaf)
        return form(kind, scope, depth)

    def sum(self, _, scope, depth):
        if depth <= 0 or self.draw.chance(0.3):
            return self.unit('int', scope, depth)
        left = self.sum('int', scope, depth - 1)
        return '%s %s %s' % (left, self.draw.choice('+ - * / mod'.split()), self.sum('int', scope, depth - 1))

    def truth(self, _, scope, depth):
        form = self.draw.choice('not not && && || || = <> < <= > >='.split())
        if form == 'not':
            return 'not ' + self.unit('bool', scope, depth)
        if form in ('&&', '||'):
            left = self.truth('bool', scope, depth - 1) if depth > 0 else self.unit('bool', scope, 0)
            right, _ = self.paths([lambda: self.unit('bool', scope, depth), lambda: ''])
        else:
            left, right = self.sum('int', scope, depth), self.sum('int', scope, depth)
        return '%s %s %s' % (left, form, right)

    def build(self, kind, scope, depth):
        cons = self.types[kind]
        flat = [con for con in cons if kind not in con.fields] or cons
        con = self.draw.choice(flat if depth <= 0 or self.left < 0 else cons)
        given = [self.expression(field, scope, depth) if self.left > -40 else 'x' for field in con.fields]
        told = con.name + ('(%s)' % ', '.join(given) if given else '')
        cells = self.ready('<>', scope)
        if cells and not con.inline and self.draw.chance(0.7):
            told += '@' + self.use(self.draw.choice(cells))
        return Unit(told)

    def call(self, kind, scope, depth):
        """What is read is chosen behind the other arguments."""
        functions = [each for each in self.functions if each.result == kind]
        if not functions or self.left < 0:
            return self.plain(kind, scope, depth)
        function = self.draw.choice(functions)
        told = [None if param.lent and self.is_heap(param.kind) else self.unit(param.kind, scope, depth)
                for param in function.params]
        for at, param in enumerate(function.params):
            there = [one.name for one in scope.values() if one.kind == param.kind and one not in self.used]
            told[at] = told[at] or (self.draw.choice(there) if there else self.unit(param.kind, scope, 0))
        return ' '.join([function.name] + told)

    def conditional(self, kind, scope, depth):
        condition = self.expression('bool', scope, depth)
        yes, no = self.paths([lambda: self.expression(kind, scope, depth)] * 2)
        return 'if %s then %s else %s' % (condition, yes, no)

    def paths(self, branches):
        """The texts of branches, each on a path of its own."""
        before, behind, told = set(self.used), set(self.used), []
        for branch in branches:
            self.used = set(before)
            told.append(branch())
            behind |= self.used
        self.used = behind
        return told

    def binding(self, kind, scope, depth):
        bound = Variable(self.draw.choice(LOCALS), self.draw.choice(self.kinds))
        value = self.expression(bound.kind, scope, depth)
        return 'let %s = %s in %s' % (bound.name, value, self.expression(kind, {**scope, bound.name: bound}, depth))

    def matching(self, kind, scope, depth):
        there = [one for one in scope.values() if one.kind in self.types and one not in self.used]
        if there and self.draw.chance(0.85):
            on = self.draw.choice(there)
            told = on.name if on.lent else self.use(on)
        elif self.types:
            on = Variable('', self.draw.choice(list(self.types)))
            told = self.expression(on.kind, scope, depth - 1)
        else:
            return self.plain(kind, scope, depth)
        cons = self.types[on.kind]
        cons = self.draw.sample(cons, len(cons)) if self.draw.chance(0.3) else cons
        arms = self.paths([functools.partial(self.arm, con, on.lent, kind, scope, depth) for con in cons])
        return 'match %s with %s%s end' % (told, '| ' * self.draw.chance(0.1), ' | '.join(arms))

    def arm(self, con, lent, kind, scope, depth):
        names = self.draw.sample(LOCALS, len(con.fields) + 1)
        fields = [name if self.draw.chance(0.85) else '_' for name in names[:-1]]
        scope = {**scope, **{name: Variable(name, field, lent and self.is_heap(field))
                             for name, field in zip(fields, con.fields) if name != '_'}}
        told = con.name + ('(%s)' % ', '.join(fields) if fields else '')
        if not con.inline and not lent:
            cell = names[-1] if self.draw.chance(0.6) else '_'
            told += '@' + cell
            scope.update({cell: Variable(cell, '<>')} if cell != '_' else {})
        return '%s -> %s' % (told, self.expression(kind, scope, depth))

# Altered programs.
TOKEN = re.compile(rb'\(\*|\*\)|[A-Za-z_0-9\']+|->|<>|<=|>=|&&|\|\||[ \t\r\n]+|.', re.DOTALL)
VOCABULARY = (b'type of let in if then else match with end true false not int bool read mod ( ) , : @ _ = <> < <= > >= '
              b"+ - * / && || | ! -> 'a x f A Nil Cons 0 1 2147483647 2147483648 2147483649 (* *) ~").split()
TURNS = [(rb'@_', b''), (rb'@_', b'@d'), (rb'@[a-z]\w*', b'@_'), (rb'@[a-z]\w*', b''), (rb'!', b''), (rb'read ', b''),
         (rb'(?<=[=|] )(?=[A-Z])', b'!'), (rb'\((?=[a-z]\w* :)', b'(read '), (rb': \w+', b''), (rb'\bint\b', b'bool'),
         (rb' in ', b' in let x = x in '), (rb'\bif .*? then', b'if\n1 then'), (rb'[a-z]\w*', b'x'), (rb'\d+', b'true'),
         (rb'\|[^|]*(?=\||end)', b''), (rb'\* int', b'* int * int'), (rb'Cons\(h, ', b'Cons(h, Cons(h, '),
         (rb'\n', b'\r\n'), (rb'\(\w+, (\w+)', rb'(\1, \1'), (rb' (\w+) (\w+) ', rb' \2 \1 '), (rb'-> ', b'-> 1 + '),
         (rb'(?<=[ (])([a-z])(?=[ ),])', rb'(let z = if true then 0 else let z = \1 in 0 in \1)'),
         (rb'(let \w+) (\w+)(?= [^=:]*=)', rb'\1 (read \2)'), (rb'end', b'')]

def files(*patterns):
    return [path.read_bytes() for pattern in patterns for path in sorted(TOP.glob(pattern))]

@functools.lru_cache(None)
def sources():
    """The programs of examples and of cases."""
    found = files('examples/*.cml', 'examples/bounds/*.cml', 'tests/compile/*.cml')
    for text in files('examples/*.script', 'examples/bounds/*.script'):
        found += re.findall(rb'^program \w+ camelot\n(.*?)^\.$', text, re.DOTALL | re.MULTILINE)
    cases = re.sub(rb'^(--|%|table ).*\n', b'', (TOP / 'crates/cases_camelot/stdin').read_bytes(), flags=re.MULTILINE)
    found += [case.partition(b'\n')[2] for case in re.split(rb'^== ', cases, flags=re.MULTILINE)]
    return [text for text in found if len(text) < 1500]

def altered(draw):
    text = draw.choice(sources()) if draw.chance(0.6) else typed(draw)
    for _ in range(draw.choice([1, 1, 1, 2, 4])):
        text = draw.pick((5, edited_tokens), (5, turned), (1, edited_bytes))(draw, text)
    return re.sub(b' ', lambda _: draw.choice([b' ', b' ', b'\n']), text) if draw.chance(0.5) else text

def edited_tokens(draw, text):
    """Tokens are taken out, doubled, swapped or replaced; a name is replaced by a name more often."""
    tokens = [token for token in TOKEN.findall(text) if not token.isspace()] or [b'x']
    words = [at for at, token in enumerate(tokens) if token[:1].isalpha()]
    if words and draw.chance(0.5):
        at = draw.choice(words)
        tokens[at] = draw.choice([tokens[to] for to in words if tokens[to][:1].islower() == tokens[at][:1].islower()])
    else:
        tokens = edited_list(draw, tokens, VOCABULARY)
    return b''.join(token + draw.choice([b' ', b' ', b' ', b'\n']) for token in tokens)

def turned(draw, text):
    """One place of a pattern is rewritten."""
    pattern, new = draw.choice(TURNS)
    place = draw.choice(list(re.finditer(pattern, text)) or [None])
    return text[:place.start()] + place.expand(new) + text[place.end():] if place else edited_tokens(draw, text)

# Programs at the limits.
DOUBLING = 'let f# x = let a = f^ x in f^ x '
LIMITS = (                              # a number, a text, what stands behind it so many times, and what behind that
    (64, 'let f x = ', 'n', ''), (64, "let f x = x '", 'n', ''), (64, 'type t = ', 'N', ''),
    (99, 'let f x = ', '(', 'x~'), (198, 'let f x = x', ' + x', ''), (198, 'let f x = x', ' && x', ''),
    (198, 'let f x = ', 'not ', 'x'), (199, 'let f x = ', 'let y = 1 in ', 'x'), (64, '', 'type t# = !C# ', ''),
    (63, 'type t = !C', ' | !C#', ''), (3, 'type t = C of int', ' * int', ''), (64, '', 'let f# x = x ', ''),
    (16, 'let f', ' x#', ' = 1'), (120, 'let f x = x', ' + 1', ''), (120, 'let f x = 1', ' + 1', ''),
    (127, 'let f b = ', 'if b then b else ', 'b'), (500, '(*' * 500, '*)', ' let f x = x'),
    (127, 'type u = !U let f b u = ', 'if b then b else ', 'match u with U -> b end'),
    (41, 'type t = A let f0 x = A ', DOUBLING, ''), (30, 'type t = A of t let f0 x = A(x) ', DOUBLING, ''),
    (7, 'type t = A' + ' | A'.join(map(str, range(64))) + ' let f', ' (x# : t)', ' = x1'),
)

def many(count, text):
    return ''.join(text.replace('#', str(number)).replace('^', str(number - 1)) for number in range(1, count + 1))

def limit(draw):
    most, front, part, behind = draw.choice(LIMITS)
    count = draw.near(most)
    return (front + many(count, part) + behind.replace('~', ')' * count)).encode()

WRAPPINGS = ('(%s)', '(%s)', '1 + (%s)', '%s * 2', 'if b then %s else 1', 'if (%s) then 1 else 2', 'let y = 1 in %s',
             'let y = %s in y', 'f (%s)', 'A(%s)', 'A(1, %s)@d', 'match t with A -> %s end', 'match %s with A -> 1 end',
             'not (%s)', '%s && b', '- 1 - (%s)', 'x mod %s', '%s < 1')

def nested(draw):
    """Expressions in each other, most near the deepest level."""
    told, some = 'x', draw.sample(WRAPPINGS, draw.choice([1, 2, 3]))
    for _ in range(draw.choice([3, 20, 60, 80, 100, 130])):
        told = draw.choice(some) % told
    return ('let f x b = ' + told).encode()

def paying(draw):
    """Functions that take some cells for each so many items of a list, so that units aren't 1."""
    told = ['type ilist = !Nil | Cons of int * ilist type one = One']
    for name in range(draw.choice([1, 1, 2, 3])):
        items, other = draw.randint(1, 5), str(draw.randint(0, name))
        body = ''.join(' match l with Nil -> 0 | Cons(h, l)@%s ->' % draw.choice('d_') for _ in range(items))
        called = draw.choice(['', '', ' let a = f# l in let l = Nil in', ' let a = f# (Cons(1, Nil)) in'])
        body += called.replace('#', other)
        body += ' let a = One in' * draw.randint(0, 4) + ' f%d ' % name + draw.choice(['l', 'l', 'l', '(Cons(1, l))'])
        told.append('let f%d l =%s%s' % (name, body, ' end' * items))
    return '\n'.join(told).encode()

def branching(draw):
    """Chains of doublings under branches, which take the search many steps."""
    depth = draw.randint(8, 13)
    told = ['type ilist = !Nil | Cons of int * ilist let f0 x = let a = Cons(x, Nil) in x ' + many(depth - 2, DOUBLING)]
    for number in range(depth, 0, -1):
        skip = depth - number - 1 - draw.chance(0.1)
        cases = ['if x = %d then (let a = f%d x in g%d x) else' % (n, max(0, skip + n) % (depth - 1), number - n - 1)
                 for n in range(number)]
        told.append('let g%d x = %s x' % (number, ' '.join(cases)))
    return '\n'.join(told + ['let g0 x = x']).encode()
