"""Camelot: docs/LANGUAGE.md, section by section."""
import re
from collections import namedtuple

from deep import each, run
from grail import Con, Trap, TypeDef, is_heap, operator
from refusals import Refused

def front(text):
    """The checked program of a text; refuses with the first cause, by tokens, grammar, types and uses in this order."""
    program = parsed(text)
    check_types(program)
    check_uses(program)
    return program

# ## A first program
#
# It is compiled to its code by compiler.py. Here is what it is as a tree, and what it means.

class Program:
    """The declarations of a text, and what the check of types finds."""

    def __init__(self, types, declared):
        self.types, self.declared = types, declared     # Type and Function, in text order
        self.type_numbers, self.numbers = {}, {}        # the numbers of types and of functions, by name
        self.constructors = {}                          # Entry, by name
        self.functions = []                             # Header
        self.kinds = {}                                 # of expressions, by `id`

    def kind(self, tree):
        """The type of an expression, behind the check."""
        return settled(self.kinds[id(tree)])

    def written(self, kind):
        """A type as it is written."""
        return self.types[kind].name.text if isinstance(kind, int) else kind

# A name of the tree is its token. `fields`, `type` and `result` have atoms, which are tokens too, or None.
Type = namedtuple('Type', 'name cons')
Constructor = namedtuple('Constructor', 'name inline fields')
Function = namedtuple('Function', 'name params result body')
Param = namedtuple('Param', 'name read type')
# As checked: the number of a constructor through all types, its type and its fields' types; and of a function its
# parameters as (type, whether it is marked), and its result's type.
Entry = namedtuple('Entry', 'number type inline fields')
Header = namedtuple('Header', 'name params result')

def types_of(program):
    """The types as those of a code."""
    entries = program.constructors
    return [TypeDef(declared.name.text, [Con(con.name.text, con.inline, entries[con.name.text].fields)
                                         for con in declared.cons]) for declared in program.types]

# ## Tokens
Token = namedtuple('Token', 'kind text start end line')
WORDS = frozenset('type of let in if then else match with end true false not int bool read mod'.split())
LONGEST_NAME = 64
GREATEST_NUMBER = 2147483648

SPACE = re.compile(rb'[ \t\r\n]+')
BRACKET = re.compile(rb'\(\*|\*\)')
TOKEN = re.compile(rb"(?P<Lower>[a-z][A-Za-z0-9_]*)|(?P<Upper>[A-Z][A-Za-z0-9_]*)|(?P<Number>[0-9]+)"
                   rb"|(?P<TypeVar>'[a-z][A-Za-z0-9_]*)"
                   rb"|(?P<Symbol>->|<>|<=|>=|&&|\|\||[(),:@_=<>+*/|!-])")

def tokens_of(text):
    found, at, line = [], 0, 1
    while at < len(text):
        space = SPACE.match(text, at)
        if space:
            end = space.end()
        elif text.startswith(b'(*', at):
            end = comment_end(text, at)
        else:
            found.append(token_at(text, at, line))
            end = found[-1].end
        line += text.count(b'\n', at, end)
        at = end
    return found

def comment_end(text, start):
    """The place behind the comment that begins at `start`."""
    level = 0
    for bracket in BRACKET.finditer(text, start):
        level += 1 if bracket.group() == b'(*' else -1
        if level == 0:
            return bracket.end()
    raise Refused('open-comment at %d' % start)

def token_at(text, start, line):
    """The longest token that begins at `start`."""
    match = TOKEN.match(text, start)
    if not match:
        raise Refused('bad-character at %d' % start)
    kind, word = match.lastgroup, match.group().decode('ascii')
    if kind == 'Number' and number(word) > GREATEST_NUMBER:
        raise Refused('long-number at %d' % start)
    if kind in ('Lower', 'Upper', 'TypeVar') and len(word.lstrip("'")) > LONGEST_NAME:
        raise Refused('long-name at %d' % start)
    return Token('Keyword' if word in WORDS else kind, word, start, match.end(), line)

def number(digits):
    """The value of digits. No more than 11 of them are looked at, and with so many it is too great in any case."""
    return int(digits.lstrip('0')[:11] or '0')

# ## Grammar
Literal = namedtuple('Literal', 'line literal')                 # an int or a bool
Variable = namedtuple('Variable', 'line name')
Operation = namedtuple('Operation', 'line sign left right')
If = namedtuple('If', 'line condition yes no')
Let = namedtuple('Let', 'line name value body')
Call = namedtuple('Call', 'line name arguments')
Build = namedtuple('Build', 'line name arguments cell')         # the cell is the name behind `@`, or None
Match = namedtuple('Match', 'line scrutinee arms')
Arm = namedtuple('Arm', 'con fields cell body')                 # the cell is what stands behind `@`, or None

COMPARISONS = ('=', '<>', '<', '<=', '>', '>=')
CHAINS = [('||',), ('&&',), COMPARISONS, ('+', '-'), ('*', '/', 'mod')]
UNIT = ('number', 'true', 'false', 'lower', 'upper', '(')       # what a unit begins with
ATOM = ('int', 'bool', '<>', 'lower')
DEEPEST = 200

def parsed(text):
    """The tree of a text, as a Program."""
    return run(Parser(text).program())

def form(token):
    """What the grammar calls a token. The number that stands behind `-` alone is of a form of its own."""
    if token.kind == 'Number':
        return 'number' if number(token.text) < GREATEST_NUMBER else 'greatest'
    return {'Lower': 'lower', 'Upper': 'upper', 'TypeVar': 'variable'}.get(token.kind, token.text)

class Parser:
    """Each method reads what has its name in the grammar. Where one may be deep, it is a generator for `run`."""

    def __init__(self, text):
        self.tokens = tokens_of(text)
        self.forms = [form(token) for token in self.tokens] + ['']
        self.lines = [token.line for token in self.tokens] + [1 + text[:-1].count(b'\n')]
        self.at = self.level = 0

    def next(self):
        """The form of the next token, which is '' at the end of the text."""
        return self.forms[self.at]

    def line(self):
        return self.lines[self.at]

    def take(self, *wanted):
        """The next token, which has to be of one of these forms, and at a level that isn't too deep."""
        if self.next() not in wanted or self.level > DEEPEST:
            wrong = 'type-parameter' if self.next() == 'variable' else 'unexpected'
            cause = 'too-deep' if self.next() in wanted else wrong
            raise Refused('%s token %d line %d' % (cause, self.at, self.line()))
        self.at += 1
        return self.tokens[self.at - 1]

    def takes(self, wanted):
        """Whether the next token is of this form; then it is taken."""
        return self.next() == wanted and bool(self.take(wanted))

    def separated(self, by, one):
        """One or more of these."""
        found = [(yield one())]
        while self.takes(by):
            found.append((yield one()))
        return found

    def behind(self, word):
        """An `expr`, which stands behind this word."""
        self.take(word)
        return self.expr()

    def program(self):
        types, functions = [], []
        while self.next():
            if self.take('type', 'let').text == 'type':
                name = self.take('lower')
                self.take('=')
                cons = yield self.separated('|', self.con)
                types.append(Type(name, cons))
            else:
                functions.append((yield self.fundecl()))
        return Program(types, functions)

    def con(self):
        if self.takes('!'):
            return Constructor(self.take('upper'), True, [])
        name = self.take('upper')
        fields = yield self.separated('*', self.atom) if self.takes('of') else []
        return Constructor(name, False, fields)

    def atom(self):
        return self.take(*ATOM)

    def fundecl(self):
        name, params = self.take('lower'), [self.param()]
        while self.next() in ('lower', '('):
            params.append(self.param())
        result = self.atom() if self.takes(':') else None
        body = yield self.behind('=')
        return Function(name, params, result, body)

    def param(self):
        name, read, kind = self.take('lower', '('), False, None
        if name.text == '(':
            read = self.takes('read')
            name = self.take('lower')
            kind = self.atom() if self.takes(':') else None
            self.take(')')
        return Param(name, read, kind)

    def expr(self):
        self.level += 1
        special = {'let': self.let, 'if': self.conditional, 'match': self.match}.get(self.next())
        tree = yield special() if special else self.chain(0)
        self.level -= 1
        return tree

    def let(self):
        self.take('let')
        name = self.take('lower')
        value = yield self.behind('=')
        body = yield self.behind('in')
        return Let(name.line, name, value, body)

    def conditional(self):
        line = self.line()
        condition = yield self.behind('if')
        yes = yield self.behind('then')
        no = yield self.behind('else')
        return If(line, condition, yes, no)

    def match(self):
        line = self.line()
        scrutinee = yield self.behind('match')
        self.take('with')
        self.takes('|')
        arms = yield self.separated('|', self.arm)
        self.take('end')
        return Match(line, scrutinee, arms)

    def arm(self):
        con, fields = self.take('upper'), []
        if self.takes('('):
            fields = yield self.separated(',', self.field)
            self.take(')')
        cell = self.field() if self.takes('@') else None
        body = yield self.behind('->')
        return Arm(con, fields, cell, body)

    def field(self):
        return self.take('lower', '_')

    def chain(self, which):
        """`or`, `and`, `cmp`, `sum` and `prod`: each has the next one as its parts, and the last one `pre`."""
        if which == len(CHAINS):
            return self.pre()
        operators, line, signs = CHAINS[which], self.line(), 0
        tree = yield self.chain(which + 1)
        while self.next() in operators and not (operators is COMPARISONS and signs == 1):
            sign = self.take(*operators)
            self.level += 1
            signs += 1
            right = yield self.chain(which + 1)
            tree = operation(line, sign, tree, right)
        self.level -= signs
        return tree

    def pre(self):
        self.level += 1
        line, begins = self.line(), self.next()
        if self.takes('not'):
            part = yield self.pre()
            tree = If(line, part, Literal(line, False), Literal(line, True))
        elif self.takes('-'):
            tree = Literal(line, -number(self.take('number', 'greatest').text))
        else:
            tree = yield self.unit()
            if begins == 'lower' and self.next() in UNIT:
                tree = Call(line, tree.name, [])
                while self.next() in UNIT:
                    tree.arguments.append((yield self.unit()))
        self.level -= 1
        return tree

    def unit(self):
        begins, token = self.next(), self.take(*UNIT)
        if begins == '(':
            tree = yield self.expr()
            self.take(')')
            return tree
        if begins == 'upper':
            return self.build(token)
        if begins == 'lower':
            return Variable(token.line, token)
        return Literal(token.line, number(token.text) if begins == 'number' else begins == 'true')

    def build(self, name):
        arguments = []
        if self.takes('('):
            arguments = yield self.separated(',', self.expr)
            self.take(')')
        return Build(name.line, name, arguments, self.take('lower') if self.takes('@') else None)

def operation(line, sign, left, right):
    """What an operator stands for. The truth value that `&&` and `||` add has the line of the sign."""
    if sign.text == '&&':
        return If(line, left, right, Literal(sign.line, False))
    if sign.text == '||':
        return If(line, left, Literal(sign.line, True), right)
    return Operation(line, sign.text, left, right)

# ## Values and runs
PRIMS = {'+': 'add', '-': 'sub', '*': 'mul', '/': 'div', 'mod': 'mod',
         '=': 'eq', '<>': 'ne', '<': 'lt', '<=': 'le', '>': 'gt', '>=': 'ge'}

class Stopped(Exception):
    """A run stopped: its argument is 'fuel' or 'deep'."""

def meaning(program, entry, args, fuel, limit=65536):
    """How the function of this number ends on these values, as grail.meaning tells it."""
    counts = Run(program, fuel, limit)
    try:
        value = run(counts.call(entry, args, True))
    except Stopped as stopped:
        return stopped.args[0], counts.peak
    except Trap:
        return 'trap', counts.peak
    return 'done', value, counts.calls, counts.peak, counts.net

class Run:
    """A run with its counts. A scope has the values of variables by name."""

    def __init__(self, program, fuel, limit):
        self.program, self.fuel, self.limit = program, fuel, limit
        self.calls = self.waiting = self.net = self.peak = 0

    def call(self, number, args, tail):
        if self.calls == self.fuel:
            raise Stopped('fuel')
        if not tail and self.waiting == self.limit:
            raise Stopped('deep')
        self.calls += 1
        self.waiting += 0 if tail else 1
        function = self.program.declared[number]
        body = self.value(function.body, {param.name.text: arg for param, arg in zip(function.params, args)}, True)
        return body if tail else self.waited(body)

    def waited(self, body):
        value = yield body
        self.waiting -= 1
        return value

    def part(self, tree, scope):
        """The value of an expression that isn't in tail position; at once where it has no parts."""
        if type(tree) is Literal:
            return tree.literal
        return scope[tree.name.text] if type(tree) is Variable else self.value(tree, scope, False)

    def value(self, tree, scope, tail):
        form = type(tree)
        if form is Operation:
            left = yield self.part(tree.left, scope)
            right = yield self.part(tree.right, scope)
            return operator(PRIMS[tree.sign], left, right)
        if form is If:
            condition = yield self.part(tree.condition, scope)
            return self.value(tree.yes if condition else tree.no, scope, tail)
        if form is Let:
            bound = yield self.part(tree.value, scope)
            return self.value(tree.body, {**scope, tree.name.text: bound}, tail)
        if form is Match:
            scrutinee = yield self.part(tree.scrutinee, scope)
            return self.value(*self.arm(tree.arms, scrutinee, scope), tail)
        if form is Literal or form is Variable:
            return self.part(tree, scope)
        args = yield each(self.part(argument, scope) for argument in tree.arguments)
        if form is Call:
            return self.call(self.program.numbers[tree.name.text], args, tail)
        entry = self.program.constructors[tree.name.text]
        if not entry.inline and not tree.cell:
            self.net += 1
            self.peak = max(self.peak, self.net)
        return (entry.number, *args)

    def arm(self, arms, scrutinee, scope):
        """The body of the arm of the value's constructor, and its scope."""
        entries = self.program.constructors
        arm = next(arm for arm in arms if entries[arm.con.text].number == scrutinee[0])
        scope = {**scope, **{field.text: part for field, part in zip(arm.fields, scrutinee[1:])}}
        if arm.cell and arm.cell.text == '_':
            self.net -= 1
        elif arm.cell:
            scope[arm.cell.text] = '<>'
        return arm.body, scope

# ## Types
MOST = {'types': 64, 'constructors': 64, 'fields': 4, 'functions': 64, 'parameters': 16}

class Unknown:
    """A type that isn't written. An equality fixes it."""
    fixed = None

def found(kind):
    """A type as far as it is known by now."""
    while isinstance(kind, Unknown) and kind.fixed is not None:
        kind = kind.fixed
    return kind

def settled(kind):
    """A type behind the whole check: what nothing fixes is `int`."""
    return 'int' if isinstance(found(kind), Unknown) else found(kind)

# ## Diamonds and the rule of use
def is_lent(program, param):
    """Whether a function's parameter, as its Header has it, is lent."""
    kind, mark = param
    return mark and is_heap(program.types, kind)

# ## What is refused while reading
#
# Tokens are refused by `tokens_of` and what it calls, and the grammar refuses by `Parser.take` alone.

# ## What is refused by its types
def check_types(program):
    """The steps in order. They fill in what a Program has behind its declarations."""
    check = Types(program)
    at_most('types', [declared.name for declared in program.types])
    for number, declared in enumerate(program.types):
        check.declaration(number, declared)
    at_most('functions', [declared.name for declared in program.declared])
    for declared in program.declared:
        check.header(declared)
    for header, declared in zip(program.functions, program.declared):
        run(check.body(header, declared))
    program.functions = [Header(name, [(settled(kind), mark) for kind, mark in params], settled(result))
                         for name, params, result in program.functions]

def refuse(cause, name, numbers=''):
    raise Refused('%s %s%s line %d' % (cause, name.text, numbers, name.line))

def at_most(word, names):
    if len(names) > MOST[word]:
        raise Refused('too-many %s have %d line %d' % (word, len(names), names[MOST[word]].line))

def first_time(name, before):
    """The name isn't one of those before; from now on it is."""
    if name.text in before:
        refuse('duplicate', name)
    before.add(name.text)

def known(name, there, cause='unknown-name'):
    """What is there by this name."""
    if name.text not in there:
        refuse(cause, name)
    return there[name.text]

def arity(name, have, need):
    if len(have) != len(need):
        refuse('arity', name, ' have %d need %d' % (len(have), len(need)))

class Types:
    """The steps. Those of an expression give its type; a scope has the types of variables by name."""

    def __init__(self, program):
        self.program, self.type_names, self.con_names, self.function_names = program, set(), set(), set()
        self.entries, self.kinds = program.constructors, program.kinds
        program.type_numbers = {declared.name.text: number for number, declared in enumerate(program.types)}
        program.numbers = {declared.name.text: number for number, declared in enumerate(program.declared)}
        self.forms = {Operation: self.operation, If: self.conditional, Let: self.let, Call: self.call,
                      Build: self.build, Match: self.match}

    def declaration(self, number, declared):
        first_time(declared.name, self.type_names)
        for con in declared.cons:
            first_time(con.name, self.con_names)
        at_most('constructors', [con.name for con in declared.cons])
        for con in declared.cons:
            if len(con.fields) > MOST['fields']:
                refuse('too-many-fields', con.name, ' have %d' % len(con.fields))
        for con in declared.cons:
            fields = [self.atom(field) for field in con.fields]
            self.entries[con.name.text] = Entry(len(self.entries), number, con.inline, fields)

    def atom(self, written):
        if written is None:
            return Unknown()
        return known(written, self.program.type_numbers, 'unknown-type') if written.kind == 'Lower' else written.text

    def header(self, declared):
        first_time(declared.name, self.function_names)
        at_most('parameters', [param.name for param in declared.params])
        names = set()
        for param in declared.params:
            first_time(param.name, names)
        params = [(self.atom(param.type), param.read) for param in declared.params]
        self.program.functions.append(Header(declared.name.text, params, self.atom(declared.result)))

    def body(self, header, declared):
        scope = {param.name.text: kind for param, (kind, _) in zip(declared.params, header.params)}
        kind = yield self.steps(declared.body, scope)
        self.equal(kind, header.result, declared.body.line)

    def steps(self, tree, scope):
        if isinstance(tree, Literal):
            kind = 'bool' if isinstance(tree.literal, bool) else 'int'
        elif isinstance(tree, Variable):
            kind = known(tree.name, scope)
        else:
            kind = yield self.forms[type(tree)](tree, scope)
        self.kinds[id(tree)] = kind
        return kind

    def operation(self, tree, scope):
        left, right = yield each(self.steps(part, scope) for part in (tree.left, tree.right))
        self.equal(left, 'int', tree.left.line)
        self.equal(right, 'int', tree.right.line)
        return 'bool' if tree.sign in COMPARISONS else 'int'

    def conditional(self, tree, scope):
        condition = yield self.steps(tree.condition, scope)
        self.equal(condition, 'bool', tree.condition.line)
        yes, no = yield each(self.steps(part, scope) for part in (tree.yes, tree.no))
        self.equal(yes, no, tree.no.line)
        return yes

    def let(self, tree, scope):
        value = yield self.steps(tree.value, scope)
        return self.steps(tree.body, {**scope, tree.name.text: value})

    def call(self, tree, scope):
        kinds = yield each(self.steps(argument, scope) for argument in tree.arguments)
        header = self.program.functions[known(tree.name, self.program.numbers)]
        arity(tree.name, kinds, header.params)
        for argument, kind, (param, _) in zip(tree.arguments, kinds, header.params):
            self.equal(kind, param, argument.line)
        return header.result

    def build(self, tree, scope):
        kinds = yield each(self.steps(argument, scope) for argument in tree.arguments)
        entry = known(tree.name, self.entries)
        self.parts(tree.name, kinds, entry, tree.cell)
        cell = known(tree.cell, scope) if tree.cell else None
        for argument, kind, field in zip(tree.arguments, kinds, entry.fields):
            self.equal(kind, field, argument.line)
        if tree.cell:
            self.equal(cell, '<>', tree.cell.line)
        return entry.type

    def parts(self, name, have, entry, cell):
        """What a build and an arm ask alike."""
        arity(name, have, entry.fields)
        if cell and entry.inline:
            refuse('place-on-inline', name)

    def match(self, tree, scope):
        scrutinee = yield self.steps(tree.scrutinee, scope)
        seen, first, result = set(), None, None
        for arm in tree.arms:
            entry = known(arm.con, self.entries)
            if arm.con.text in seen:
                refuse('repeated-arm', arm.con)
            left, right = (first, entry.type) if seen else (entry.type, scrutinee)
            self.equal(left, right, arm.con.line)
            body = yield self.arm(arm, entry, scope)
            if seen:
                self.equal(result, body, arm.body.line)
            else:
                first, result = entry.type, body
            seen.add(arm.con.text)
        for con in self.program.types[first].cons:
            if con.name.text not in seen:
                raise Refused('missing-arm %s line %d' % (con.name.text, tree.line))
        return result

    def arm(self, arm, entry, scope):
        """The steps of an arm from its fields on; gives the type of its body."""
        self.parts(arm.con, arm.fields, entry, arm.cell)
        inner, names = dict(scope), set()
        for name, kind in zip(arm.fields + [arm.cell], entry.fields + ['<>']):
            if name and name.text != '_':
                first_time(name, names)
                inner[name.text] = kind
        return self.steps(arm.body, inner)

    def equal(self, left, right, line):
        """An equality: what is on its left and on its right, and the line that is told."""
        left, right = found(left), found(right)
        if left == right:
            return
        if isinstance(left, Unknown):
            left.fixed = right
        elif isinstance(right, Unknown):
            right.fixed = left
        else:
            written = self.program.written
            raise Refused('clash %s %s line %d' % (written(left), written(right), line))

# ## What is refused by the rule of use
LENT = 'lent'

def check_uses(program):
    for declared, header in zip(program.declared, program.functions):
        check = Uses(program)
        run(check.function(declared, header))
        if check.faults:
            raise Refused(min(check.faults)[1])

class Uses:
    """Looks for all faults of a function, each with its place.

    A scope has for each variable LENT, or an object of its own where it is owned, or None where its type is no heap
    type. `used` has the owned variables with a use before this place on some path to it.
    """

    def __init__(self, program):
        self.program, self.faults = program, []

    def fault(self, cause, name):
        self.faults.append((name.start, '%s %s line %d' % (cause, name.text, name.line)))

    def variable(self, kind, lent):
        return (LENT if lent else object()) if is_heap(self.program.types, kind) else None

    def function(self, declared, header):
        if is_heap(self.program.types, header.result) and any(is_lent(self.program, param) for param in header.params):
            self.fault('read-result', declared.name)
        scope = {param.name.text: self.variable(*checked) for param, checked in zip(declared.params, header.params)}
        return self.look(declared.body, scope, set())

    def use(self, name, scope, used):
        variable = scope[name.text]
        if variable is LENT:
            self.fault('lent', name)
        elif variable in used:
            self.fault('twice', name)
        elif variable:
            used.add(variable)

    def look(self, tree, scope, used):
        """Looks at an expression, and adds its uses to those before it."""
        if isinstance(tree, Variable):
            self.use(tree.name, scope, used)
        elif isinstance(tree, Operation):
            yield self.look(tree.left, scope, used)
            yield self.look(tree.right, scope, used)
        elif isinstance(tree, If):
            yield self.look(tree.condition, scope, used)
            other = set(used)
            yield self.look(tree.yes, scope, used)
            yield self.look(tree.no, scope, other)
            used |= other
        elif isinstance(tree, Let):
            yield self.look(tree.value, scope, used)
            variable = self.variable(self.program.kind(tree.value), False)
            yield self.look(tree.body, {**scope, tree.name.text: variable}, used)
            used.discard(variable)
        elif isinstance(tree, Build):
            yield each(self.look(argument, scope, used) for argument in tree.arguments)
            if tree.cell:
                self.use(tree.cell, scope, used)
        elif isinstance(tree, Call):
            yield self.call(tree, scope, used)
        elif isinstance(tree, Match):
            yield self.match(tree, scope, used)

    def call(self, tree, scope, used):
        """Readings come behind all arguments."""
        readings = []
        header = self.program.functions[self.program.numbers[tree.name.text]]
        for argument, param in zip(tree.arguments, header.params):
            if is_lent(self.program, param) and isinstance(argument, Variable):
                readings.append(argument.name)
            else:
                yield self.look(argument, scope, used)
        for name in readings:
            if scope[name.text] in used:
                self.fault('twice', name)

    def match(self, tree, scope, used):
        lent = isinstance(tree.scrutinee, Variable) and scope[tree.scrutinee.name.text] is LENT
        if not lent:
            yield self.look(tree.scrutinee, scope, used)
        elif any(arm.cell for arm in tree.arms):
            self.fault('lent', tree.scrutinee.name)
        behind = set()
        for arm in tree.arms:
            entry = self.program.constructors[arm.con.text]
            if not lent and not entry.inline and not arm.cell:
                self.fault('read-match', arm.con)
            inner, path = dict(scope), set(used)
            inner.update((name.text, self.variable(kind, lent)) for name, kind in zip(arm.fields, entry.fields))
            if arm.cell:
                inner[arm.cell.text] = object()
            yield self.look(arm.body, inner, path)
            behind |= path
        used |= behind.intersection(scope.values())     # what the arms have bound is over

# ## Refused programs
#
# They are among the examples of docs/REFUSALS.md and of the table `texts`, which cases.py answers.
