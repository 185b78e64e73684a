"""From source to code: docs/COMPILER.md, section by section."""
from deep import each, run
from grail import Block, Code, Func, jumps_of, operands_of
from language import PRIMS, Call, If, Let, Literal, Match, Operation, Variable, is_lent, types_of
from refusals import Refused

def code_of(program):
    """The code of a checked program, function by function."""
    return Code(types_of(program), [function_of(program, number) for number in range(len(program.functions))])

def function_of(program, number):
    header, declared = program.functions[number], program.declared[number]
    normal = Normal(program, len(header.params))
    run(normal.tail(declared.body, {param.name.text: local for local, param in enumerate(declared.params)}))
    if len(normal.locals) > MOST_LOCALS:
        raise Refused('too-many-locals %s have %d' % (header.name, len(normal.locals)))
    if len(normal.blocks) > MOST_BLOCKS:
        raise Refused('too-many-blocks %s have %d' % (header.name, len(normal.blocks)))
    params = [(kind, is_lent(program, (kind, mark))) for kind, mark in header.params]
    return Func(header.name, params, header.result, normal.locals, with_parameters(normal.blocks, len(params)))

# ## Locals and blocks
MOST_LOCALS = 240
MOST_BLOCKS = 256

class Normal:
    """The normal form of a function, as far as it is made. A scope has locals by name.

    A block is its lets and, last, its end: a list that is filled when the blocks begin that it names.
    """

    def __init__(self, program, params):
        self.program, self.params = program, params
        self.locals = []                # the kinds of the further ones
        self.blocks = [[]]

    def local(self, kind):
        self.locals.append(kind)
        return self.params + len(self.locals) - 1

    def bind(self, tree, op):
        local = self.local(self.program.kind(tree))
        self.write((local, op))
        return local

    def write(self, line):
        self.blocks[-1].append(line)

    def value(self, tree, scope):
        """The local that has the value of an expression."""
        if isinstance(tree, Variable):
            return scope[tree.name.text]
        if isinstance(tree, Literal):
            return self.bind(tree, ('flag' if isinstance(tree.literal, bool) else 'lit', tree.literal))
        if isinstance(tree, Let):
            local = yield self.value(tree.value, scope)
            return self.value(tree.body, {**scope, tree.name.text: local})
        if isinstance(tree, (If, Match)):
            return self.parted(tree, scope, True)
        if isinstance(tree, Operation):
            left, right = yield self.values([tree.left, tree.right], scope)
            return self.bind(tree, ('prim', PRIMS[tree.sign], left, right))
        locals = yield self.values(tree.arguments, scope)
        if isinstance(tree, Call):
            return self.bind(tree, ('call', self.program.numbers[tree.name.text], locals))
        entry = self.program.constructors[tree.name.text]
        place = 'inline' if entry.inline else ('reuse', scope[tree.cell.text]) if tree.cell else 'new'
        return self.bind(tree, ('make', entry.number, locals, place))

    def values(self, trees, scope):
        return each(self.value(tree, scope) for tree in trees)

    def tail(self, tree, scope):
        """Ends the block by an expression in tail position."""
        if isinstance(tree, Let):
            local = yield self.value(tree.value, scope)
            return self.tail(tree.body, {**scope, tree.name.text: local})
        elif isinstance(tree, Call):
            locals = yield self.values(tree.arguments, scope)
            self.write(['tail', self.program.numbers[tree.name.text], locals])
        elif isinstance(tree, (If, Match)):
            yield self.parted(tree, scope, False)
        else:
            local = yield self.value(tree, scope)
            self.write(['ret', local])

    def parted(self, tree, scope, joined):
        """An `if` or a `match`: as a value, whose branches are joined and whose local it gives, or as a tail."""
        on = yield self.value(tree.condition if isinstance(tree, If) else tree.scrutinee, scope)
        target = self.local(self.program.kind(tree)) if joined else None
        end, join = ['if', on] if isinstance(tree, If) else ['case', on, []], ['goto']
        self.write(end)
        for body, arm in self.branches(tree):
            begun = len(self.blocks)
            self.blocks.append([])
            inner = self.arm(arm, scope, begun, end[2]) if arm else scope
            if not arm:
                end.append(begun)
            if joined:
                local = yield self.value(body, inner)
                self.write((target, ('copy', local)))
                self.write(join)
            else:
                yield self.tail(body, inner)
        if joined:
            join.append(len(self.blocks))
            self.blocks.append([])
        return target

    def branches(self, tree):
        """The branches of an `if`, or the arms of a `match` in the order of the constructors."""
        if isinstance(tree, If):
            return [(tree.yes, None), (tree.no, None)]
        entries = self.program.constructors
        arms = sorted(tree.arms, key=lambda arm: entries[arm.con.text].number)
        return [(arm.body, arm) for arm in arms]

    def arm(self, arm, scope, begun, arms):
        """Begins an arm, as one more of the `arms` of its `case`; gives the scope of its body."""
        entry = self.program.constructors[arm.con.text]
        locals = [self.local(kind) for kind in entry.fields]
        inner = {**scope, **{name.text: local for name, local in zip(arm.fields, locals)}}
        if arm.cell and arm.cell.text != '_':
            inner[arm.cell.text] = self.local('<>')
            cell = ('keep', inner[arm.cell.text])
        else:
            cell = 'free' if arm.cell else 'inline' if entry.inline else 'look'
        arms.append((locals, cell, begun))
        return inner

# ## Parameters of blocks
def with_parameters(blocks, params):
    """The blocks of a code, by one pass from the last to the first."""
    live = {}                           # by block
    made = []
    for number in reversed(range(len(blocks))):
        *lets, end = blocks[number]
        live[number] = live_before(lets, end, live) if number else range(params)
        made.append(Block(sorted(live[number]), lets, tuple(end)))
    return made[::-1]

def live_before(lets, end, live):
    """The locals that a block reads before it binds them, and that its jumps hand on."""
    needed = set(operands_of(end))
    for target, bound in jumps_of(end):
        needed |= live[target] - set(bound)
    for local, op in reversed(lets):
        needed.discard(local)
        needed.update(operands_of(op))
    return needed

# ## A function of three lines. A function of one line, from its tree to its bytes
#
# Both are cases of the table `compiled`, which cases.py answers.

# ## From a source to a bundle. The text of a bundle
#
# See `compiled` in commands.py, and `bundle_text` and `read_bundle` in certificates.py.
