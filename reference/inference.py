"""How bounds are found: docs/INFERENCE.md, section by section."""
from fractions import Fraction
from math import gcd, lcm

import certificates
import grail
from certificates import Certificate, Function
from refusals import Refused

UNKNOWNS, ROWS, PIVOTS, LARGE = 512, 1536, 4096, 2 ** 62

# ## The system of a code
class Sum:
    """A sum of unknowns, each with its factor, and of cells."""

    def __init__(self, terms, cells=0):
        self.terms, self.cells = terms, cells

    def plus(self, other, sign):
        other = other if type(other) is Sum else Sum({}, other)
        terms = dict(self.terms)
        for unknown, factor in other.terms.items():
            terms[unknown] = terms.get(unknown, 0) + sign * factor
        return Sum(terms, self.cells + sign * other.cells)

    def __add__(self, other):
        return self.plus(other, 1)

    def __sub__(self, other):
        return self.plus(other, -1)

class Unknowns:
    """The unknowns of a code, in the order of a certificate's lines, and their costs."""

    def __init__(self, code):
        self.costs, self.code = [], code
        self.reach, self.cons = certificates.Reach(code.types), grail.constructors(code.types)
        self.certificate = Certificate(1, [self.function(func) for func in code.funcs])

    def one(self, cost=0):
        self.costs.append(cost)
        return Sum({len(self.costs) - 1: 1})

    def vector(self, kind, cost=0):
        return {con: self.one(cost) for con in self.reach.of(kind)}

    def function(self, func):
        kinds, lent = grail.kinds_of(func), grail.lent_locals(self.code.types, func)
        need, back = self.one(1), self.one()
        params = {x: self.vector(kinds[x], 1) for x in range(len(func.params)) if x not in lent}
        result, blocks, makes = self.vector(func.result), {}, {}
        for b, block in list(enumerate(func.blocks))[1:]:
            blocks[b] = self.one(), {x: self.vector(kinds[x]) for x in block.params if x not in lent}
        for b, block in enumerate(func.blocks):
            for place, (_, op) in enumerate(block.lets, 1):
                if op[0] == 'make':
                    makes[b, place] = self.vector(self.cons[op[1]][0])
        return Function(func.name, need, back, params, result, blocks, makes)

def rows_of(code, certificate):
    """The rows, as (terms, what they are at least)."""
    for _, _, there, asked in certificates.Rules(code, certificate).checks():
        row = Sum({}) + there - asked
        terms = {unknown: factor for unknown, factor in row.terms.items() if factor}
        if terms or row.cells < 0:
            yield terms, -row.cells

def infer(code):
    """The certificate of least cost, or why there is none."""
    unknowns = Unknowns(code)
    count, rows = 0, []
    for row in rows_of(code, unknowns.certificate):
        count += 1
        rows += [row] if count <= ROWS else []
    if len(unknowns.costs) > UNKNOWNS or count > ROWS:
        raise Refused('too-many-unknowns %d rows %d' % (len(unknowns.costs), count))
    answer = solve(unknowns.costs, rows)
    if answer[0] != 'least':
        raise Refused({'nothing': 'no-bound'}.get(answer[0], answer[0]))
    return whole(unknowns.certificate, answer[1], answer[2])

def whole(certificate, values, unit):
    """The certificate with these values for the unknowns; what has no units has no line."""
    def value(unknown, limit=certificates.UNITS):
        amount = values[next(iter(unknown.terms))]
        if amount > limit:
            raise Refused('wide')
        return amount

    def vector(annotations):
        return {con: value(unknown) for con, unknown in annotations.items() if value(unknown)}

    def vectors(named):
        told = {name: vector(annotations) for name, annotations in named.items()}
        return {name: annotations for name, annotations in told.items() if annotations}
    if unit > certificates.UNITS:
        raise Refused('wide')
    needs = certificates.NEEDS
    return Certificate(unit, [
        Function(said.name, value(said.need, needs), value(said.back, needs), vectors(said.params), vector(said.result),
                 {block: (value(need, needs), vectors(carried)) for block, (need, carried) in said.blocks.items()},
                 vectors(said.makes)) for said in certificate.functions])

# ## The tableau
class Line:
    """divisor * variable = constant + sum over the columns of factor * the column's variable. Factors 0 aren't kept."""
    __slots__ = 'divisor', 'constant', 'factors'

    def __init__(self, divisor, constant, factors):
        self.divisor, self.constant, self.factors = divisor, constant, factors

    def is_wide(self):
        return max(self.divisor, abs(self.constant), *map(abs, self.factors.values())) > LARGE

    def put(self, entering, solved):
        """The line solved for the entering variable is put into this one."""
        factor, divisor = self.factors.pop(entering), solved.divisor
        common = gcd(factor, divisor)
        factor, divisor = factor // common, divisor // common
        factors = {column: number * divisor for column, number in self.factors.items()}
        for column, number in solved.factors.items():
            factors[column] = factors.get(column, 0) + number * factor
        self.divisor *= divisor
        self.constant = self.constant * divisor + solved.constant * factor
        common = gcd(self.divisor, self.constant, *factors.values())
        self.divisor, self.constant = self.divisor // common, self.constant // common
        self.factors = {column: number // common for column, number in factors.items() if number}

# ## The run
def solve(costs, rows):
    """('least', values, unit, prices, unit of the prices, pivots), ('nothing', variable, pivots), ('wide', pivots) or
    ('spent', pivots)."""
    count = len(costs)
    lines = {count + i: Line(1, -least, dict(terms)) for i, (terms, least) in enumerate(rows)}
    cost = Line(1, 0, {unknown: each for unknown, each in enumerate(costs) if each})
    changed, pivots = [cost] + list(lines.values()), 0
    while True:
        if any(line.is_wide() for line in changed):
            return 'wide', pivots
        leaving = min((variable for variable, line in lines.items() if line.constant < 0), default=None)
        if leaving is None:
            return least(count, lines, cost, pivots)
        solved = lines[leaving]
        columns = [column for column, factor in solved.factors.items() if factor > 0]
        if not columns:
            return 'nothing', leaving, pivots
        if pivots == PIVOTS:
            return 'spent', pivots
        ratios = [(Fraction(cost.factors.get(column, 0), solved.factors[column]), column) for column in columns]
        _, entering = min(ratios)
        changed = pivot(lines, cost, leaving, entering)
        pivots += 1

def pivot(lines, cost, leaving, entering):
    """Makes the pivot, and answers the lines that changed."""
    line = lines.pop(leaving)
    factors = {column: -factor for column, factor in line.factors.items() if column != entering}
    factors[leaving] = line.divisor
    solved = Line(line.factors[entering], -line.constant, factors)
    changed = [other for other in [cost] + list(lines.values()) if entering in other.factors]
    for other in changed:
        other.put(entering, solved)
    lines[entering] = solved
    return changed + [solved]

def least(count, lines, cost, pivots):
    values = [Fraction(lines[x].constant, lines[x].divisor) if x in lines else Fraction(0) for x in range(count)]
    prices = [Fraction(cost.factors.get(x, 0), cost.divisor) for x in range(count, count + len(lines))]
    unit, price_unit = lcm(*(v.denominator for v in values)), lcm(*(p.denominator for p in prices))
    values, prices = [int(v * unit) for v in values], [int(p * price_unit) for p in prices]
    if max([unit, price_unit] + values + prices) > LARGE:
        return 'wide', pivots
    return 'least', values, unit, prices, price_unit, pivots
