"""Images of paused runs: docs/IMAGES.md, section by section."""
import re
from collections import namedtuple

import certificates
import grail
import machine
from certificates import size
from refusals import Refused

# ## The text
#
# frames: Frame; cells: a tag and four words each; live: (local, word)
Image = namedtuple('Image', 'calls net peak fuel free frames cells')
Frame = namedtuple('Frame', 'func block place live')

STEPS, WORDS, WAITING = 2 ** 40, 2 ** 32 - 1, 65536
NUMBER = '(0|[1-9][0-9]*)'
COUNTS = 'calls N net (-?)N peak N fuel N free N cells N'
FORMS = {word: re.compile(form.replace('N', NUMBER).encode()) for word, form in {
    'grail': 'grail image 1', 'calls': COUNTS, 'frame': 'frame N N N', 'local': 'local N N', 'cell': 'cell N N N N N',
    'end': 'end'}.items()}
FOLLOWS = {
    None: 'grail', 'grail': 'calls', 'calls': 'frame', 'frame': 'frame local cell end', 'local': 'frame local cell end',
    'cell': 'cell end', 'end': '',
}

def read_image(text):
    """The image with this text; else its first wrong line."""
    lines, last, counts, frames, cells = text.split(b'\n'), None, [], [], []
    for line_number, line in enumerate(lines, 1):
        if last == 'end' and line_number == len(lines) and not line:
            break
        word = line.split(b' ')[0].decode('latin-1')
        found = word in FOLLOWS[last].split() and line_number < len(lines) and FORMS[word].fullmatch(line)
        numbers = numbers_of(word, *found.groups()) if found else None
        if numbers is None:
            raise Refused('line %d' % line_number)
        live = frames[-1].live if frames else []
        wrong = word == 'local' and live and numbers[0] <= live[-1][0]
        if wrong or word in ('cell', 'end') and (word == 'end') != (len(cells) == counts[5]):
            raise Refused('line %d' % line_number)
        if word == 'calls':
            counts = numbers
        elif word == 'frame':
            frames.append(Frame(*numbers, []))
        elif word == 'local':
            live.append(tuple(numbers))
        elif word == 'cell':
            cells.append(numbers)
        last = word
    return Image(*counts[:5], frames, cells)

def numbers_of(word, *digits):
    """The numbers of a line, or None where one is beyond its limits."""
    sign, limits = '', [WORDS] * 5
    if word == 'calls':
        sign = digits[1].decode()
        digits, limits = digits[:1] + digits[2:], [STEPS, WORDS, STEPS, STEPS, WORDS, WORDS]
    if any(size(number) > size(b'%d' % limit) for number, limit in zip(digits, limits)):
        return None
    numbers = list(map(int, digits))
    if word != 'calls':
        return numbers
    if numbers[0] + numbers[3] > STEPS or sign and not numbers[1]:
        return None
    return [numbers[0], int(sign + '1') * numbers[1]] + numbers[2:]

def image_text(image):
    lines = ['grail image 1', 'calls %d net %d peak %d fuel %d free %d cells %d' % (*image[:5], len(image.cells))]
    for frame in image.frames:
        lines.append('frame %d %d %d' % frame[:3])
        lines += ['local %d %d' % bound for bound in frame.live]
    lines += ['cell ' + ' '.join(map(str, cell)) for cell in image.cells]
    return ''.join(line + '\n' for line in lines + ['end']).encode()

# ## What is live
class Places:
    """The locals of a function by blocks and places."""

    def __init__(self, code, func):
        self.funcs, self.func, kinds = code.funcs, func, grail.kinds_of(func)
        self.lent = grail.lent_locals(code.types, func)
        self.owned = {x for x, kind in enumerate(kinds) if grail.is_heap(code.types, kind)} - self.lent

    def ready(self, block, place):
        """The locals that are ready at a place."""
        ready = set(self.func.blocks[block].params)
        for target, op in self.func.blocks[block].lets[:place - 1]:
            ready = ready - self.used(op) | {target}
        return sorted(ready)

    def waits(self, block, place):
        """Those that are ready once the operands of the let at a place are used."""
        used = [self.used(op) for _, op in self.func.blocks[block].lets[place - 1:place]]
        return sorted(set(self.ready(block, place)).difference(*used))

    def used(self, op):
        """The locals that a let spends."""
        operands = grail.operands_of(op)
        if op[0] == 'call':
            operands = [x for x, (_, mark) in zip(operands, self.funcs[op[1]].params) if not mark]
        return self.owned.intersection(operands)

    def lends(self, block):
        return not self.lent.isdisjoint(self.func.blocks[block].params)

class Paused:
    """A run of code that can be stopped between two steps."""

    def __init__(self, code, run):
        self.code, self.run, self.steps = code, run, 0
        self.numbers = {func.name: f for f, func in enumerate(code.funcs)}
        self.places = [Places(code, func) for func in code.funcs]

    def go(self, most):
        """Does so many steps. The outcome, where the run is over by then."""
        told = None
        while told is None and self.steps < most:
            told, self.steps = self.run.advance(), self.steps + 1
        return told

    def slice(self, steps):
        """So many steps, and as many more as it takes until nothing is lent. The outcome, where the run is over."""
        told = self.go(self.steps + steps)
        while told is None and any(self.lenders()):
            told = self.go(self.steps + 1)
        return told

    def frames(self):
        """Function, block, place and bound locals, from the oldest frame on."""
        run = self.run
        return [*run.waiting, (run.func, run.block, run.place + 1, run.bound)]

    def lenders(self):
        """Of each frame whether it lends."""
        return [self.places[self.numbers[func.name]].lends(block) for func, block, _, _ in self.frames()]

    def image(self):
        run, frames = self.run, []
        for func, block, place, bound in self.frames():
            number = self.numbers[func.name]
            live = self.places[number].waits if len(frames) < len(run.waiting) else self.places[number].ready
            frames.append(Frame(number, block, place, [(x, bound[x]) for x in live(block, place)]))
        return Image(run.calls, run.net, run.peak, run.fuel - run.calls, run.head, frames, run.cells)

def loaded(code, function, values, fuel, cells):
    """A run before its first step."""
    run = machine.Machine(code, fuel, cells)
    run.enter(function, run.laid(values), True)
    return Paused(code, run)

# ## How a run goes on
def resumed(code, image):
    """The run that goes on from an image. Where `net` is above `peak`, the peak is `net`."""
    run = machine.Machine(code, image.calls + image.fuel, len(image.cells))
    run.calls, run.net, run.peak, run.head = image.calls, image.net, max(image.peak, image.net), image.free
    run.cells = [list(cell) for cell in image.cells]
    for frame in image.frames:
        func = code.funcs[frame.func]
        bound = {**dict.fromkeys(range(len(grail.kinds_of(func))), 0), **dict(frame.live)}
        run.waiting.append((func, frame.block, frame.place, bound))
    run.func, run.block, place, run.bound = run.waiting.pop()
    run.place = place - 1
    return Paused(code, run)

# ## What is judged of a text
def judged(code, certificate, cells, text):
    """The image of a text from which a run of licensed code goes on in so many cells; else the first cause."""
    image = read_image(text)
    if len(image.cells) != cells:
        raise Refused('size cells %d len %d' % (len(image.cells), cells))
    for f in range(len(image.frames)):
        if not is_shaped(code, certificate, image.frames, f):
            raise Refused('shape frame %d' % f)
    values, taken = values_of(code, image)
    free = free_cells(image, taken)
    need = asked(code, certificate, image.frames, values) // certificate.unit
    if free < need:
        raise Refused('short free %d need %d' % (free, need))
    if not 0 <= image.net + free <= cells:
        raise Refused('net %d free %d' % (image.net, free))
    return image

# **Shape.**
def is_shaped(code, certificate, frames, f):
    """Whether a frame is as the code has it at its place."""
    func, block, place, live = frames[f]
    if f > WAITING or func >= len(code.funcs) or block >= len(code.funcs[func].blocks):
        return False
    lets, places = code.funcs[func].blocks[block].lets, Places(code, code.funcs[func])
    if not 1 <= place <= len(lets) + 1:
        return False
    waits = f + 1 < len(frames)
    wanted = places.waits(block, place) if waits else places.ready(block, place)
    if [x for x, _ in live] != wanted or not places.lent.isdisjoint(wanted):
        return False
    return not waits or place <= len(lets) and returns(code, certificate, lets[place - 1][1], frames[f + 1].func)

def returns(code, certificate, op, g):
    """Whether a let is a call to which a frame of the function `g` may return."""
    if op[0] != 'call' or g >= len(code.funcs) or code.funcs[g].result != code.funcs[op[1]].result:
        return False
    there, wanted = certificate.functions[g].result, certificate.functions[op[1]].result
    return all(there.get(con, 0) >= units for con, units in wanted.items())

# **Values.**
def values_of(code, image):
    """The constructors in the value of each word, by (frame, local), and the cells of all of them."""
    values, taken = {}, set()
    for f, frame in enumerate(image.frames):
        kinds = grail.kinds_of(code.funcs[frame.func])
        for x, word in frame.live:
            values[f, x] = value_at(grail.constructors(code.types), image.cells, word, kinds[x], taken)
            if values[f, x] is None:
                raise Refused('value frame %d local %d' % (f, x))
    return values, taken

def value_at(cons, cells, word, kind, taken):
    """The constructors of the value for which a word stands, or None. Its cells are taken."""
    found, due = [], [(word, kind)]
    while due:
        word, kind = due.pop()
        if kind in ('int', 'bool'):
            if kind == 'bool' and word > 1:
                return None
            continue
        inline = kind != '<>' and word >= machine.INLINE
        if not inline and (word >= len(cells) or word in taken):
            return None
        if not inline:
            taken.add(word)
        if kind == '<>':
            continue
        con = word - machine.INLINE if inline else cells[word][0]
        if con >= len(cons) or cons[con][0] != kind or cons[con][2].inline != inline:
            return None
        found.append(con)
        if not inline:
            due += zip(cells[word][1:], cons[con][2].fields)
    return found

# **Free cells.**
def free_cells(image, taken):
    """How many cells the free list has. None is a cell of a value, in `taken`."""
    found, at = set(), image.free
    while at != machine.NO_CELL:
        cell = image.cells[at] if at < len(image.cells) else None
        if at in taken or at in found or cell is None or cell != machine.free_cell(cell[1]):
            raise Refused('free at %d' % at)
        found.add(at)
        at = cell[1]
    return len(found)

# **What frames ask for.**
def asked(code, certificate, frames, values):
    """The units that all frames ask for together."""
    total = 0
    for f, (func, block, place, live) in enumerate(frames):
        left, carried = held(code, certificate, func, block, place)
        total += sum(carried.get(x, {}).get(con, 0) for x, _ in live for con in values[f, x])
        if f + 1 < len(frames):
            called = certificate.functions[code.funcs[func].blocks[block].lets[place - 1][1][1]]
            total += max(0, left - called.need)
            total += max(0, called.back - certificate.functions[frames[f + 1].func].back)
        else:
            total += left
    return total

def held(code, certificate, f, block, place):
    """What is left at a place, and what each local carries there."""
    rules, said, func = certificates.Rules(code, certificate), certificate.functions[f], code.funcs[f]
    rules.func, rules.kinds, rules.mine = func, grail.kinds_of(func), said
    rules.left, carried = said.blocks[block] if block > 0 else (said.need, said.params)
    rules.carried = dict(carried)
    for number, let in enumerate(func.blocks[block].lets[:place - 1], 1):
        list(rules.let((f, block, number), *let))
    return rules.left, rules.carried
