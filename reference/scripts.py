"""Scripts, reports and statuses: docs/SCRIPTS.md, section by section."""
import re
from bisect import insort
from collections import Counter, namedtuple
from functools import lru_cache

import certificates
import compiler
import grail
import images
import inference
import language
import machine
from certificates import size
from deep import run
from refusals import Refused

# ## A script
Script = namedtuple('Script', 'arena workers entries')
ProgramEntry = namedtuple('ProgramEntry', 'name camelot text')      # camelot: a truth value
Job = namedtuple('Job', 'name program entry fuel args')
ARENA, WORKERS, FUEL, NODES, ENTRIES = 4194304, 16, 2 ** 40, 65536, {'program': 64, 'job': 4096}

# ### Grammar
NUMBER, NAME = b'(0|[1-9][0-9]*)', b'([A-Za-z][A-Za-z0-9_]{0,63})'
ARENA_LINE = re.compile(b'arena ' + NUMBER)
WORKERS_LINE = re.compile(b'workers ' + NUMBER)
PROGRAM_LINE = re.compile(b'(program) ' + NAME + b' (camelot|grail)')
LOWER = b'([a-z][A-Za-z0-9_]{0,63})'
JOB_LINE = re.compile(b'(job) ' + b' '.join([NAME, NAME, LOWER, NUMBER]) + b'(?: (.+))?', re.DOTALL)

def ask(good, at, cause):
    if not good:
        raise Refused('script line %d %s' % (at + 1, cause))

def read_script(text):
    """The script with this text; else its first wrong line."""
    lines = text.split(b'\n')                   # the last one has no line feed
    arena = limited(line(lines, 0, ARENA_LINE)[1], ARENA, 0)
    workers = limited(line(lines, 1, WORKERS_LINE)[1], WORKERS, 1)
    entries, names, at = [], {'program': set(), 'job': set()}, 2
    while at < len(lines) - 1 or lines[at]:
        found = line(lines, at, PROGRAM_LINE, JOB_LINE)
        what, name = found[1].decode(), found[2].decode()
        fuel = limited(found[5], FUEL, at) if what == 'job' else 0
        ask(len(names[what]) < ENTRIES[what], at, 'count')
        ask(name not in names[what], at, 'repeat')
        names[what].add(name)
        if what == 'job':
            entries.append(Job(name, found[3].decode(), found[4].decode(), fuel, found[6] or b''))
        else:
            at, body = program_body(lines, at)
            entries.append(ProgramEntry(name, found[3] == b'camelot', body))
        at += 1
    return Script(arena, workers, entries)

def program_body(lines, at):
    """The line that ends the program behind this one, and the text between them."""
    end = lines.index(b'.', at + 1, -1) if b'.' in lines[at + 1:-1] else len(lines) - 1
    ask(end < len(lines) - 1, end, 'line')
    return end, b''.join(each + b'\n' for each in lines[at + 1:end])

def line(lines, at, *forms):
    ask(at < len(lines) - 1, at, 'line')
    found = next(filter(None, (form.fullmatch(lines[at]) for form in forms)), None)
    ask(found, at, 'line')
    return found

def limited(digits, limit, at):
    """A number from 1 to its limit."""
    ask(digits != b'0' and size(digits) <= size(b'%d' % limit), at, 'count')
    return int(digits)

# ### Arguments
INT_FRONT = re.compile(rb'-?(?:0|[1-9][0-9]{0,9})?')
WORD = re.compile(rb'[^ (),]*')
SPACES = re.compile(rb' *')

def with_values(types):
    """The types that have a value."""
    found, more = {'int', 'bool', '<>'}, True
    while more:
        more = {t for t, typedef in enumerate(types) if t not in found
                and any(found.issuperset(con.fields) for con in typedef.cons)}
        found |= more
    return found

class Values:
    """The values of these kinds that a text has; a text that is no list of such is refused where none goes on so."""

    def __init__(self, types, kinds, text):
        self.text, self.at, self.nodes = text, 0, 0
        found = with_values(types)
        if not found.issuperset(kinds):
            self.bad(0)
        self.words = {'int': {}, 'bool': {b'true': True, b'false': False}, '<>': {b'<>': '<>'}}
        for c, (t, _, con) in enumerate(grail.constructors(types)):
            if found.issuperset(con.fields):
                self.words.setdefault(t, {})[con.name.encode()] = c, con.fields
        self.values = run(self.all(kinds))

    def bad(self, at):
        raise Refused('argument at %d' % at)

    def spaces(self):
        self.at = SPACES.match(self.text, self.at).end()

    def byte(self, good):
        """A byte that has to be this one."""
        if self.text[self.at:self.at + 1] != good:
            self.bad(self.at)
        self.at += 1

    def all(self, kinds):
        values = []
        for kind in kinds:
            end = self.at
            self.spaces()
            if values and self.at == end:
                self.bad(end)
            values.append((yield self.value(kind)))
        self.spaces()
        if self.at < len(self.text):
            self.bad(self.at)
        return values

    def value(self, kind):
        word = self.word(kind)
        if type(word) is not tuple:
            return word
        con, fields = word
        parts = []
        for field in fields:
            self.spaces()
            self.byte(b',' if parts else b'(')
            self.spaces()
            parts.append((yield self.value(field)))
        if fields:
            self.spaces()
            self.byte(b')')
        return (con, *parts)

    def word(self, kind):
        """An int, a truth value, a diamond, or (constructor, its fields)."""
        word = WORD.match(self.text, self.at).group()
        self.nodes += 1
        if kind == 'int':
            front = INT_FRONT.match(word).group()
            if front[-1:].isdigit() and not -2 ** 31 <= int(front) < 2 ** 31:
                front = front[:-1]
            if front == word and word[-1:].isdigit():
                self.at += len(word)
                return int(word)
            self.bad(self.at + len(front))
        words = self.words[kind]
        if word not in words:
            self.bad(self.at + max(common(word, other) for other in words))
        self.at += len(word)
        return words[word]

def common(word, other):
    """The length of the longest front that both have."""
    return next((i for i, (a, b) in enumerate(zip(word, other)) if a != b), min(len(word), len(other)))

def value_text(value, names):
    """A value without spaces; names are those of the constructors."""
    told, due = [], [value]
    while due:
        value = due.pop()
        if type(value) is bool:
            told.append('true' if value else 'false')
        elif type(value) is not tuple:
            told.append(str(value))
        else:
            told.append(names[value[0]])
            if len(value) > 1:
                due.append(')')
                due += [each for part in reversed(value[2:]) for each in (part, ',')] + [value[1], '(']
    return ''.join(told)

# ## The report
BOTH = False            # whether short runs are compared with those of the code, and of the machine on cells

class Program:
    """A program that is accepted, by the text of its entry: code, certificate, and what a call means."""

    def __init__(self, camelot, text):
        self.source = None
        if not camelot:
            self.code, self.certificate = certificates.licence(text)
        else:
            self.source = language.front(text)
            self.code = compiler.code_of(self.source)
            self.certificate = inference.infer(self.code)
            if BOTH:
                self.verified()
        self.names = grail.names_of(self.code.types)
        self.functions = {func.name: f for f, func in enumerate(self.code.funcs)}

    def verified(self):
        bundle = certificates.bundle_text(grail.encode(self.code), certificates.certificate_text(self.certificate))
        assert certificates.licence(bundle) == (self.code, self.certificate)

    def run(self, function, values, fuel, lease):
        if self.source is None:
            outcome = grail.meaning(self.code, function, values, fuel)
        else:
            outcome = language.meaning(self.source, function, values, fuel)
        if BOTH and (outcome[2] if outcome[0] == 'done' else fuel) <= 2000 and lease <= 2000:
            told = self.told(outcome)
            assert told == self.told(grail.meaning(self.code, function, values, fuel))
            assert told == self.told(machine.Machine(self.code, fuel, lease).ending(function, values))
        return outcome

    def told(self, outcome):
        """An outcome with its value as a text, since Python compares tuples by recursion."""
        return (value_text(outcome[1], self.names), *outcome[2:]) if outcome[0] == 'done' else outcome

# **Why a job is refused.**
class Call:
    """What a job asks for; else why it is refused. A program that is refused is None."""

    def __init__(self, job, programs):
        if job.program not in programs:
            raise Refused('no-program')
        self.program, self.fuel = programs[job.program], job.fuel
        if self.program is None:
            raise Refused('program-refused')
        if job.entry not in self.program.functions:
            raise Refused('no-entry')
        self.function, code = self.program.functions[job.entry], self.program.code
        read = Values(code.types, [kind for kind, _ in code.funcs[self.function].params], job.args)
        if read.nodes > NODES:
            raise Refused('long items %d' % read.nodes)
        self.values = read.values
        self.lease = certificates.lease(code, self.program.certificate, self.function, self.values)

    def end(self):
        """What is told of its run behind the job's name."""
        end, *counts = self.program.run(self.function, self.values, self.fuel, self.lease)
        if end == 'done':
            told = 'done %s calls %d peak %d' % (value_text(counts[0], self.program.names), *counts[1:3])
        else:
            told = '%s peak %d' % ('fuel %d' % self.fuel if end == 'fuel' else end, counts[0])
        return '%s bound %d' % (told, certificates.bound(self.program.certificate, self.function, self.values))

def job_end(job, programs, arena):
    """What is told of a job behind its name, and the size of its lease or None."""
    try:
        call = Call(job, programs)
    except Refused as refused:
        return 'refused %s' % refused, None
    if call.lease > arena:
        return 'too-large needs %d arena %d' % (call.lease, arena), None
    return call.end(), call.lease

def programs_of(entries):
    """The programs by their names, and their lines."""
    programs, lines = {}, []
    for entry in entries:
        if type(entry) is ProgramEntry:
            try:
                programs[entry.name] = Program(entry.camelot, entry.text)
                told = 'accepted unit %d' % programs[entry.name].certificate.unit
            except Refused as refused:
                programs[entry.name] = None
                told = 'refused %s' % refused
            lines.append('program %s %s' % (entry.name, told))
    return programs, lines

def served(script):
    """The lines of programs and jobs, and the leases as (job's name, size)."""
    programs, lines = programs_of(script.entries)
    leases = []
    for entry in script.entries:
        if type(entry) is Job:
            told, lease = job_end(entry, programs, script.arena)
            lines.append('job %s %s' % (entry.name, told))
            leases += [(entry.name, lease)] if lease else []
    return lines, leases

def slices_of(script, steps):
    """In how many slices of so many steps all jobs run that run. Pauses change nothing, and aren't made."""
    programs, number = programs_of(script.entries)[0], 0
    for entry in script.entries:
        if type(entry) is Job:
            try:
                call = Call(entry, programs)
            except Refused:
                continue
            if call.lease <= script.arena:
                run = images.loaded(call.program.code, call.function, call.values, call.fuel, call.lease)
                number += 1
                while run.slice(steps) is None:
                    number += 1
    return number

def sliced(script, steps):
    lines = served(script)[0] + ['slices %d' % slices_of(script, steps), 'end free %d' % script.arena]
    return ''.join(each + '\n' for each in lines).encode()

def report(script):
    """The report with the journal of one worker."""
    lines, leases = served(script)
    for name, lease in leases:
        lines += ['took %s first 0 size %d' % (name, lease), 'gave %s first 0 size %d' % (name, lease)]
    return ''.join(each + '\n' for each in lines + ['end free %d' % script.arena]).encode()

# ## Leases and the journal
class Desk:
    """The holes of an arena as (first, size), the leases that are out, and the jobs that wait. An event is
    (word, job, first, size), or ('full', job, need, largest)."""

    def __init__(self, arena, sizes):
        self.sizes, self.asked, self.holes = sizes, 0, [(0, arena)]
        self.leases, self.waiting, self.journal = {}, [], []

    def next(self):
        """The event by which a job is asked for, or one that waits is taken; None where no job is due."""
        if self.asked == len(self.sizes) and (self.leases or not self.waiting):
            return None
        job = self.asked if self.asked < len(self.sizes) else self.waiting[0]
        need = self.sizes[job]
        first = next((first for first, length in self.holes if length >= need), None)
        return ('full', job, need, self.largest()) if first is None else ('took', job, first, need)

    def largest(self):
        return max((length for _, length in self.holes), default=0)

    def is_over(self):
        return self.asked == len(self.sizes) and not self.leases and not self.waiting

    def follow(self, event):
        """Whether the event may come now; if so it does."""
        word, job, first, length = event
        if event != (self.next() if word != 'gave' else ('gave', job, *self.leases.get(job, (None, None)))):
            return False
        self.journal.append(event)
        if word == 'gave':
            del self.leases[job]
            self.fill(first, length)
            return True
        if self.asked < len(self.sizes):
            self.asked += 1
        else:
            self.waiting.pop(0)
        if word == 'full':
            self.waiting.append(job)
        else:
            self.cut(first, length)
            self.leases[job] = first, length
        return True

    # **How leases are cut.**
    def cut(self, first, length):
        place = next(i for i, hole in enumerate(self.holes) if hole[0] == first)
        left = first + length, self.holes[place][1] - length
        self.holes[place:place + 1] = [left] if left[1] else []

    # **How holes merge.**
    def fill(self, first, length):
        for hole in list(self.holes):
            if hole[0] + hole[1] == first or first + length == hole[0]:
                self.holes.remove(hole)
                first, length = min(first, hole[0]), length + hole[1]
        insort(self.holes, (first, length))

# **Legal journals.**
def journal_fault(lines, leases, arena, workers):
    """Why these lines are no journal of such leases, or None.

    A worker asks for a job once its own lease is back and the job fits, so that no line is `full`.
    """
    desk, numbers = Desk(arena, [lease for _, lease in leases]), {name: i for i, (name, _) in enumerate(leases)}
    for each in lines:
        found = re.fullmatch(r'(took|gave) (\w+) first (0|[1-9][0-9]*) size ([1-9][0-9]*)', each, re.ASCII)
        if not found or found[2] not in numbers:
            return 'no line of this journal: ' + each
        if not desk.follow((found[1], numbers[found[2]], int(found[3]), int(found[4]))) or len(desk.leases) > workers:
            return 'not legal: ' + each
    return None if desk.is_over() else 'the journal ends too early'

# ## What is refused
#
# See read_script, in which `ask` refuses.

# ## A large script
DRILL = b'''type ilist = !Nil | Cons of int * ilist
let double l = match l with Nil -> Nil | Cons(h, t)@_ -> let r = double t in Cons(h, Cons(h, r)) end
'''

def drill(jobs):
    """No list is too large for the arena. Jobs of one length and one fuel end alike, and are run once."""
    program, ends, calls, peaks = Program(True, DRILL), Counter(), 0, 0

    @lru_cache(maxsize=None)
    def outcome(length, fuel):
        items = (0,)
        for item in range(length, 0, -1):
            items = (1, item, items)
        return program.run(0, [items], fuel, 2 * length)
    for job in range(1, jobs + 1):
        end, *counts = outcome(37 * job % 1000, 5 if job % 100 == 0 else 2000)
        ends[end] += 1
        calls += counts[1] if end == 'done' else 0
        peaks += counts[2] if end == 'done' else counts[0]
    told = ''.join('%s %d ' % (end, ends[end]) for end in ('done', 'fuel', 'deep', 'too-large', 'refused'))
    return b'drill %d %scalls %d peaks %d free 4096\n' % (jobs, told.encode(), calls, peaks)

# ## The statuses
#
# See commands.py.
