"""Scripts of tenants: docs/TENANTS.md, section by section."""
import re
from collections import namedtuple

import scripts
from refusals import Refused
from scripts import ARENA, ARENA_LINE, ENTRIES, FUEL, LOWER, NAME, NUMBER, PROGRAM_LINE, ask, limited, line

# ## A script of tenants
TenantScript = namedtuple('TenantScript', 'arena budgets entries')      # budgets: by the tenants' names
Start = namedtuple('Start', 'tenant name program entry fuel args')
Finish = namedtuple('Finish', 'tenant name')
TENANTS, STARTS, FINISHES = 64, 4096, 4096

# ### Grammar
TENANT_LINE = re.compile(b'(tenant) ' + NAME + b' ' + NUMBER)
START_LINE = re.compile(b'(start) ' + b' '.join([NAME, NAME, NAME, LOWER, NUMBER]) + b'(?: (.+))?', re.DOTALL)
FINISH_LINE = re.compile(b'(finish) ' + NAME + b' ' + NAME)

# ### What is refused
def read_tenants(text):
    """The script with this text; else its first wrong line."""
    lines = text.split(b'\n')                   # the last one has no line feed
    arena = limited(line(lines, 0, ARENA_LINE)[1], ARENA, 0)
    budgets, entries, programs, counts, at = {}, [], set(), {'start': 0, 'finish': 0}, 1
    head = line(lines, 1, TENANT_LINE)
    while head:
        ask(len(budgets) < TENANTS, at, 'count')
        cells = limited(head[3], ARENA, at)
        ask(sum(budgets.values()) + cells <= arena, at, 'count')
        ask(head[2].decode() not in budgets, at, 'repeat')
        budgets[head[2].decode()] = cells
        at += 1
        head = TENANT_LINE.fullmatch(lines[at]) if at < len(lines) - 1 else None
    while at < len(lines) - 1 or lines[at]:
        found = line(lines, at, PROGRAM_LINE, START_LINE, FINISH_LINE)
        what, first = found[1].decode(), found[2].decode()
        if what == 'program':
            ask(len(programs) < ENTRIES['program'], at, 'count')
            ask(first not in programs, at, 'repeat')
            programs.add(first)
            camelot = found[3] == b'camelot'
            at, body = scripts.program_body(lines, at)
            entries.append(scripts.ProgramEntry(first, camelot, body))
        else:
            fuel = limited(found[6], FUEL, at) if what == 'start' else 0
            counts[what] += 1
            ask(counts[what] <= {'start': STARTS, 'finish': FINISHES}[what], at, 'count')
            ask(first in budgets, at, 'tenant')
            name = found[3].decode()
            if what == 'start':
                entries.append(Start(first, name, found[4].decode(), found[5].decode(), fuel, found[7] or b''))
            else:
                entries.append(Finish(first, name))
        at += 1
    return TenantScript(arena, budgets, entries)

# ## The replies
class Tenant:
    """What one tenant has: the holes of its piece, and the jobs that it holds as (call, first)."""

    def __init__(self, budget):
        self.budget, self.desk, self.jobs = budget, scripts.Desk(budget, []), {}

    def held(self):
        return sum(call.lease for call, _ in self.jobs.values())

    # ### To a start
    def start(self, job, programs):
        if job.name in self.jobs:
            return 'held', ''
        try:
            call = scripts.Call(job, programs)
        except Refused as refused:
            return 'refused', ' %s' % refused
        if self.held() + call.lease > self.budget:
            return 'over', ' held %d size %d budget %d' % (self.held(), call.lease, self.budget)
        first = next((first for first, length in self.desk.holes if length >= call.lease), None)
        if first is None:
            return 'full', ' need %d largest %d' % (call.lease, self.desk.largest())
        self.desk.cut(first, call.lease)
        self.jobs[job.name] = call, first
        return 'started', ' first %d size %d' % (first, call.lease)

    # ### To a finish
    def finish(self, job):
        if job.name not in self.jobs:
            return 'absent', ''
        call, first = self.jobs.pop(job.name)
        self.desk.fill(first, call.lease)
        return 'finished', ' ' + call.end()

# ### Lines at the end
def replies(script):
    programs, lines = scripts.programs_of(script.entries)
    tenants = {name: Tenant(budget) for name, budget in script.budgets.items()}
    for entry in script.entries:
        if type(entry) is Start:
            word, told = tenants[entry.tenant].start(entry, programs)
        elif type(entry) is Finish:
            word, told = tenants[entry.tenant].finish(entry)
        else:
            continue
        lines.append('%s %s %s%s' % (word, entry.tenant, entry.name, told))
    lines += ['end tenant %s free %d' % (name, tenant.budget - tenant.held()) for name, tenant in tenants.items()]
    return ''.join(each + '\n' for each in lines).encode()

def tenants(text):
    return replies(read_tenants(text))
