"""Inputs of the program by families: one is made by its family and its number, and by the examples, alone."""
import collections
import re

import generate_codes
import generate_scripts
import generate_sources
import generate_tenants
from generate_draw import Draw

# Images of paused jobs will be a family; type parameters belong into generate_sources.Writer.
FAMILIES = {                            # the command, and what makes an input
    'sources': ('compile', generate_sources.source),
    'codes': ('verify', generate_codes.code),
    'certificates': ('verify', generate_codes.certificate),
    'bundles': (None, generate_codes.text),                     # verify and migrate
    'migrate': ('migrate', generate_codes.foreign),
    'arguments': ('serve', generate_scripts.arguments),
    'scripts': ('serve', generate_scripts.script),
    'faults': ('serve', generate_scripts.script),               # scripts whose reports are altered by tools/compare
    'tenants': ('tenants', generate_tenants.script),
    'drills': (None, generate_scripts.drill),
}

def input_of(family, number):
    """The words and the bytes of an input."""
    draw, (command, make) = Draw('%s %d' % (family, number)), FAMILIES[family]
    if family == 'drills':
        return make(draw), b''
    return [command or draw.choice(['verify', 'verify', 'migrate'])], make(draw)

# Kinds of answers.
def kind_of_cause(words):
    """A cause without its names and numbers."""
    two = words[0] in ('code', 'too-many') or words[:2] == ['certificate', 'number']
    return 'script ' + words[-1] if words[0] == 'script' else ' '.join(words[:1 + two])

def kind_of_line(words):
    """The kind of a report's line, or ''."""
    if words[:1] == ['program']:
        return 'program accepted' if words[2] == 'accepted' else kind_of_cause(words[3:])
    return 'job ' + ' '.join(words[2:3 + (words[2] == 'refused')]) if words[:1] == ['job'] else ''

def kind_of_reply(words):
    """The kind of a line that tenants are told, or ''."""
    if words[:1] in ([], ['program']):
        return kind_of_line(words)
    return 'tenant ' + ' '.join(words[:1] + words[3:4] * (words[0] in ('refused', 'finished')))

def kinds_of(words, status, output):
    """The kinds of an answer: of a report those of its lines, each once."""
    told = output.decode('latin-1')
    if status or words not in (['serve'], ['tenants']):
        done = 'status %d' % status if status else 'done ' + words[0]
        return [kind_of_cause(told.split()[1:]) if status == 3 else done]
    kind_of = kind_of_line if words == ['serve'] else kind_of_reply
    return sorted({kind_of(line.split()) for line in told.split('\n')} - {''})

# The family that has to meet the causes of a section of docs/REFUSALS.md; those of HOMES are another one's.
SECTIONS = {'Scripts': 'scripts', 'Jobs': 'scripts', 'Bundles': 'certificates', **dict.fromkeys(
    ('Tokens', 'Grammar', 'Types', 'The rule of use', 'Size of code', 'Certificates'), 'sources')}
HOMES = {'code': 'codes', 'bundle': 'bundles', 'job refused argument': 'arguments', 'job refused long': 'arguments'}
STATUSES = {'drills': ['done drill', 'status 2'], 'scripts': ['status 6'], 'tenants': [
    'script line', 'script count', 'script repeat', 'script tenant', 'tenant end'] + ['tenant ' + reply for reply in (
        'held', 'refused no-program', 'refused program-refused', 'refused no-entry', 'refused argument', 'over', 'full',
        'started', 'absent', 'finished done', 'finished fuel', 'finished trap')]}

def wanted(family):
    """The kinds that a family has to meet."""
    kinds = list(STATUSES.get(family, []))
    for section in (generate_sources.TOP / 'docs/REFUSALS.md').read_text().split('\n## '):
        for line in re.findall(r'^\| `(?:refused (?=script))?([^`]*)`', section, re.MULTILINE):
            kind = kind_of_line(line.split()) or kind_of_cause(line.split())
            home = HOMES.get(kind) or HOMES.get(kind.split()[0]) or SECTIONS.get(section.split('\n')[0])
            kinds += [kind] if home == family else []
    return kinds

class Tally:
    """How often each kind of answer came, in so many inputs."""

    def __init__(self, family):
        self.family, self.inputs, self.kinds = family, 0, collections.Counter()

    def add(self, kinds):
        self.inputs += 1
        self.kinds.update(kinds)

    def lines(self):
        told = ['%s: %d inputs' % (self.family, self.inputs)]
        told += ['%8d %s' % (count, kind) for kind, count in self.kinds.most_common()]
        missing = [kind for kind in wanted(self.family) if not self.kinds[kind]]
        return told + ['missing: ' + ', '.join(missing)] if missing else told
