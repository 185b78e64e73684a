"""The tables of the conformance suite: docs/CASES.md, section by section."""
import re
from itertools import groupby

import certificates
import commands
import compiler
import grail
import images
import inference
import language
import machine
import scripts
from deep import run
from refusals import Refused

# ## Tables of `crates/`
def answers(text):
    """What is printed for the lines of a table, the first of which is `table NAME`."""
    first, *lines = text.decode('latin-1').split('\n')[:-1]
    lines = [line for line in lines if not line.startswith('--')]
    name = first[len('table '):]
    if name == 'bundles' and lines[0].startswith('== '):
        name += ' of cases'                         # there are two tables `bundles`
    told = TABLES[name](lines) if name in TABLES else told_lines(name, lines)
    return ''.join(line + '\n' for line in [first] + told).encode('latin-1')

def tried(function, *parts):
    """What a function gives, or the cause why it refuses."""
    try:
        return function(*parts)
    except Refused as refused:
        return refused.cause

# ### `cases_camelot`
def texts_of(lines):
    """Each case: the words of its line, and its text."""
    found = []
    for line in lines:
        if line.startswith('== '):
            found.append((line[3:], []))
        elif line.startswith('%'):
            times, pattern = line[1:].split(' ', 1)
            found[-1][1].extend(pattern.replace('#', '%02d' % number) for number in range(int(times)))
        else:
            found[-1][1].append(line)
    return [(head, '\n'.join(source).encode('latin-1')) for head, source in found]

def told_cases(lines):
    """The tables `texts` and `compiled`."""
    told = []
    for head, source in texts_of(lines):
        command, name = head.split(' ', 1)
        answer = tried(COMMANDS[command], source, name)
        first, *rest = [answer] if type(answer) is str else answer
        told += [(name + ': ' + first).rstrip()] + ['  ' + line for line in rest]
    return told

def told_bundles(lines):
    told = []
    for head, source in texts_of(lines):
        bundle = tried(commands.compiled, source)
        lines = ['refused ' + bundle] if type(bundle) is str else bundle.decode().split('\n')[:-1]
        told += ['== ' + head] + lines
    return told

def told_tokens(source, _):
    tokens = language.tokens_of(source)
    places = ['%s %d to %d line %d' % (token.kind, token.start, token.end, token.line) for token in tokens]
    return ['%d tokens' % len(tokens)] + places

def told_tree(source, _):
    program = language.parsed(source)
    types = ['type ' + ' | '.join([at(declared.name)] + [told_con(con) for con in declared.cons])
             for declared in program.types]
    return [''] + types + ['let ' + told_function(declared) for declared in program.declared]

def at(name):
    """A name; an atom or a field may be a token that is none."""
    return '%s#%d' % (name.text, name.line) if name.kind in ('Lower', 'Upper') else name.text

def told_con(con):
    return ' '.join([('!' if con.inline else '') + at(con.name)] + [at(field) for field in con.fields])

def told_function(declared):
    params = [('read ' if param.read else '') + at(param.name) + (': ' + at(param.type) if param.type else '')
              for param in declared.params]
    result = ' -> ' + at(declared.result) if declared.result else ''
    return ' '.join([at(declared.name)] + params) + result + ' = ' + run(told_expression(declared.body))

def told_expression(tree):
    parts, form, line = [], type(tree), '#%d' % tree.line
    for part in parts_of(tree):
        parts.append((yield told_expression(part)))
    if form is language.Literal:
        return str(tree.literal).lower() + line
    if form is language.Variable:
        return at(tree.name)
    if form is language.Call:
        return at(tree.name) + ''.join('(%s)' % part for part in parts)
    if form is language.Build:
        return at(tree.name) + ''.join('[%s]' % part for part in parts) + ('@' + at(tree.cell) if tree.cell else '')
    if form is language.Match:
        arms = ['| %s -> %s' % (told_arm(arm), body) for arm, body in zip(tree.arms, parts[1:])]
        return '(%s)' % ' '.join(['match' + line, parts[0]] + arms)
    word = 'let ' + at(tree.name) if form is language.Let else ('if' if form is language.If else tree.sign) + line
    return '(%s)' % ' '.join([word] + parts)

def told_arm(arm):
    return ' '.join(map(at, [arm.con] + arm.fields)) + (' @' + at(arm.cell) if arm.cell else '')

def parts_of(tree):
    """The expressions of which an expression is made, in text order."""
    if isinstance(tree, language.Match):
        return [tree.scrutinee] + [arm.body for arm in tree.arms]
    if isinstance(tree, (language.Call, language.Build)):
        return tree.arguments
    begin = {language.Operation: 2, language.If: 1, language.Let: 2}.get(type(tree), len(tree))
    return list(tree[begin:])

def told_check(source, _):
    program = language.front(source)
    return ['accepted'] + [told_header(header, program.written) for header in program.functions]

def told_header(header, written, mark=''):
    params = [(mark if read else '') + written(kind) for kind, read in header.params]
    return '%s: %s -> %s' % (header.name, ' '.join(params), written(header.result))

def told_kinds(source, _):
    program = language.front(source)
    kinds = [map(program.written, run(kinds_of(program, declared.body))) for declared in program.declared]
    return ['accepted'] + [told_header(header, program.written) + ' | ' + ' '.join(of_body)
                           for header, of_body in zip(program.functions, kinds)]

def kinds_of(program, tree):
    kinds = []
    for part in parts_of(tree):
        kinds += yield kinds_of(program, part)
    return kinds + [program.kind(tree)]

def told_code(source, _):
    code = compiler.code_of(language.front(source))
    def written(kind):
        return 'type%d' % kind if isinstance(kind, int) else kind
    told = ['']
    for func in code.funcs:
        told.append(' '.join([told_header(func, written, 'read '), '|'] + [written(kind) for kind in func.locals]))
        told += ['  %d %s %s' % (number, told_list(block.params), '; '.join(
            ['%d = %s' % (local, told_op(op)) for local, op in block.lets] + [told_op(block.term)]))
            for number, block in enumerate(func.blocks)]
    return told + ['bytes ' + grail.encode(code).hex()]

def told_list(locals):
    return '(%s)' % ' '.join(map(str, locals))

def told_op(op):
    """A let or an end."""
    name, *parts = op
    if name == 'prim':
        return '%s %d %d' % tuple(parts)
    if name == 'if':
        return 'if %d to %d else %d' % tuple(parts)
    if name == 'case':
        arms = ['%s %s to %d' % (told_list(fields), told_place(cell), block) for fields, cell, block in parts[1]]
        return ' | '.join(['case %d' % parts[0]] + arms)
    return ' '.join([name] + [told_list(part) if isinstance(part, list) else told_place(part) for part in parts])

def told_place(place):
    """A place or a cell, or a number or a truth value."""
    return '%s %d' % place if isinstance(place, tuple) else str(place).lower()

def told_bytes(source, _):
    return [grail.encode(compiler.code_of(language.front(source))).hex()]

def told_size(source, _):
    funcs = compiler.code_of(language.front(source)).funcs
    return ['; '.join('%s %d locals %d blocks' % (func.name, len(func.locals), len(func.blocks)) for func in funcs)]

def told_run(source, words):
    """The run of the code, which has to be that of the source."""
    program = language.front(source)
    name, fuel, *args = words.split()
    run_of = program.numbers[name], [int(arg) for arg in args], int(fuel)
    outcome = grail.meaning(compiler.code_of(program), *run_of)
    assert outcome == language.meaning(program, *run_of)
    if outcome[0] == 'done':
        return ['done Int(%d) calls %d peak %d net %d' % outcome[1:]]
    return ['fuel calls %s peak %d' % (fuel, outcome[1]) if outcome[0] == 'fuel' else '%s peak %d' % outcome]

COMMANDS = {'tokens': told_tokens, 'tree': told_tree, 'check': told_check, 'kinds': told_kinds,
            'code': told_code, 'bytes': told_bytes, 'size': told_size, 'run': told_run}

# ### `cases_grail` and `cases_cells`
class Said:
    """What lines say that are no commands. The lines that go on are those of `open`."""

    def __init__(self):
        self.codes, self.certs, self.text, self.types, self.systems = {}, {}, [], [], []
        self.kinds, self.desk, self.tenants, self.open = [], None, None, []
        self.reader = None              # of texts, where it isn't the table's

    def says(self, word, rest):
        if word in ('code', 'cert'):
            self.open = (self.codes if word == 'code' else self.certs)[rest] = []
        elif word == 'text':
            self.open = self.text = []
        elif word in ('programs', 'jobs'):
            line = 'program p%d grail\n.' if word == 'programs' else 'job j%d p f 1'
            self.text += [line % number for number in range(1, int(rest) + 1)]
        elif word == 'types':
            self.types = []
        elif word == 'type':
            self.types.append(grail.TypeDef(rest, []))
        else:
            self.part(word, *rest.split())

    def part(self, word, first, *others):
        """A constructor, or something of a system."""
        if word in ('inline', 'con'):
            self.types[-1].cons.append(grail.Con(first, word == 'inline', kinds_named(others)))
        elif word == 'system':
            self.systems.append((first, list(map(int, others)), []))
        elif word == 'row':
            self.systems[-1][2].append(([tuple(map(int, term.split(':'))) for term in others], int(first)))
        elif word == 'each':
            _, costs, rows = self.systems[-1]
            rows += [([(unknown, 1)], 1) for unknown in range(len(costs), len(costs) + int(first))]
            costs += [1] * int(first)

    def code_bytes(self, name, *edits):
        """The bytes of a code. Edits are made from the last to the first."""
        data = bytes.fromhex(''.join(self.codes[name]))
        for place, new in sorted(((int(edit.split('=')[0]), edit.split('=')[1]) for edit in edits), reverse=True):
            data = data[:place] + bytes.fromhex(new) + data[place + 1:]
        return data

    def read(self, text):
        """The values of the kinds, from a text and the bar behind it; or `bad B`, `long N`."""
        return values_of(self.types, self.kinds, text[:-1])

def kinds_named(words):
    return [{'int': 'int', 'bool': 'bool', 'dia': '<>'}[word] if word.isalpha() else int(word) for word in words]

def text_of(lines):
    """The text of these lines, with the bytes for which `{W*N}` and `{=N}` stand."""
    return filled(''.join(line + '\n' for line in lines))

def filled(text):
    def meant(match):
        return chr(int(match[1])) if match[1] else match[2] * int(match[3])
    return re.sub(r'\{(?:=(\d+)|([^{}]*)\*(\d+))\}', meant, text).encode('latin-1')

def told_lines(table, lines):
    said, told = Said(), []
    for line in lines:
        word, _, rest = line.partition(' ')
        if line[:1] in (' ', '|'):
            said.open.append(line[1:])
        elif word in LINES[table]:
            first, *below = LINES[table][word](said, rest).split('\n')
            told += [line + ':' + (' ' + first if first else '')] + below
        else:
            said.says(word, rest)
    return told

# The table `codes`.
def told_decode(said, rest):
    data = said.code_bytes(*rest.split())
    code = tried(grail.decode, data)
    if type(code) is str:
        return code
    first = 'code, and written ' + ('again' if grail.encode(code) == data else 'otherwise')
    return '\n  '.join([first, *map(debug_type, code.types), *map(debug_func, code.funcs)])

def told_short(said, rest):
    data = said.code_bytes(rest)
    short = [tried(grail.decode, data[:front]) == 'code short' for front in range(len(data))]
    return '%d of %d are short' % (sum(short), len(short))

def told_values(said, rest):
    data = said.code_bytes(rest)
    changed = ([data[:at] + bytes([value]) + data[at + 1:] for value in range(256)] for at in range(len(data)))
    return ' '.join(str(sum(map(is_spelling, each))) for each in changed)

def is_spelling(data):
    code = tried(grail.decode, data)
    return type(code) is grail.Code and grail.encode(code) == data

def told_find(said, rest):
    code, _, name = rest.partition(' ')
    names = [func.name for func in grail.decode(said.code_bytes(code)).funcs]
    return 'function %d' % names.index(name) if name in names else 'no such function'

def told_types(said, rest):
    types = grail.decode(said.code_bytes(rest)).types
    reach, names = certificates.Reach(types), grail.names_of(types)
    told = []
    for kind, typedef in enumerate(types):
        heap = ' heap' if grail.is_heap(types, kind) else ''
        told.append('\n  ' + typedef.name + heap + ':' + ''.join(' ' + names[con] for con in reach.of(kind)))
    return ''.join(told)

def told_well_formed(said, rest):
    code = tried(grail.decode, said.code_bytes(*rest.split()))
    return code if type(code) is str else (tried(grail.check, code) or 'code well formed')[len('code '):]

def told_meaning(said, rest):
    name, function, fuel, limit, *arguments = rest.split()
    code = grail.decode(said.code_bytes(name))
    end, *rest = grail.meaning(code, int(function), list(map(argument, arguments)), int(fuel), int(limit))
    if end == 'done':
        value = scripts.value_text(rest[0], grail.names_of(code.types)).replace(',', ', ')
        return 'done %s calls %d peak %d net %d' % (value, *rest[1:])
    calls = ' calls ' + fuel if end == 'fuel' else ''
    return end + calls + ''.join(' peak %d' % peak for peak in rest)

def argument(word):
    """An int, or a list of ints."""
    if not word.startswith('['):
        return int(word)
    value = (0,)
    for item in re.findall(r'-?\d+', word)[::-1]:
        value = 1, int(item), value
    return value

# Rust's `Debug` of a code, as far as the cases of `decode` have it.
def struct(name, /, **parts):
    return '%s { %s }' % (name, ', '.join('%s: %s' % part for part in parts.items()))

def listed(values):
    return '[%s]' % ', '.join(values)

def debug_name(name):
    return struct('Word', bytes=list(name.encode()))

def debug_kinds(kinds):
    return listed('Of(%d)' % kind if type(kind) is int else kind.capitalize() for kind in kinds)

def debug_type(typedef):
    cons = [struct('Con', name=debug_name(con.name), inline=str(con.inline).lower(), fields=debug_kinds(con.fields))
            for con in typedef.cons]
    return struct('TypeDef', name=debug_name(typedef.name), cons=listed(cons))

def debug_func(func):
    blocks = [struct('Block', params=block.params, lets=listed(struct('Let', target=target, op=debug_op(op))
                     for target, op in block.lets), term=debug_op(block.term)) for block in func.blocks]
    return struct('Func', name=debug_name(func.name), params=debug_kinds(kind for kind, _ in func.params),
                  reads=listed(str(mark).lower() for _, mark in func.params), result=debug_kinds([func.result])[1:-1],
                  locals=debug_kinds(func.locals), blocks=listed(blocks))

def debug_op(op):
    name, *parts = op
    if name == 'prim':
        return struct('Prim', op=parts[0].capitalize(), left=parts[1], right=parts[2])
    if name == 'make':
        return struct('Make', con=parts[0], args=parts[1], place=parts[2].capitalize())
    if name == 'call':
        return struct('Call', func=parts[0], args=parts[1])
    if name == 'case':
        return struct('Case', on=parts[0], arms=listed(
            struct('CaseArm', fields=fields, cell=cell.capitalize(), target=block) for fields, cell, block in parts[1]))
    return '%s(%s)' % (name.capitalize(), parts[0])

# The table `values`.
def told_kinds_of(said, rest):
    said.kinds = kinds_named(rest.split())
    return str(len(said.kinds))

def values_of(types, kinds, text):
    read = tried(scripts.Values, types, kinds, text.encode('latin-1'))
    if type(read) is str:
        return read.replace('argument at', 'bad')
    return read.values if read.nodes <= scripts.NODES else 'long %d' % read.nodes

def told_read(said, rest):
    values, names = said.read(rest[1:]), grail.names_of(said.types)
    if type(values) is str:
        return values
    return 'read' + ''.join(' [%s]' % scripts.value_text(value, names) for value in values)

def told_fronts(said, rest):
    answers = [said.read(rest[1:front]) for front in range(2, len(rest) + 1)]
    return ' '.join(answer.split()[1] if type(answer) is str else 'ok' for answer in answers)

def told_nest(said, rest):
    times, opening, middle, closing, _ = rest.split('|')
    values = said.read(opening * int(times) + middle + closing * int(times) + '|')
    if type(values) is str:
        return values
    nodes, cells = len(list(certificates.nodes(values[:1]))), certificates.cells(said.types, values[:1])
    printed = len(scripts.value_text(values[0], grail.names_of(said.types)))
    return 'values %d nodes %d cells %d bytes %d' % (len(values), nodes, cells, printed)

# The tables `bundles`, `certificates`, `images` and `scripts`.
def bundle_read(text):
    data, certificate = certificates.read_bundle(text)
    same = ' same' if certificates.bundle_text(data, certificate) == text else ''
    return 'code %d certificate %d%s' % (len(data), len(certificate), same)

def certificate_read(text):
    certificate = certificates.read_certificate(text)
    same = ' same' if certificates.certificate_text(certificate) == text else ''
    return 'unit %d functions %d%s' % (certificate.unit, len(certificate.functions), same)

def image_read(text):
    same = '' if images.image_text(images.read_image(text)) == text else ', and written otherwise'
    return 'image' + same

def script_read(text):
    script = scripts.read_script(text)
    entry, last = script.entries[-1] if script.entries else None, 'no entry'
    if type(entry) is scripts.Job:
        last = 'job %s %s %s %d %s' % (*entry[:4], quoted(entry.args))
    elif entry:
        last = 'program %s camelot %s %s' % (entry.name, str(entry.camelot).lower(), quoted(entry.text))
    return 'arena %d workers %d entries %d last %s' % (script.arena, script.workers, len(script.entries), last)

QUOTED = {10: '\\n', 13: '\\r', 9: '\\t', 39: "\\'", 34: '\\"', 92: '\\\\'}

def quoted(text):
    if len(text) > 60:
        return '%d bytes' % len(text)
    return "'%s'" % ''.join(QUOTED.get(byte, chr(byte) if 32 <= byte < 127 else '\\x%02x' % byte) for byte in text)

def told_text(reader, text):
    told = tried(reader, text)
    word, *others = told.split()
    if word == 'certificate':
        return others[0] + ' ' + others[-1]
    return others[-1] + ' ' + others[1] if word == 'script' else told

def text_commands(usual):
    """The commands of a table of texts, by their words."""
    def told(said, text):
        return told_text(said.reader or usual, text)

    def changed(replaced):
        def command(said, rest):
            number, bar, line = rest.partition('|')
            lines, at = list(said.text), int(number) - 1
            lines[at:at + replaced] = [line] if bar else []
            return told(said, text_of(lines))
        return command

    def fronts(said, _):
        text = text_of(said.text)
        answers = [told(said, text[:front]) for front in range(len(text) + 1)]
        return ', '.join('%s x %d' % (answer, len(list(same))) for answer, same in groupby(answers))
    return {'read': lambda said, _: told(said, text_of(said.text)),
            'ending': lambda said, rest: told(said, text_of(said.text) + filled(rest[1:])),
            'with': changed(1), 'without': changed(1), 'before': changed(0), 'fronts': fronts}

# The table `verdicts`.
def told_verdict(said, rest):
    front, _, change = rest.partition(' / ')
    code, cert, *edits = front.split()
    if code not in said.codes or cert not in said.certs:
        return 'no such code or certificate'
    lines = list(said.certs[cert])
    if change:
        number, bar, line = change.partition(' ')
        lines[int(number) - 1:int(number)] = line.split('|') if bar else []
    granted = tried(certificates.granted, said.code_bytes(code, *edits), text_of(lines))
    return granted if type(granted) is str else 'accepted unit %d' % granted[1].unit

# The table `systems`.
def told_systems(lines):
    said = Said()
    for line in lines:
        said.says(*line.split(' ', 1))
    return [name + ': ' + told_system(costs, rows) for name, costs, rows in said.systems]

def told_system(costs, rows):
    unknowns = [[unknown for unknown, _ in terms] for terms, _ in rows]
    placed = all(certificates.ascend(row) and max(row, default=-1) < len(costs) for row in unknowns)
    numbers = costs + [number for terms, least in rows for number in [least] + [factor for _, factor in terms]]
    if not placed or min(costs, default=0) < 0 or max(map(abs, numbers), default=0) > 2 ** 31:
        return 'not a proper system'
    end, *rest, pivots = inference.solve(costs, [(dict(terms), least) for terms, least in rows])
    if end == 'least':
        values, unit, prices, price_unit = rest
        end = ' '.join(map(str, ['least', *values, 'over', unit])) + ', '
        end += ' '.join(map(str, ['prices', *prices, 'over', price_unit]))
    elif end != 'spent':
        end = '%s at %d' % (end, rest[0] if rest else pivots)
    return '%s; pivots %d' % (end, pivots)

# The table `desks`.
class TaggedDesk(scripts.Desk):
    """A desk whose cells have tags, and which knows the jobs that were filed."""

    def __init__(self, arena, sizes):
        super().__init__(arena, sizes)
        self.tags, self.filed, self.lost = [0] * arena, [], 0

    def asked_next(self):
        event = self.next()
        if event is None:
            return 'over' if self.is_over() else 'leases are out'
        self.follow(event)
        return ('%d at %d size %d' if event[0] == 'took' else '%d waits for %d, largest %d') % event[1:]

    def marked(self, job, tag, cell=0):
        if job not in self.leases:
            return 'no lease'
        first, size = self.leases[job]
        if cell < size:
            self.tags[first + cell] = tag
        return ''

    def given(self, job, filed=True):
        if job not in self.leases:
            return 'no lease'
        self.follow(('gave', job, *self.leases[job]))
        if filed:
            self.filed.append(job)
        else:
            self.lost += 1
        return ''

    def withdrawn(self, job):
        return self.given(job, False)

    def counts(self):
        free = sum(size for _, size in self.holes)
        return 'free %d largest %d out %d withdrawn %d' % (free, self.largest(), len(self.leases), self.lost)

    def events(self):
        return ' '.join('%s %d %d %d,' % event for event in self.journal)

def on_desk(command):
    return lambda said, rest: command(said.desk, *map(int, rest.split())) if said.desk else 'no desk'

def told_desk(said, rest):
    arena, *sizes = map(int, rest.split())
    said.desk = TaggedDesk(arena, sizes) if arena and fit(arena, sizes) else None
    return '' if said.desk else 'no desk'

def told_finish(said, _):
    desk, said.desk = said.desk, None
    if desk is None:
        return 'no desk'
    return ' '.join(map(str, ['tags', *desk.tags])) + ', ' + ' '.join(map(str, ['filed', *sorted(desk.filed)]))

def fit(arena, sizes):
    return all(0 < size <= arena for size in sizes)

def told_replay(said, rest):
    numbers, _, events = rest.partition(': ')
    arena, *sizes = map(int, numbers.split())
    desk, legal = scripts.Desk(arena, sizes), fit(arena, sizes)
    for event in events.split(', ') if events else []:
        word, *numbers = event.split()
        if word not in ('took', 'full', 'gave'):
            return 'no events'
        legal = legal and desk.follow((word, *map(int, numbers)))
    holes = ''.join(' %d size %d,' % hole for hole in desk.holes)
    leases = ''.join(' %d at %d size %d,' % (job, *lease) for job, lease in sorted(desk.leases.items()))
    return 'holes%s leases%s' % (holes, leases) if legal else 'none'

# The tables `machines` and `licences`.
def arguments_of(code, function, text):
    return values_of(code.types, [kind for kind, _ in code.funcs[function].params], text[:-1])

def told_ending(code, outcome, value=True):
    end, *rest = outcome
    if end != 'done':
        return '%s peak %d' % outcome
    told = scripts.value_text(rest[0], grail.names_of(code.types)) + ' ' if value else ''
    return 'done %scalls %d peak %d' % (told, rest[1], rest[2])

def told_machine(said, rest, shown=False):
    words, _, text = rest.partition('|')
    name, *numbers = words.split()
    function, cells, fuel = map(int, numbers)
    code = grail.decode(said.code_bytes(name))
    values = arguments_of(code, function, text)
    if type(values) is str:
        return 'no such arguments'
    state = machine.Machine(code, fuel, cells)
    try:
        told = told_ending(code, state.ending(function, values))
    except grail.Stuck:
        return 'the cells may not be enough'
    return told + ''.join(' [%s]' % ' '.join(map(str, cell)) for cell in state.cells if shown)

def licence_command(answer):
    """A command of a licensed call, whose `answer` says what stands behind its bound and its lease."""
    def command(said, rest):
        words, _, text = rest.partition('|')
        name, cert, function, *others = words.split()
        licence = tried(certificates.granted, said.code_bytes(name), text_of(said.certs[cert]))
        if type(licence) is str:
            return licence
        if int(function) >= len(licence[0].funcs) or others[:1] == ['0']:
            return 'no such run'
        values = arguments_of(licence[0], int(function), text)
        return 'no such arguments' if type(values) is str else answer(*licence, int(function), values, *others)
    return command

def told_bound(code, certificate, *call):
    return 'bound %d lease %d' % (certificates.bound(certificate, *call), certificates.lease(code, certificate, *call))

def told_licensed(code, certificate, function, values, fuel, value=True):
    lease = certificates.lease(code, certificate, function, values)
    outcome = machine.Machine(code, int(fuel), lease).ending(function, values)
    return '%s %s' % (told_bound(code, certificate, function, values), told_ending(code, outcome, value))

def told_halt(*parts):
    return told_licensed(*parts, value=False)

def told_serve(code, certificate, function, values, fuel, copies, arena, workers, gate):
    if gate not in ('open', 'hold') and not gate.isdigit():
        return 'no such gate'
    if certificates.lease(code, certificate, function, values) > int(arena):
        return 'no such call'
    if gate.isdigit() and int(gate) < int(copies):
        return 'memory: home from 0 cells ' + arena
    beside = ' beside each other' if gate == 'hold' else ''
    return 'ended %s events %d cells %s%s' % (copies, 2 * int(copies), arena, beside)

# The tables `images` and `places`.
@licence_command
def told_paused(code, certificate, function, values, fuel, steps):
    """The run behind so many steps: its image, or which frames lend, or how it ended."""
    if int(fuel) > images.STEPS:
        return 'no such run'
    size = certificates.lease(code, certificate, function, values)
    paused = images.loaded(code, function, values, int(fuel), size)
    outcome = paused.go(int(steps))
    if outcome:
        return 'step %d %s' % (paused.steps, told_ending(code, outcome))
    lenders = paused.lenders()
    if any(lenders):
        running = 'yes' if lenders[-1] else 'no'
        return 'lending oldest %d waiting %d running %s' % (lenders.index(True), len(lenders) - 1, running)
    return '\n  '.join([''] + images.image_text(paused.image()).decode().split('\n')[:-1])

@licence_command
def told_again(code, certificate, function, values, fuel, steps):
    """In how many slices the run ends, and how; behind each it goes on from its image."""
    if int(fuel) > images.STEPS:
        return 'no such run'
    size = certificates.lease(code, certificate, function, values)
    paused = images.loaded(code, function, values, int(fuel), size)
    for slices in range(1, 100001):
        outcome = paused.slice(int(steps))
        if outcome:
            return 'slices %d %s' % (slices, told_ending(code, outcome))
        text = images.image_text(paused.image())
        paused = images.resumed(code, images.judged(code, certificate, size, text))
    return 'slices 100000'

def told_on(said, rest):
    """Texts are judged by a licence from here on, and their runs go on."""
    name, cert, cells, steps = rest.split()
    licence = tried(certificates.granted, said.code_bytes(name), text_of(said.certs[cert]))
    said.reader = None
    if type(licence) is str:
        return licence
    said.reader = lambda text: told_resumed(*licence, int(cells), int(steps), text)
    return ''

def told_resumed(code, certificate, cells, steps, text):
    """How the run that goes on from a text ends; a cause why none does is a refusal."""
    if not 0 < cells <= machine.INLINE:
        return 'no such cells'
    paused = images.resumed(code, images.judged(code, certificate, cells, text))
    outcome = paused.go(steps)
    return 'step %d %s' % (paused.steps, told_ending(code, outcome)) if outcome else 'steps %d' % steps

def place_command(answer):
    """A command about a function and a block of a code, which may not be there."""
    def command(said, rest):
        name, function, block, *place = rest.split()
        code = grail.decode(said.code_bytes(name))
        for func in code.funcs[int(function):int(function) + 1]:
            if int(block) < len(func.blocks):
                return answer(images.Places(code, func), int(block), *map(int, place))
        return answer(None)
    return command

def told_lends(places, *where):
    return 'yes' if places and places.lends(*where) else 'no'

def told_ready(places, *where):
    return ' '.join(map(str, places.ready(*where) if places else [])) or 'none'

def told_waits(places, *where):
    return ' '.join(map(str, places.waits(*where) if places else [])) or 'none'

def told_constructor(said, rest):
    name, number = rest.split()
    found = grail.constructors(grail.decode(said.code_bytes(name)).types)[int(number):int(number) + 1]
    return ''.join('%s of type %d' % (con.name, kind) for kind, _, con in found) or 'no such constructor'

# The table `tenants`.
class Tenant(scripts.Desk):
    """A piece of an arena: its leases are (first, size), by the first cell in the piece."""

    def __init__(self, budget):
        super().__init__(budget, [])
        self.budget, self.tags = budget, [0] * budget

    def held(self):
        return sum(self.leases.values())

    def ask(self, length):
        if self.held() + length > self.budget:
            return 'over held %d size %d budget %d' % (self.held(), length, self.budget)
        first = next((first for first, free in self.holes if free >= length), None)
        if first is None:
            return 'full need %d largest %d' % (length, self.largest())
        self.cut(first, length)
        self.leases[first] = length
        return 'granted first %d size %d' % (first, length)

    def give(self, first):
        if first not in self.leases:
            return 'no lease'
        self.fill(first, self.leases.pop(first))
        return ''

    def mark(self, first, cell, tag):
        if cell >= self.leases.get(first, 0):
            return 'no lease'
        self.tags[first + cell] = tag
        return ''

    def look(self, first, cell):
        return str(self.tags[first + cell]) if cell < self.leases.get(first, 0) else 'no such cell'

def told_tenants(said, rest):
    front, _, budgets = rest.partition(':')
    (arena, most), budgets = map(int, front.split()), list(map(int, budgets.split()))
    good = 0 < len(budgets) <= 64 and min(budgets) and sum(budgets) <= arena
    said.tenants = (list(map(Tenant, budgets)), most, arena - sum(budgets)) if good else None
    return '' if good else 'no desk'

def tenant_command(command, missing):
    """A command about a tenant, and what is told where it isn't there."""
    def told(said, rest):
        if not said.tenants:
            return 'no desk'
        tenant, *numbers = map(int, rest.split())
        tenants, most, _ = said.tenants
        if tenant >= len(tenants):
            return missing
        if command is Tenant.ask and (len(tenants[tenant].leases) >= most or numbers == [0]):
            return missing
        return str(command(tenants[tenant], *numbers))
    return told

def told_tenants_end(said, _):
    if not said.tenants:
        return 'no desk'
    (tenants, _, rest), said.tenants = said.tenants, None
    tags = sum((tenant.tags for tenant in tenants), []) + [0] * rest
    return 'leases are out' if any(tenant.leases for tenant in tenants) else ' '.join(map(str, ['tags'] + tags))

LINES = {
    'codes': {'decode': told_decode, 'fronts': told_short, 'values': told_values, 'find': told_find,
              'types': told_types, 'check': told_well_formed, 'run': told_meaning},
    'values': {'kinds': told_kinds_of, 'read': told_read, 'fronts': told_fronts, 'nest': told_nest},
    'bundles': text_commands(bundle_read), 'certificates': text_commands(certificate_read),
    'verdicts': {'verify': told_verdict},
    'desks': {'desk': told_desk, 'next': on_desk(TaggedDesk.asked_next), 'mark': on_desk(TaggedDesk.marked),
              'give': on_desk(TaggedDesk.given), 'withdraw': on_desk(TaggedDesk.withdrawn),
              'counts': on_desk(TaggedDesk.counts), 'journal': on_desk(TaggedDesk.events),
              'finish': told_finish, 'replay': told_replay},
    'machines': {'run': told_machine, 'cells': lambda said, rest: told_machine(said, rest, True)},
    'licences': {'bound': licence_command(told_bound), 'run': licence_command(told_licensed),
                 'halt': licence_command(told_halt), 'serve': licence_command(told_serve)},
    'images': {**text_commands(image_read), 'run': told_paused, 'again': told_again,
               'on': told_on},
    'places': {'ready': place_command(told_ready), 'waits': place_command(told_waits),
               'lends': place_command(told_lends), 'constructor': told_constructor},
    'scripts': text_commands(script_read),
    'tenants': {'desk': told_tenants, 'ask': tenant_command(Tenant.ask, "can't ask"),
                'mark': tenant_command(Tenant.mark, 'no lease'), 'look': tenant_command(Tenant.look, 'no such cell'),
                'give': tenant_command(Tenant.give, 'no lease'), 'held': tenant_command(Tenant.held, 'no tenant'),
                'finish': told_tenants_end},
}
TABLES = {'texts': told_cases, 'compiled': told_cases, 'bundles of cases': told_bundles, 'systems': told_systems}
