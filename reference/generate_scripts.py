"""Scripts for the command `serve`, the arguments of their jobs, and words of `drill`."""
import re

from generate_codes import bundle, code
from generate_draw import edited_bytes, edited_lines, edited_list, edited_words
from generate_sources import LOCALS, Writer, altered

LISTS = b"""type ilist = !Nil | Cons of int * ilist
type two = Two of ilist * <>
let dup l = match l with Nil -> Nil | Cons(h, t)@_ -> let r = dup t in Cons(h, Cons(h, r)) end
let rev acc l = match l with Nil -> acc | Cons(h, t)@d -> rev (Cons(h, acc)@d) t end
let len (read l : ilist) = match l with Nil -> 0 | Cons(h, t) -> 1 + len t end
let loop n = if n <= 0 then 0 else loop (n - 1)
let deep n = if n <= 0 then 0 else 1 + deep (n - 1)
let quotient a b = a / b + a mod b
let pair l d = Two(Cons(1, l), d)
let keep (l : ilist) = l
"""
ENDING, ENDLESS = [1, 2, 3, 10, 100, 1000, 2000, 2 ** 40 - 1, 2 ** 40], [1, 2, 3, 10, 30, 100, 300]
ARENAS = [1, 1, 2, 3, 4, 5, 8, 10, 16, 30, 64, 100, 1000, 4096, 70000]
NUMBERS = '0 0 1 -1 2 -2 7 -7 10 65537 2147483647 -2147483648'.split()

def script(draw):
    """A script of programs and jobs, at times altered."""
    if draw.chance(0.012):
        return draw.choice([crowded, crowded, deep, long, too_much])(draw)
    entries = []
    for number in range(draw.choice([1, 1, 1, 2, 2, 3])):
        text, job_of = draw.pick((5, lists), (5, camelot), (2, grail), (1, refused))(draw, 'p%d' % number)
        entries.append(text)
        for _ in range(draw.choice([0, 1, 2, 3, 4, 8])):
            name = 'j%d p%d ' % (len(entries), number)
            entries.insert(draw.randint(0, len(entries)), b'job ' + (name + job_of()).rstrip(' ').encode() + b'\n')
    told = b'arena %d\nworkers %d\n' % (draw.choice(ARENAS), draw.choice([1, 1, 2, 3, 4, 8, 16])) + b''.join(entries)
    for _ in range(draw.choice([1, 1, 1, 3]) if draw.chance(0.3) else 0):
        told = draw.pick((2, edited_lines), (1, edited_bytes), (5, edited_head))(draw, told)
    return told

# Programs, each with a function that makes a job's words from its entry on.
def program(name, language, text):
    lines = b''.join(line + b'\n' for line in text.rstrip(b'\n').split(b'\n') if line != b'.')
    return b'program %s %s\n%s.\n' % (name.encode(), language, lines)

def lists(draw, name):
    def job():
        size = draw.choice([0, 1, 2, 3, 5, 8, 20, 60])
        some = ''.join('Cons(%s,' % draw.choice(NUMBERS) for _ in range(size)) + 'Nil' + ')' * size
        two = ' '.join(draw.sample(NUMBERS, 2))
        form = draw.choice(['dup %d {some}', 'rev %d Nil {some}', 'len %d {some}', 'pair %d {some} <>', 'loop %d 3000',
                            'loop %d {size}', 'deep %d {size}', 'quotient %d {two}'])
        return form.format(**locals()) % draw.choice(ENDING)
    return program(name, b'camelot', LISTS), job

def camelot(draw, name):
    """A typed program; its functions may run for ever."""
    writer = Writer(draw)

    def job():
        function = draw.choice(writer.functions)
        args = [value(draw, writer.types, param.kind, draw.choice([1, 2, 4])) for param in function.params]
        return '%s %d %s' % (function.name, draw.choice(ENDLESS), ' '.join(args))
    return program(name, b'camelot', writer.program()), job

def grail(draw, name):
    text = (bundle if draw.chance(0.7) else code)(draw)
    names = re.findall(rb'^function (\w+)', text, re.MULTILINE) or [b'f']
    args = 'N|C(1,N)|C(1,C(2,N))|Nil|Cons(1,Nil)|Cons(1,Cons(2,Nil))|1|1 2|true|<>|N 1|A|'.split('|')
    return program(name, b'grail', text), lambda: '%s %d %s' % (
        draw.choice(names).decode(), draw.choice(ENDLESS), draw.choice(args))

def refused(draw, name):
    """A program that is refused most often, and jobs of it or of others."""
    return program(name, b'camelot', altered(draw)), lambda: draw.choice(['f 1 1', 'none 1 1', 'rev 9 Nil Nil', 'f 3'])

def edited_head(draw, told):
    """A line of the script itself, and not of a program's text, is edited."""
    lines = told.split(b'\n')
    heads = [at for at, line in enumerate(lines) if line.split(b' ')[0] in (b'arena', b'workers', b'program', b'job')]
    at = draw.choice(heads)
    words = lines[at].split(b' ')
    numbers = [place for place, word in enumerate(words) if word.isdigit()]
    if numbers and draw.chance(0.4):
        words[draw.choice(numbers)] = draw.choice(b'0 01 17 16 4194305 1099511627777 -1 99999999999999999999'.split())
        lines[at] = b' '.join(words)
    elif draw.chance(0.4):
        lines[at] = draw.choice([lines[draw.choice(heads)], lines[at].replace(b' p', b' q', 1)])
    else:
        lines[at] = (edited_words if draw.chance(0.6) else edited_bytes)(draw, lines[at])
    return b'\n'.join(lines)

# Scripts at the limits.
def crowded(draw):
    programs, jobs = draw.choice([(64, 2), (65, 2), (1, 4096), (1, 4097)])
    told = ''.join('program p%d camelot\nlet f x = x\n.\n' % number for number in range(programs))
    told += ''.join('job j%d p0 f 1 %d\n' % (number, number) for number in range(jobs))
    return b'arena 4\nworkers %d\n' % draw.choice([1, 3, 16]) + told.encode()

def deep(draw):
    """As many calls wait as may, or some more or less."""
    calls = draw.near(65537)
    lists = program('p', b'camelot', LISTS)
    return b'arena 4\nworkers 2\n%sjob a p deep %d %d\n' % (lists, draw.near(calls + 1), calls - 1)

def long(draw):
    """Arguments have as many nodes as they may, or some more or less."""
    items = draw.near(32768) - 1
    args = b'Cons(1,' * items + b'Nil' + b')' * items
    return b'arena 70000\nworkers 1\n%sjob a p keep 1 %s\n' % (program('p', b'camelot', LISTS), args)

def too_much(draw):
    """As many bytes as there may be, or some more or less."""
    told = b'arena 4\nworkers 1\nprogram p camelot\nlet f x = x\n.\njob a p f 1 1'
    return told + b' ' * (draw.near(8388608) - len(told) - 1) + b'\n'

# Arguments.
def arguments(draw):
    """A script of one program, whose jobs have arguments of random types."""
    if draw.chance(0.002):
        return long(draw)
    writer, jobs = Writer(draw), b''
    kinds = [draw.choice(writer.kinds + ['<>', 'bool']) for _ in range(draw.choice([1, 1, 2, 3]))]
    params = ' '.join('(%s : %s)' % pair for pair in zip(LOCALS, kinds))
    types = ' '.join('type %s = %s' % (name, writer.constructors(name)) for name in writer.types)
    text = '%s let first %s = %s let count %s = 1\n' % (types, params, LOCALS[0], params)
    for number in range(draw.randint(1, 8)):
        args = ' '.join(value(draw, writer.types, kind, draw.choice([1, 2, 3, 6, 40])) for kind in kinds)
        if draw.chance(0.2):
            args = re.sub('[(), ]', lambda found: draw.choice(['%s', ' %s', '%s ', '  %s  ']) % found.group(), args)
        args = wrong(draw, args) if draw.chance(0.45) else args
        jobs += b'job j%d p %s 1 %s\n' % (number, draw.choice([b'first', b'count']), args.encode('latin-1'))
    return b'arena %d\nworkers 1\n%s%s' % (draw.choice(ARENAS[4:]), program('p', b'camelot', text.encode()), jobs)

def value(draw, types, kind, depth):
    """A value of a kind, as it is written; of a type without a value something that is none."""
    if kind not in types:
        return {'int': draw.choice(NUMBERS), 'bool': draw.choice(['true', 'false']), '<>': '<>'}[kind]
    flat = [con for con in types[kind] if kind not in con.fields] or types[kind]
    con, longest = draw.choice(types[kind] if depth > 0 else flat), draw.randrange(4)
    parts = [value(draw, types, field, depth - 1 if at == longest else min(depth - 1, 1)) if depth > -4 else '1'
             for at, field in enumerate(con.fields)]
    return con.name + ('(%s)' % ','.join(parts) if parts else '')

WORDS = ('0 -0 00 +1 - -01 2147483648 -2147483649 99999999999 true fals truely <> < > A Nil Con Conss Nil() () ( ) , '
         'A( ,1 1) \xff').split(' ') + [' ', '\t', '\r']

def wrong(draw, args):
    """Arguments whose words or bytes are edited."""
    for _ in range(draw.choice([1, 1, 1, 2])):
        if draw.chance(0.75):
            args = ''.join(edited_list(draw, re.findall(r'[^ (),]+|.', args), WORDS))
        else:
            args = edited_bytes(draw, args.encode('latin-1')).decode('latin-1')
    return args.replace('\n', '')

def drill(draw):
    """The words of a drill, at times wrong ones, or another command with more words."""
    jobs = draw.pick((977, draw.randint(1, 3)), (20, draw.randint(4, 30)), (3, draw.randint(98, 102)))
    words = ['drill', str(jobs), str(draw.randint(1, 16))]
    spare = ['0', '00', '01', '+1', '-1', '17', '4097', '1', '1 ', '', 'x', '1.0', '9' * 30, 'serve', 'Drill', '--help']
    return edited_list(draw, words, spare) if draw.chance(0.6) else words
