"""Scripts for the command `tenants`."""
from generate_draw import edited_bytes, edited_lines, edited_words
from generate_scripts import camelot, grail, lists, program, refused

NAMES = [b'a', b'b', b'c', b'ab', b'A', b'a_', b'p0']

def script(draw):
    """A script of tenants that start and finish jobs, at times altered."""
    if draw.chance(0.012):
        return crowded(draw)
    names = draw.sample(NAMES, draw.choice([1, 2, 2, 3, 3, 4]))
    budgets = [draw.choice([1, 2, 3, 4, 6, 8, 8, 12, 16, 30]) for _ in names]
    arena = sum(budgets) + draw.choice([0, 0, 0, 1, 5])
    head = b'arena %d\n' % arena + b''.join(b'tenant %s %d\n' % each for each in zip(names, budgets))
    entries, calls = [], []
    for number in range(draw.choice([1, 1, 2, 2])):
        text, job_of = draw.pick((8, lists), (3, camelot), (2, grail), (1, refused))(draw, 'p%d' % number)
        entries.append(text)
        calls.append((number, job_of))
    jobs = [b'x', b'y', b'z', b'w', b'a'][:draw.choice([1, 2, 3, 5])]
    for _ in range(draw.choice([0, 1, 2, 5, 10, 20, 40])):
        tenant, job = draw.choice(names), draw.choice(jobs)
        if draw.chance(0.4):
            line = b'finish %s %s\n' % (tenant, job)
        else:
            number, job_of = draw.choice(calls)
            call = 'p%d %s' % (number if draw.chance(0.95) else 9, small(draw, job_of))
            line = b'start %s %s %s\n' % (tenant, job, call.rstrip(' ').encode())
        entries.insert(draw.randint(0, len(entries)) if draw.chance(0.1) else len(entries), line)
    told = head + b''.join(entries)
    for _ in range(draw.choice([1, 1, 1, 3]) if draw.chance(0.3) else 0):
        told = draw.pick((2, edited_lines), (1, edited_bytes), (5, edited_head))(draw, told)
    return told

def small(draw, job_of):
    """Of a few calls a short one, since budgets are small."""
    return min((job_of() for _ in range(draw.choice([1, 2, 4]))), key=len)

def edited_head(draw, told):
    """A line of the script itself, and not of a program's text, is edited."""
    words_of = (b'arena', b'tenant', b'program', b'start', b'finish')
    lines = told.split(b'\n')
    heads = [at for at, line in enumerate(lines) if line.split(b' ')[0] in words_of]
    if not heads:
        return told
    at = draw.choice(heads)
    words = lines[at].split(b' ')
    numbers = [place for place, word in enumerate(words) if word.isdigit()]
    if numbers and draw.chance(0.4):
        words[draw.choice(numbers)] = draw.choice(b'0 01 17 4194304 4194305 1099511627777 -1 99999999999999999999'.split())
        lines[at] = b' '.join(words)
    elif draw.chance(0.4):
        lines[at] = draw.choice([lines[draw.choice(heads)], lines[at].replace(b' a', b' q', 1)])
    else:
        lines[at] = (edited_words if draw.chance(0.6) else edited_bytes)(draw, lines[at])
    return b'\n'.join(lines)

def crowded(draw):
    """As many tenants, programs, starts and finishes as there may be, or one more."""
    tenants, programs, starts, finishes = draw.choice([
        (64, 1, 64, 64), (65, 1, 0, 0), (1, 64, 2, 2), (1, 65, 0, 0), (1, 1, 4096, 3), (1, 1, 4097, 0), (1, 1, 3, 4096),
        (1, 1, 0, 4097), (2, 1, 4096, 4096)])
    told = b'arena %d\n' % (tenants * 64) + b''.join(b'tenant t%d 64\n' % number for number in range(tenants))
    told += b''.join(program('p%d' % number, b'camelot', b'let f x = x') for number in range(programs))
    told += b''.join(b'start t%d j%d p0 f 1 %d\n' % (number % tenants, number, number) for number in range(starts))
    return told + b''.join(b'finish t%d j%d\n' % (number % tenants, number) for number in range(finishes))
