"""The commands of the program, and what may be answered to them: docs/SCRIPTS.md, "The statuses"."""
import re

import certificates
import compiler
import grail
import inference
import language
import scripts
import tenants
from refusals import Refused

INPUT = 8388608

def compiled(source):
    code = compiler.code_of(language.front(source))
    return certificates.bundle_text(grail.encode(code), certificates.certificate_text(inference.infer(code)))

def serve(text):
    return scripts.report(scripts.read_script(text))

COMMANDS = {'serve': serve, 'compile': compiled, 'verify': certificates.verify, 'migrate': certificates.migrate,
            'tenants': tenants.tenants}

def answer(words, data):
    """The status and the output; a script is answered with the journal of one worker."""
    if words[:1] == ['drill']:
        jobs = drill_jobs(words[1:])
        return (0, scripts.drill(jobs)) if jobs else (2, b'')
    steps = sliced_steps(words)
    if not steps and (len(words) != 1 or words[0] not in COMMANDS):
        return 2, b''
    if len(data) > INPUT:
        return 6, b''
    try:
        return 0, scripts.sliced(scripts.read_script(data), steps) if steps else COMMANDS[words[0]](data)
    except Refused as refused:
        return 3, b'refused %s\n' % str(refused).encode()

def sliced_steps(words):
    """How many steps a slice has; 0 where these aren't the words `sliced N`."""
    good = len(words) == 2 and words[0] == 'sliced' and re.fullmatch('[1-9][0-9]{0,9}', words[1], re.ASCII)
    return int(words[1]) if good and int(words[1]) <= 1000000000 else 0

def drill_jobs(words):
    """How many jobs a drill has; 0 where these aren't two numbers within their limits."""
    if len(words) != 2 or not all(re.fullmatch('[1-9][0-9]{0,3}', word, re.ASCII) for word in words):
        return 0
    jobs, workers = map(int, words)
    return jobs if jobs <= 4096 and workers <= 16 else 0

def fault(words, data, status, output):
    """Why an observed answer is wrong, or None. The journal of a script may be any legal one.

    That memory was refused is told as a fault, though it may happen at any time.
    """
    if words == ['serve'] and status == 0 and len(data) <= INPUT:
        try:
            script = scripts.read_script(data)
        except Refused as refused:
            return 'status 0, and not refused %s' % refused
        return report_fault(script, output)
    wanted = answer(words, data)
    if status != wanted[0]:
        return 'status %d, and not %d' % (status, wanted[0])
    return None if output == wanted[1] else difference(output, wanted[1])

def report_fault(script, output):
    lines, leases = scripts.served(script)
    head = ''.join(line + '\n' for line in lines).encode()
    tail = b'end free %d\n' % script.arena
    if not output.startswith(head) or not output[len(head):].endswith(tail):
        return difference(output, head + b'..\n' + tail)
    journal = output[len(head):-len(tail)].decode('latin-1').split('\n')
    if journal.pop():
        return 'a line is cut off'
    return scripts.journal_fault(journal, leases, script.arena, script.workers)

def difference(output, wanted):
    """The first line that differs."""
    for number, (line, other) in enumerate(zip(output.split(b'\n'), wanted.split(b'\n')), 1):
        if line != other:
            return 'line %d is %r, and not %r' % (number, line.decode('latin-1'), other.decode('latin-1'))
    return 'it has %d bytes, and not %d' % (len(output), len(wanted))
