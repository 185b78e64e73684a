"""Recursion made explicit, so that no depth of a source or of a value is too deep for Python.

A function that would call itself is a generator: where it needs the result of `f(part)`, it says `yield f(part)`.
"""
from types import GeneratorType

def run(task):
    """What the generator `task` returns. Each generator that it yields is run, and what that returns is handed back.

    Generators that wait stand in a list. One that returns a generator goes on as that one, and doesn't wait for it.
    What is yielded and is no generator is handed back as it is.
    """
    waiting = []
    while True:
        if type(task) is GeneratorType:
            waiting.append(task)
            task = None
        elif not waiting:
            return task
        try:
            task = waiting[-1].send(task)
        except StopIteration as end:
            waiting.pop()
            task = end.value

def each(tasks):
    """What these tasks return, one behind the other."""
    results = []
    for task in tasks:
        results.append((yield task) if type(task) is GeneratorType else task)
    return results
