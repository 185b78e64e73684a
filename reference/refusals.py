"""Refusals (docs/REFUSALS.md): how a cause is told."""

class Refused(Exception):
    """The cause, as it is printed behind `refused `."""

    def __init__(self, cause):
        super().__init__(cause)
        self.cause = cause
