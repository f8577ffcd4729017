"""Refusals."""


class Refused(Exception):
    """A refusal, with its fault: a place and a code."""

    def __init__(self, at, code):
        super().__init__(at, code)
        self.fault = (at, code)
