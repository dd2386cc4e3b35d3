"""The exception that stands for each named fault of the rules."""


class Fault(Exception):
    """A fault by its name, with the place at which it was found if it has one."""

    def __init__(self, name, at=None):
        super().__init__(name, at)
        self.name, self.at = name, at

    def __str__(self):
        return self.name if self.at is None else f"{self.name} at {self.at}"


def result_of(call, *arguments):
    """Returns what a call returns, or the fault that it raises."""
    try:
        return call(*arguments)
    except Fault as fault:
        return fault
