"""All derivations of tokens by the grammar, followed at once.

A derivation is what it still expects, the role of its last token, and what it has read. What is expected is a stack of
symbols: a pair of the first one and the rest. What was read is a pair of what came before and the last token or step.
"""
from grammar import RULES, Step, Test


class Stacks:
    """Makes stacks so that equal ones are one object."""

    def __init__(self):
        self.made = {}

    def push(self, symbol, rest):
        return self.made.setdefault((symbol if isinstance(symbol, str) else id(symbol), id(rest)), (symbol, rest))

    def opened(self, derivations):
        """Returns the derivations in which the next symbol is a test, or none is left."""
        found, left = [], list(reversed(derivations))
        while left:
            stack, role, read = left.pop()
            if stack is None or isinstance(stack[0], Test):
                found.append((stack, role, read))
            elif isinstance(stack[0], Step):
                left.append((stack[1], role, (read, stack[0])))
            else:
                for body in reversed(RULES[stack[0]]):
                    rest = stack[1]
                    for symbol in reversed(body):
                        rest = self.push(symbol, rest)
                    left.append((rest, role, read))
        return found


def derive(tokens, end, best_of):
    """Returns the place of the first token that no query has there, or None, and what each derivation has read.

    The place is `end` if tokens are missing. Of derivations that expect the same, one goes on: `best_of` says which,
    of a list of what they have read.
    """
    stacks = Stacks()
    derivations = [(stacks.push("query", None), None, None)]
    for token in tokens:
        found = {}
        for stack, role, read in stacks.opened(derivations):
            if stack and stack[0].accepts(token, role):
                same = found.setdefault((id(stack[1]), stack[0].role_of(token)), [])
                same.append((stack[1], (read, token)))
        if not found:
            return token.start, [up_to_here(*derivation) for derivation in derivations]
        derivations = [(same[0][0], role, best_of([read for _, read in same])) for (_, role), same in found.items()]
    whole = [read for stack, _, read in stacks.opened(derivations) if stack is None]
    if whole:
        return None, whole
    return end, [up_to_here(*derivation) for derivation in derivations]


def up_to_here(stack, _, read):
    """Returns what is read with the steps that stand next. A time ends where no more of it comes."""
    while stack and (isinstance(stack[0], Step) or stack[0] == "time more"):
        read = (read, stack[0]) if isinstance(stack[0], Step) else read
        stack = stack[1]
    return read


def listed(read):
    """Returns the tokens and steps of what was read, from the first to the last."""
    events = []
    while read:
        read, event = read
        events.append(event)
    return events[::-1]
