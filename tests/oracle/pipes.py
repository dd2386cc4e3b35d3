"""What pipes make of records. The module `queries` says what a pipe is."""
from functools import cmp_to_key

from faults import Fault
from filters import holds, of_record, patterns_of
from making import MAKINGS, made
import moments
from patterns import first_refused
from values import number, quoted, record_of, set_field, tuple_key, value_key


def apply(pipes, records):
    """Returns the records that pipes make of others. Raises `RegexRefused` or `Overflow`, with a number or a name."""
    refused = first_refused(pattern for pipe in pipes for pattern in patterns_of_pipe(*pipe))
    if refused is not None:
        raise Fault("RegexRefused", refused)
    for kind, *parts in pipes:
        if kind in MAKINGS:
            records = [made(record, kind, parts) for record in records]
        else:
            records = PIPES[kind](records, *parts)
    return records


def patterns_of_pipe(kind, *parts):
    """Returns the patterns of a pipe from left to right."""
    filters = parts if kind == "Keep" else [only for _, _, only, _ in parts[1] if only] if kind == "Stats" else []
    return [pattern for filter_ in filters for pattern in patterns_of(filter_)]


def outcome(pipes, records):
    """Returns the records that pipes make of others, or the text of the fault."""
    try:
        return apply(pipes, records)
    except Fault as fault:
        return f"{fault.name} {'in' if fault.name == 'Overflow' else 'number'} {fault.at}"


def tuple_of(record, names):
    return tuple(record.get(name, "") for name in names)


def with_names(record, is_kept):
    return {name: value for name, value in record.items() if is_kept(name)}


def moved(record, pairs, keep):
    """Returns a record in which fields have other names, pair by pair from left to right."""
    record = dict(record)
    for from_, to in pairs:
        value = record.get(from_, "")
        if not keep:
            record.pop(from_, None)
        set_field(record, to, value)
    return record


def sorted_by(records, keys, limit, offset):
    def compared(a, b):
        for name, down in keys:
            x, y = value_key(a.get(name, "")), value_key(b.get(name, ""))
            if x != y:
                return -1 if (x < y) != down else 1
        return 0

    records = sorted(records, key=cmp_to_key(compared))[offset:]
    return records if limit is None else records[:limit]


def grouped(records, key):
    """Returns the tuples of records in their order, each with its records."""
    groups = {}
    for record in records:
        groups.setdefault(key(record), []).append(record)
    return sorted(groups.items(), key=lambda group: tuple_key(group[0]))


def counted(records, names):
    """Returns the tuples of records in their order, each with the number of its records. An empty one is left out."""
    groups = grouped(records, lambda record: tuple_of(record, names))
    return [(values, len(same)) for values, same in groups if any(values)]


def with_hits(names, values, hits):
    return record_of([*zip(names, values), ("hits", str(hits))])


def uniq(records, names, hits, limit):
    groups = counted(records, names)[:limit]
    return [with_hits(names, values, n) if hits else record_of(zip(names, values)) for values, n in groups]


def top(records, n, names):
    groups = sorted(counted(records, names), key=lambda group: -group[1])
    return [with_hits(names, values, hits) for values, hits in groups[:n]]


def key_value(record, name, step):
    """Returns the value of a key. With a step it is the start of the step in which the time lies, or empty."""
    value = record.get(name, "")
    if step is None:
        return value
    try:
        moment = moments.read_moment(value)
    except Fault:
        return ""
    return moments.write_moment(moment - moment % step)


def stats(records, keys, functions):
    groups = grouped(records, lambda record: tuple(key_value(record, *key) for key in keys))
    groups = groups or [((), [])] * (not keys)
    made = []
    for values, same in groups:
        fields = [(name, value) for (name, _), value in zip(keys, values)]
        made.append(record_of(fields + [(function[3], function_value(function, same)) for function in functions]))
    return made


def function_value(function, records):
    call, names, only, name = function
    if only:
        records = [record for record in records if holds(only, of_record(record))]
    tuples = [tuple_of(record, names) for record in records]
    if call == "count":
        return str(sum(any(values) or not names for values in tuples))
    if call == "count_empty":
        return str(sum(not any(values) for values in tuples))
    if call == "count_uniq":
        return str(len({values for values in tuples if any(values)}))
    values = [value for value, in tuples if value]
    return sum_of(values, name) if call == "sum" else of_order(call, values)


def sum_of(values, name):
    """Returns the sum of the values that are numbers. Raises `Overflow` if it has more than 64 bits."""
    numbers = [number(value) for value in values if number(value) is not None]
    if not -(2**63) <= sum(numbers) < 2**63:
        raise Fault("Overflow", name)
    return str(sum(numbers)) if numbers else ""


def of_order(call, values):
    """Returns the least or the greatest value, or all, each once."""
    values = sorted(set(values), key=value_key)
    if not values:
        return ""
    if call == "uniq_values":
        return "[" + ",".join(map(quoted, values)) + "]"
    return values[0] if call == "min" else values[-1]


PIPES = {
    "Fields": lambda records, names: [with_names(record, lambda name: name in names) for record in records],
    "Delete": lambda records, names: [with_names(record, lambda name: name not in names) for record in records],
    "Rename": lambda records, pairs: [moved(record, pairs, keep=False) for record in records],
    "Copy": lambda records, pairs: [moved(record, pairs, keep=True) for record in records],
    "Limit": lambda records, n: records[:n],
    "Offset": lambda records, n: records[n:],
    "Sort": sorted_by,
    "Uniq": uniq,
    "Top": top,
    "Stats": stats,
    "Keep": lambda records, filter_: [record for record in records if holds(filter_, of_record(record))],
}
