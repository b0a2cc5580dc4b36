"""What several small logs with clocks come to beside the module Steps, by the words alone: any line may be the next that is the next of its log, where no line
that is left has a smaller clock. Without `--ties` it is that of the least clock, and of equal clocks that of the first log. Where the clocks are objects, any line may
be the next whose clock is above that of no line that is left, with the word and without it."""
import json

MODULE = """---- MODULE Steps ----
EXTENDS Integers
VARIABLE x
Init == x = 0
Next == x' \\in 0..6
Add(n) == x' = (x + n) % 7
Part(n) == x' = 6 \\div n
Double == x' = (2 * x) % 7
At(n) == x = n /\\ x' = x
Up == x' = x + 1
====
"""
# What leads from a number to which numbers, and how a line says it.
KINDS = {
    "add": (lambda x, n: {(x + n) % 7}, lambda n: {"event": "Add", "args": [n]}),
    "double": (lambda x, n: {2 * x % 7}, lambda n: {"event": "Double"}),
    "at": (lambda x, n: {x} & {n}, lambda n: {"event": "At", "args": [n]}),
    "seen": (lambda x, n: {n}, lambda n: {"see": [["x", n]]}),
    "free": (lambda x, n: set(range(7)), lambda n: {}),
}


def made(chance):
    """Two to four logs of few lines, each a clock, a kind and a number; clocks are often equal."""
    logs = []
    for _ in range(chance.randint(2, 4)):
        clocks = sorted(chance.randint(1, 2) for _ in range(chance.randint(0, 3)))
        logs.append([(clock, chance.choices(list(KINDS), [4, 2, 3, 1, 1])[0], chance.randint(0, 3)) for clock in clocks])
    return logs


def made_of_nodes(chance):
    """The same with clocks of nodes: each log is that of a node, which at some lines has heard of the others' lines so far."""
    logs = [[] for _ in range(chance.randint(2, 4))]
    known = [[0] * len(logs) for _ in logs]
    for _ in range(chance.randint(1, 7)):
        file, other = chance.randrange(len(logs)), chance.randrange(len(logs))
        if chance.random() < 0.4:
            known[file] = list(map(max, known[file], known[other]))
        known[file][file] += 1
        clock = {f"n{node}": number for node, number in enumerate(known[file]) if number or chance.random() < 0.3}
        logs[file].append((clock, chance.choices(list(KINDS), [4, 2, 3, 1, 1])[0], chance.randint(0, 3)))
    return logs


def follows(clock, other):
    """Whether the clock is above the other."""
    if not isinstance(clock, dict):
        return clock > other
    pairs = [(clock.get(node, 0), other.get(node, 0)) for node in {*clock, *other}]
    return all(here >= there for here, there in pairs) and any(here > there for here, there in pairs)


def text_of(log):
    return "".join(json.dumps({"clock": clock, **KINDS[kind][1](number)}) + "\n" for clock, kind, number in log)


def ready(logs, cut, ties):
    """The logs whose next line may be the next of all, where so many lines of each are taken."""
    left = [(log[taken][0], file) for file, (log, taken) in enumerate(zip(logs, cut)) if taken < len(log)]
    behind = [line[0] for log, taken in zip(logs, cut) for line in log[taken:]]
    if not ties and not any(isinstance(clock, dict) for clock, _ in left):
        return [min(left)[1]] if left else []
    return [file for clock, file in left if not any(follows(clock, other) for other in behind)]


def layers(logs, ties):
    """For each number of lines the entries that are reached: how many lines of each log are taken, and the number that x is."""
    reached = {(tuple(0 for _ in logs), 0)}
    yield reached
    for _ in range(sum(map(len, logs))):
        reached = {entry for cut, x in reached for file in ready(logs, cut, ties) for entry in steps(logs, cut, x, file)}
        yield reached


def steps(logs, cut, x, file):
    _, kind, number = logs[file][cut[file]]
    further = tuple(taken + (other == file) for other, taken in enumerate(cut))
    return {(further, to) for to in KINDS[kind][0](x, number)}


def complaint(logs, ties, status, report, names):
    """What is wrong with the answer, if something is."""
    found = list(layers(logs, ties))
    count = len(found) - 1
    prefix = max(n for n, reached in enumerate(found) if reached)
    head, *states = report.splitlines()
    if prefix == count:
        wanted = [(0, f"EXPLAINED lines={count} widest={max(map(len, found))}")]
    else:
        next_lines = {(min(ready(logs, cut, ties)), cut) for cut, _ in found[prefix]}
        wanted = [(1, f"NOT EXPLAINED prefix={prefix} of={count} next={names[file]}:{cut[file] + 1}") for file, cut in next_lines]
    if (status, head) not in wanted:
        return f"got {status} {head}; wanted one of {wanted}"
    return misstep(logs, ties, prefix, [json.loads(line) for line in states])


def misstep(logs, ties, prefix, states):
    """The first printed state that no line which is ready leads to, or that there are not as many as lines and one."""
    cut, x = tuple(0 for _ in logs), 0
    if len(states) != prefix + 1 or states[0] != {"state": {"x": 0}, "step": "init"}:
        return f"states {states}"
    for state in states[1:]:
        file, to = state["file"] - 1, state["state"]["x"]
        further = tuple(taken + (other == file) for other, taken in enumerate(cut))
        if file not in ready(logs, cut, ties) or state["line"] != further[file] or (further, to) not in steps(logs, cut, x, file):
            return f"no line leads from {cut} {x} to {state}"
        cut, x = further, to
    return None
