"""The outcomes that sequential consistency allows a litmus test, by trying every order."""
import re


def outcomes(test):
    """The set of outcomes, each the tuple of the values of `test.seen()`; a place that is held is its name."""
    names = list(test.kinds)
    begin = tuple(test.begin[name] for name in names)
    start = (begin, tuple((0, tuple(0 for _ in names)) for names in test.registers))
    found, known, left = set(), {start}, [start]
    while left:
        state = left.pop()
        after = list(steps(test, names, state))
        if not after:
            if any(index < len(test.threads[thread]) for thread, (index, _) in enumerate(state[1])):
                raise ValueError(f'{test.name}: threads wait for one another')
            found.add(told(test, names, state))
        for next_state in after:
            if next_state not in known:
                known.add(next_state)
                left.append(next_state)
    return found


def told(test, names, state):
    memory, threads = state
    values = dict(zip(names, memory))
    return tuple(values[name] if thread is None else threads[thread][1][test.registers[thread].index(name)]
                 for thread, name in test.seen())


def steps(test, names, state):
    """The states after one operation of one thread."""
    memory, threads = state
    for thread, (index, registers) in enumerate(threads):
        if index == len(test.threads[thread]):
            continue
        held = dict(zip(test.registers[thread], registers))
        made = step(test.threads[thread][index], index, dict(zip(names, memory)), held)
        if made is None:
            continue
        index, values, held = made
        after = (index, tuple(held[name] for name in test.registers[thread]))
        yield tuple(values[name] for name in names), threads[:thread] + (after,) + threads[thread + 1:]


def step(operation, index, values, held):
    """The next index, memory and registers after an operation; None where it has to wait."""
    def value(word):
        return held[word[1]] if word[0] == 'register' else word[1]

    def place(word):
        return word[1] if word[0] == 'at' else held[word[1]]

    kind, *words = operation
    if kind == 'read':
        if words[0]:
            held[words[0]] = values[place(words[1])]
    elif kind == 'write':
        values[place(words[0])] = value(words[1])
    elif kind == 'change':
        register, at, new = words[0], place(words[1]), words[2]
        old = values[at]
        if new(old) is not None:
            values[at] = new(old)
        if register:
            held[register] = old
    elif kind == 'lock':
        if values[place(words[0])]:
            return None
        values[place(words[0])] = 1
    elif kind == 'set':
        held[words[0]] = value(words[1])
    elif kind == 'unless' and not value(words[0]):
        index = words[1] - 1
    elif kind == 'go':
        index = words[0] - 1
    return index + 1, values, held


def holds(test, outcome):
    """Whether an outcome is one that the test's `exists` asks for."""
    seen = {(f'{thread}:' if thread is not None else '') + name: value
            for (thread, name), value in zip(test.seen(), outcome)}
    text = re.sub(r'([\d:]*\w+)\s*=\s*(\w+)',
                  lambda match: str(str(seen[match[1]]) == match[2]), test.wanted)
    text = text.replace('/\\', ' and ').replace('\\/', ' or ').replace('~', ' not ')
    return eval(text, {'__builtins__': {}})  # nothing but True, False, and, or, not and brackets is left


def words(test, outcome):
    """An outcome as text."""
    return ' '.join((f'{thread}:' if thread is not None else '') + f'{name}={value}'
                    for (thread, name), value in zip(test.seen(), outcome))
