"""Litmus tests as the Linux kernel writes them: their text read into threads of operations.

A thread is a list of operations, each of which is one event of a sequentially consistent machine, or none:
  ('read', register, place)             ('write', place, value)
  ('change', register, place, new)      reads, and writes new(old) where that isn't None, as one event
  ('lock', place)  ('set', register, value)  ('unless', value, index)  ('go', index)
A place is ('at', name) or ('in', register) for the place that a register holds; a value is ('number', n), ('address', name)
or ('register', name). Fences order what this machine orders anyway, so they are no operations."""
import re

FENCES = {'smp_mb', 'smp_wmb', 'smp_rmb', 'smp_mb__after_spinlock', 'smp_mb__after_atomic', 'smp_mb__before_atomic',
          'smp_mb__after_unlock_lock', 'rcu_read_lock', 'rcu_read_unlock'}
LOADS = {'READ_ONCE', 'smp_load_acquire', 'rcu_dereference', 'atomic_read', 'spin_is_locked'}
# A comment doesn't follow a function's name, as the argument `(*x)` does.
COMMENT = r'(?<!\w)\(\*.*?\*\)'
STORES = {'WRITE_ONCE', 'smp_store_release', 'rcu_assign_pointer', 'atomic_set'}


class Untranslatable(Exception):
    """What of a test isn't understood."""


class Test:
    """A test: `kinds` has the C type of each place, `begin` its value, `threads` the operations, `bodies` their C text,
    `registers` of each thread their names, `wanted` the clause after `exists`, and `result` what Linux's model says."""

    def __init__(self, text):
        comments = ' '.join(re.findall(COMMENT, text, re.S))
        found = re.search(r'Result:\s*(\w+)', comments)
        self.result = found[1] if found else None
        text = re.sub(COMMENT + r'|//[^\n]*', '', text, flags=re.S)
        head = re.match(r'\s*C\s+(\S+)\s*\{(.*?)\}\s*(?=P0)', text, re.S)
        if not head:
            raise Untranslatable('its head')
        self.name = head[1]
        self.kinds, self.begin, self.threads, self.bodies, self.registers = {}, {}, [], [], []
        rest = text[head.end():]
        found = re.search(r'\bexists\s*(\(.*\))', rest, re.S)
        self.wanted = found[1].strip() if found else None
        for thread in re.finditer(r'^P\d\s*\((.*?)\)\s*^\{(.*?)^\}', rest, re.S | re.M):
            self.add_thread(thread[1], thread[2])
        self.begin = {name: 0 for name in self.kinds}
        self.initialize(head[2])

    def add_thread(self, parameters, body):
        for parameter in filter(None, (word.strip() for word in parameters.split(','))):
            kind, name = re.match(r'(\w+\s*\**)\*(\w+)$', parameter.replace(' *', '*')).groups()
            self.kinds[name] = kind.strip()
        self.bodies.append(body)
        reader = Reader(body, self.kinds)
        self.threads.append(reader.operations)
        self.registers.append(reader.registers)

    def initialize(self, text):
        for line in filter(None, (line.strip() for line in text.split(';'))):
            name, value = re.match(r'(?:\w+\s*\**)?\b(\w+)\s*=\s*(?:ATOMIC_INIT\()?&?(\w+)\)?$', line).groups()
            self.begin[name] = int(value) if value.isdigit() else value
            if not value.isdigit() and value not in self.kinds:
                self.kinds[value], self.begin[value] = 'int', 0

    def seen(self):
        """The names of what an outcome tells, in order: registers as (thread, name), then places as (None, name)."""
        told = [(thread, name) for thread, names in enumerate(self.registers) for name in names]
        return told + [(None, name) for name in self.kinds if self.kinds[name] != 'spinlock_t']


class Reader:
    """Reads the body of a thread."""

    def __init__(self, body, kinds):
        self.tokens = re.findall(r'\w+|==|!=|[^\s\w]', body)
        self.kinds, self.operations, self.registers = kinds, [], []
        while self.tokens:
            self.statement()

    def take(self, *wanted):
        for token in wanted:
            if not self.tokens or self.tokens.pop(0) != token:
                raise Untranslatable('a statement without ' + token)

    def statement(self):
        token = self.tokens.pop(0)
        if token == '{':
            while self.tokens[0] != '}':
                self.statement()
            self.take('}')
        elif token == 'int':
            self.declare()
        elif token == 'if':
            self.choice()
        elif token == '(':
            self.take('void', ')')
            self.statement()
        elif token in self.registers and self.tokens[0] == '=':
            self.take('=')
            self.assign(token)
            self.take(';')
        elif self.tokens and self.tokens[0] == '(':
            self.call(token, None)
            self.take(';')
        else:
            raise Untranslatable(token)

    def declare(self):
        while True:
            token = self.tokens.pop(0)
            if token == ';':
                return
            if token not in '*,':
                self.registers.append(token)

    def choice(self):
        self.take('(')
        value = self.value(self.argument())
        self.take(')')
        at = len(self.operations)
        self.operations.append(None)
        self.statement()
        self.operations[at] = ('unless', value, len(self.operations))
        if self.tokens[:1] == ['else']:
            self.take('else')
            self.operations[at] = ('unless', value, len(self.operations) + 1)
            at = len(self.operations)
            self.operations.append(None)
            self.statement()
            self.operations[at] = ('go', len(self.operations))

    def assign(self, register):
        if len(self.tokens) > 1 and self.tokens[1] == '(':
            self.call(self.tokens.pop(0), register)
        else:
            self.operations.append(('set', register, self.value(self.argument(';'))))

    def argument(self, *ends):
        """The tokens up to a comma or the end of the arguments."""
        taken, depth = [], 0
        while self.tokens and not (depth == 0 and self.tokens[0] in (ends or (',', ')'))):
            depth += {'(': 1, ')': -1}.get(self.tokens[0], 0)
            taken.append(self.tokens.pop(0))
        return taken

    def arguments(self):
        self.take('(')
        found = []
        while self.tokens[0] != ')':
            found.append(self.argument())
            if self.tokens[0] == ',':
                self.take(',')
        self.take(')')
        return found

    def value(self, tokens):
        if len(tokens) == 1 and tokens[0].isdigit():
            return 'number', int(tokens[0])
        if len(tokens) == 1 and tokens[0] in self.registers:
            return 'register', tokens[0]
        if len(tokens) == 1 and tokens[0] in self.kinds:
            return 'address', tokens[0]
        raise Untranslatable('the value ' + ''.join(tokens))

    def place(self, tokens):
        name = tokens[-1]
        if name in self.registers:
            return 'in', name
        if name in self.kinds and tokens[:-1] in ([], ['*']):
            return 'at', name
        raise Untranslatable('the place ' + ''.join(tokens))

    def call(self, name, register):
        words = self.arguments()
        if name in FENCES:
            return
        if name in LOADS:
            self.operations.append(('read', register, self.place(words[0])))
        elif name in STORES:
            self.operations.append(('write', self.place(words[0]), self.value(words[1])))
        elif name == 'spin_lock':
            self.operations.append(('lock', self.place(words[0])))
        elif name == 'spin_unlock':
            self.operations.append(('write', self.place(words[0]), ('number', 0)))
        else:
            self.operations.append(('change', register, *self.change(name, words)))

    def change(self, name, words):
        """The place of an operation that reads and writes at once, and what it makes of the old value."""
        def number(at):
            return self.value(words[at])[1]
        if name == 'xchg':
            new = number(1)
            return self.place(words[0]), lambda old: new
        if name == 'cmpxchg':
            wanted, new = number(1), number(2)
            return self.place(words[0]), lambda old: new if old == wanted else None
        if name == 'atomic_inc':
            return self.place(words[0]), lambda old: old + 1
        if name == 'atomic_add_unless':
            more, unless = number(1), number(2)
            return self.place(words[0]), lambda old: old + more if old != unless else None
        raise Untranslatable(name)


def of_shape(line):
    """The text of a test for a line of shapes.txt."""
    name, rest = line.split(None, 1)
    threads, places = [], sorted(set(re.findall(r'[a-z]', rest)))
    parameters = ', '.join(f'int *{place}' for place in places)
    for index, thread in enumerate(rest.split('|')):
        lines, loads = [], 0
        for word in thread.split():
            register = f'r{loads}'
            if word[0] == '?':
                text = f'{register} = READ_ONCE(*{word[1]});'
            elif word[1] == '=':
                text = f'WRITE_ONCE(*{word[0]}, {word[2:]});'
            elif word[1] == '+':
                text = f'atomic_inc({word[0]});'
            elif word[1] == '~':
                text = f'{register} = xchg({word[0]}, {word[2:]});'
            else:
                old, new = word[2:].split(':')
                text = f'{register} = cmpxchg({word[0]}, {old}, {new});'
            loads += register in text
            lines.append('\t' + text)
        declared = [f'\tint r{number};' for number in range(loads)]
        threads.append('\n'.join([f'P{index}({parameters})', '{', *declared, *lines, '}']))
    return '\n\n'.join([f'C {name}', '{}', *threads, ''])
