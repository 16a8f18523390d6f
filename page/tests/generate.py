"""Random runs: a policy, a script and inputs, made from a number alone. Most statements can be carried out; some are refused.

Each input and each text that a script makes of it is told by a word of its own, so that a search finds where it got to.
"""
import random

PRINCIPALS = ['alice', 'bob', 'carol', 'dora', 'erik']
KINDS = ('channel', 'sealed', 'power', 'list', 'text', 'whole', 'ref', 'var', 'result', 'label')
# the procedures of children, with the kinds of their parameters
CHILDREN = {'k0': ('sealed', 'channel', 'list'), 'k1': ('ref', 'channel', 'var'), 'k2': ('text', 'channel', 'sealed')}
# how often an operand is of any kind, and how often a statement that may be refused stands outside of a `try`
WRONG, BARE = 0.03, 0.12


class Maker:
    """Makes one run."""

    def __init__(self, seed):
        self.random = random.Random(seed)
        self.seed = seed
        self.names = PRINCIPALS[:self.random.randint(1, len(PRINCIPALS))]
        self.lines = []
        self.fresh = 0

    def pick(self, items):
        return self.random.choice(items)

    def chance(self, share):
        return self.random.random() < share

    # ---- labels

    def clause(self):
        owners = self.random.sample(self.names, min(len(self.names), self.pick([1, 1, 1, 2, 3])))
        return owners[0] if len(owners) == 1 else '(%s)' % ' \\/ '.join(owners)

    def formula(self, most=3):
        if self.chance(0.03):
            return 'False'
        count = self.random.randint(0, most)
        return ' /\\ '.join(self.clause() for _ in range(count)) or 'True'

    def label(self):
        if self.chance(0.25):
            return 'True %% True'
        return '%s %%%% %s' % (self.formula(2), self.formula(1) if self.chance(0.2) else 'True')

    def observers(self):
        """Eight labels of observers, different ones where there are so many."""
        labels = ['%s %%%% True' % name for name in self.names] + [' /\\ '.join(self.names) + ' %% True', 'False %% True', 'True %% False']
        labels += [self.label() for _ in range(8)]
        self.random.shuffle(labels)
        return (list(dict.fromkeys(['True %% True'] + labels)) + labels)[:8]

    # ---- the policy

    def policy(self):
        channels = [{'name': 'c%d' % n, 'label': self.label(), 'file': 'c%d.txt' % n} for n in range(self.random.randint(1, 3))]
        inputs = [{'name': 'i%d' % n, 'label': self.label(), 'file': 'i%d.txt' % n} for n in range(self.random.randint(1, 3))]
        tasks = [self.task(place, channels, inputs) for place in range(self.random.randint(1, 3))]
        return {'version': 2, 'longest': self.pick([4096, 4096, 60]), 'principals': self.names, 'channels': channels, 'inputs': inputs,
                'tasks': tasks}

    def task(self, place, channels, inputs):
        inner = [{'input': self.pick(inputs)['name']}]
        items = [{'input': self.pick(inputs)['name']}, {'text': 'word%d' % place}, {'items': inner}]
        held = {'input': self.pick(inputs)['name']}
        args = [{'channel': self.pick(channels)['name']}, held, {'power': self.formula(2)}, {'items': items}]
        clearance = 'False %% True' if self.chance(0.6) else ' /\\ '.join(self.names) + ' %% True'
        label = 'True %% True' if self.chance(0.8) else self.pick(self.names) + ' %% True'
        return {'name': 't%d' % place, 'proc': 'p%d' % place, 'label': label, 'clearance': clearance,
                'turns': self.random.randint(30, 400), 'cells': self.random.randint(0, 30), 'args': args}

    # ---- the script

    def script(self, tasks):
        for place in range(tasks):
            self.procedure('p%d' % place, {'c': 'channel', 'a': 'sealed', 'w': 'power', 'l': 'list'}, self.random.randint(8, 34))
        for name, kinds in CHILDREN.items():
            self.procedure(name, dict(zip('vcm', kinds)), self.random.randint(2, 10))
        return '\n'.join(self.lines) + '\n'

    def procedure(self, name, params, count):
        self.lines.append('proc %s %s' % (name, ' '.join(params)))
        self.bound = {kind: [it for it, known in params.items() if known == kind] for kind in KINDS}
        self.statements(count, 2, False)
        self.lines.append('end')

    def statements(self, count, depth, is_tried):
        for _ in range(count):
            if depth > 0 and self.chance(0.15):
                self.block(depth, is_tried)
            elif is_tried or self.chance(BARE):
                self.lines.append(self.statement())
            else:
                self.lines += ['try', self.statement(), 'catch kind what', 'end']

    def block(self, depth, is_tried):
        kind = self.pick(['try', 'try', 'if', 'while'])
        if kind == 'try':
            self.lines.append('try')
            self.statements(self.random.randint(1, 4), depth - 1, True)
            self.lines.append('catch kind what')
        elif kind == 'if':
            self.lines.append('let f = %s' % self.pick(['1 < 2', '2 < 1', 'true and false']))
            self.lines.append('if f')
        else:
            self.lines += ['let f = false', 'while f']
        self.statements(self.random.randint(0, 2), depth - 1, is_tried)
        self.lines.append('end')

    def new(self, kind):
        self.fresh += 1
        name = 'n%d' % self.fresh
        self.bound[kind].append(name)
        return name

    def known(self, kind):
        return self.pick(self.bound[kind][-4:]) if self.bound[kind] and not self.chance(WRONG) else self.other()

    def other(self):
        return self.pick(['unit', '"other"', '7', 'a', '[]', 'nothing'])

    def text(self):
        return self.known('text') if self.bound['text'] and self.chance(0.7) else '"%s"' % self.pick(
            ['hi', 'a \\"b\\" </script>', '\\n\\x00\\xff', '<alice> %% : ok', 'x (y) [z], w', ''])

    def any_value(self):
        return self.known(self.pick([kind for kind in KINDS if self.bound[kind]]))

    def l(self):
        return '<%s>' % self.label()

    def statement(self):
        return self.pick([make for make, needs in self.makers() if all(self.bound[kind] for kind in needs)])()

    def makers(self):
        """The statements, those that tell most several times, with the kinds that they need."""
        often = [(self.using, ('sealed', 'power')), (self.relabel, ('sealed', 'power')), (self.write, ('ref',)), (self.push, ('list',)),
                 (self.send, ('channel',))]
        return often * 2 + [
            (self.let, ()), (self.seal, ()), (self.unlabel, ('sealed',)), (self.relabel, ('sealed', 'power')), (self.taint, ()),
            (self.newref, ()), (self.read, ('ref',)), (self.fullvar, ()), (self.newvar, ()), (self.take, ('var',)), (self.put, ('var',)),
            (self.fork, ('channel',)), (self.spawn, ('channel',)), (self.wait, ('result',)), (self.throw, ()), (self.lower, ()),
            (self.at, ('list',)), (self.stop, ()),
        ]

    def let(self):
        return self.pick([
            lambda: 'let %s = %s + %s' % (self.new('text'), self.text(), self.text()),
            lambda: 'let %s = 3 * 4' % self.new('whole'),
            lambda: 'let %s = labelof %s' % (self.new('label'), self.known('sealed')),
            lambda: 'let z = 1 / 0' if self.chance(0.3) else 'let z = -7',
        ])()

    def seal(self):
        said = self.pick([self.text(), '-5', 'true', '[]', self.known('label'), self.known('list')])
        return 'label %s %s %s' % (self.new('sealed'), self.l(), said)

    def unlabel(self):
        source = self.known('sealed')
        return 'unlabel %s %s' % (self.new('text'), source)

    def using(self):
        source = self.known('sealed')
        return 'unlabel %s %s using %s' % (self.new('text'), source, self.known('power'))

    def relabel(self):
        source = self.known('sealed')
        return 'relabel %s %s %s %s' % (self.new('sealed'), source, self.l(), self.known('power'))

    def taint(self):
        return 'taint %s' % self.l() if self.chance(0.4) else 'taint <True %% True>'

    def newref(self):
        said = self.any_value()
        return 'newref %s %s %s' % (self.new('ref'), self.l(), said)

    def read(self):
        source = self.known('ref')
        return 'read %s %s' % (self.new(self.pick(['text', 'sealed', 'list'])), source)

    def write(self):
        return 'write %s %s' % (self.known('ref'), self.any_value())

    def newvar(self):
        return 'newvar %s %s' % (self.new('var'), self.l())

    def fullvar(self):
        said = self.any_value()
        return 'fullvar %s %s %s' % (self.new('var'), self.l(), said)

    def take(self):
        source = self.known('var')
        return 'take %s %s' % (self.new(self.pick(['text', 'sealed', 'list'])), source)

    def put(self):
        return 'put %s %s' % (self.known('var'), self.any_value())

    def given(self):
        fit = [name for name, kinds in CHILDREN.items() if all(self.bound[kind] for kind in kinds)]
        name = self.pick(fit or list(CHILDREN))
        return '%s %s' % (name, ' '.join(self.known(kind) for kind in CHILDREN[name]))

    def fork(self):
        given = self.given()
        return 'fork %s %s %d %d %s' % (self.new('result'), self.l(), self.random.randint(0, 20), self.random.randint(0, 4), given)

    def spawn(self):
        return 'spawn %d %d %s' % (self.random.randint(0, 20), self.random.randint(0, 4), self.given())

    def wait(self):
        source = self.known('result')
        return 'wait %s %s' % (self.new('text'), source)

    def send(self):
        return 'send %s %s' % (self.known('channel'), self.text())

    def throw(self):
        return 'throw %s' % self.pick([self.text(), '9', '[]']) if self.chance(0.3) else 'let t = %s' % self.text()

    def lower(self):
        return 'lower %s' % self.l() if self.chance(0.1) else 'let o = 1'

    def push(self):
        source, item = self.known('list'), self.any_value()
        return 'let %s = %s push %s' % (self.new('list'), source, item)

    def at(self):
        return 'let %s = %s at %d' % (self.new(self.pick(['sealed', 'list', 'text'])), self.known('list'), self.random.randint(0, 2))

    def stop(self):
        return 'stop' if self.chance(0.05) else 'let q = unit'


def secret_of(seed, place):
    """The word that tells an input."""
    return 'secret%dq%d' % (seed, place)


def run_of(seed):
    """A policy, a script, the text of each input, and labels of eight observers."""
    maker = Maker(seed)
    policy = maker.policy()
    script = maker.script(len(policy['tasks']))
    inputs = {named['file']: secret_of(seed, place) for place, named in enumerate(policy['inputs'])}
    return policy, script, inputs, maker.observers()
