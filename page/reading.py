"""Reads labels and the lines of histories and views, so that no page is made of bytes that are none (docs/LABELS.md, docs/FORMATS.md)."""
import re

MOST_CLAUSES = 64
MOST_DEEP = 8
NUMBER, COUNT = 2 ** 32, 2 ** 64
TOKEN = re.compile(r' *(True|False|/\\|\\/|%%|[()]|[a-z][a-z0-9_]*)')
NATURAL = re.compile('0|[1-9][0-9]*')
WORD = re.compile('[a-z_]+')
BRACKETED = re.compile('<([^>]*)>')
QUOTED = re.compile(r'"(?:[ !#-\[\]-~]|\\["\\n]|\\x(?:0[0-9b-f]|1[0-9a-f]|7f|[89a-f][0-9a-f]))*"')
CREATION = ('number', 'label', 'label', 'number', 'number', 'number', 'values')
DISCLOSURE = ('label', 'label', 'power', 'content')
TWO_LABELS = ('label', 'label')
ACTS = {
    'step': (), 'seal': ('label',), 'raise': ('operation', 'label'), 'lower': ('label',), 'release': DISCLOSURE, 'expose': DISCLOSURE,
    'newref': ('label', 'value'), 'newvar': ('label', 'option'), 'fork': CREATION, 'spawn': CREATION, 'read': (), 'write': ('value',),
    'take': (), 'put': ('value',), 'wait': (), 'send': ('quoted',), 'ended': ('content',),
}
REPLIES = {'ok': (), 'got': ('value',), 'told': ('content',), 'no': ('fault',)}
FAULTS = {
    'flow_current': TWO_LABELS, 'flow_clearance': TWO_LABELS, 'flow_raise': TWO_LABELS, 'flow_privilege': ('power',) + TWO_LABELS,
    'bad_type': (), 'overflow': (), 'div_zero': (), 'too_long': (), 'no_turns': (), 'no_cells': ('count', 'count'),
    'child_turns': ('count', 'count'), 'depth': (), 'label_wide': TWO_LABELS, 'user': ('pure',),
}
OPERATIONS = ('unlabel', 'taint', 'read', 'wait', 'take', 'put')


class Unreadable(Exception):
    """The bytes are no label, or no line."""


def canonical(clauses):
    """The canonical form of a conjunction of clauses, each a set of principals by their places."""
    kept = {clause for clause in clauses if not any(other < clause for other in clauses)}
    return sorted(tuple(sorted(clause)) for clause in kept)


def implies(formula, other):
    return all(any(set(given) <= set(clause) for given in formula) for clause in other)


def flows(source, target):
    """Whether a value may flow from a label to another; a label is its secrecy and its integrity."""
    return implies(target[0], source[0]) and implies(source[1], target[1])


class Formulas:
    """Reads formulas and labels over the names of principals."""

    def __init__(self, names):
        self.places = {name: place for place, name in enumerate(names)}
        self.names = names

    def tokens(self, text):
        tokens, place = [], 0
        while text[place:].strip(' '):
            found = TOKEN.match(text, place)
            if not found:
                raise Unreadable('no label')
            tokens.append(found.group(1))
            place = found.end()
        return tokens[::-1]

    def principal(self, tokens):
        name = tokens.pop() if tokens else ''
        if name not in self.places:
            raise Unreadable('no principal')
        return self.places[name]

    def clause(self, tokens):
        if tokens[-1:] != ['(']:
            return frozenset([self.principal(tokens)])
        tokens.pop()
        members = [self.principal(tokens)]
        while tokens[-1:] == ['\\/']:
            tokens.pop()
            members.append(self.principal(tokens))
        if tokens[-1:] != [')']:
            raise Unreadable('no clause')
        tokens.pop()
        return frozenset(members)

    def formula(self, tokens):
        if tokens[-1:] in (['True'], ['False']):
            return [] if tokens.pop() == 'True' else [()]
        clauses = {self.clause(tokens)}
        while tokens[-1:] == ['/\\']:
            tokens.pop()
            clauses.add(self.clause(tokens))
        found = canonical(clauses)
        if len(found) > MOST_CLAUSES:
            raise Unreadable('a wide formula')
        return found

    def power(self, text):
        tokens = self.tokens(text)
        found = self.formula(tokens)
        if tokens:
            raise Unreadable('no formula')
        return found

    def label(self, text):
        tokens = self.tokens(text)
        secrecy = self.formula(tokens)
        if tokens[-1:] != ['%%']:
            raise Unreadable('no label')
        tokens.pop()
        integrity = self.formula(tokens)
        if tokens:
            raise Unreadable('no label')
        return secrecy, integrity

    def power_text(self, formula):
        words = [[self.names[it] for it in clause] for clause in formula]
        if words == [[]]:
            return 'False'
        return ' /\\ '.join(it[0] if len(it) == 1 else '(%s)' % ' \\/ '.join(it) for it in words) or 'True'

    def label_text(self, label):
        return '%s %%%% %s' % (self.power_text(label[0]), self.power_text(label[1]))


class Lines:
    """Reads lines; no other spelling is read than the printed one."""

    def __init__(self, names):
        self.formulas = Formulas(names)
        self.known = set()
        self.text, self.place = '', 0

    def needs(self, word):
        if not self.text.startswith(word, self.place):
            raise Unreadable('%r is missing' % word)
        self.place += len(word)

    def takes(self, word):
        stands = self.text.startswith(word, self.place)
        self.place += len(word) if stands else 0
        return stands

    def match(self, pattern):
        found = pattern.match(self.text, self.place)
        if not found:
            raise Unreadable('a part is missing')
        self.place = found.end()
        return found.group(0)

    def below(self, bound):
        if int(self.match(NATURAL)) >= bound:
            raise Unreadable('a number is too large')

    def number(self):
        self.below(NUMBER)

    def count(self):
        self.below(COUNT)

    def written(self, read, write):
        inside = self.match(BRACKETED)
        if (write, inside) not in self.known:
            if '<%s>' % write(read(inside[1:-1])) != inside:
                raise Unreadable('a label that is not canonical')
            self.known.add((write, inside))

    def label(self):
        self.written(self.formulas.label, self.formulas.label_text)

    def power(self):
        self.needs('power')
        self.written(self.formulas.power, self.formulas.power_text)

    def operation(self):
        if self.match(WORD) not in OPERATIONS:
            raise Unreadable('no operation that raises a label')

    def quoted(self):
        self.match(QUOTED)

    def whole(self):
        sign = -1 if self.takes('-') else 1
        number = sign * int(self.match(NATURAL))
        if not -2 ** 63 <= number < 2 ** 63 or (sign < 0 and number == 0):
            raise Unreadable('no whole number')

    def listed(self, is_pure, depth):
        if depth > MOST_DEEP:
            raise Unreadable('a list is too deep')
        if self.takes(']'):
            return
        self.some(is_pure, depth + 1)
        while self.takes(', '):
            self.some(is_pure, depth + 1)
        self.needs(']')

    def some(self, is_pure, depth=1):
        first = self.text[self.place:self.place + 1]
        if first == '"':
            self.quoted()
        elif first == '<':
            self.label()
        elif self.takes('['):
            self.listed(is_pure, depth)
        elif first == 'p':
            self.power()
        elif first.isalpha():
            self.named(is_pure)
        else:
            self.whole()

    def named(self, is_pure):
        word = self.match(WORD)
        if word in ('ref', 'var', 'result', 'chan'):
            self.needs('#')
            self.number()
            self.label()
        elif word == 'sealed' and not is_pure:
            self.label()
            self.needs('(')
            self.content()
            self.needs(')')
        elif word not in ('unit', 'true', 'false'):
            raise Unreadable('no value')

    def value(self):
        self.some(False)

    def pure(self):
        self.some(True)

    def option(self):
        if not self.takes('empty'):
            self.value()

    def content(self):
        if self.takes('hidden'):
            return
        if self.takes('fault('):
            self.fault()
            self.needs(')')
        else:
            self.pure()

    def fault(self):
        self.form(FAULTS)
        self.needs(' at ')
        self.label()

    def values(self):
        while self.text.startswith(' ', self.place) and not self.text.startswith(' : ', self.place):
            self.place += 1
            self.value()

    def form(self, forms):
        word = self.match(WORD)
        if word not in forms:
            raise Unreadable('no form')
        for kind in forms[word]:
            if kind != 'values':
                self.needs(' ')
            getattr(self, kind)()

    def line(self, text, ticket):
        self.text, self.place = text, 0
        if ticket is not None:
            self.needs('%d ' % ticket)
        self.number()
        self.needs(' ')
        if not self.takes('-'):
            self.number()
        self.needs(' ')
        self.label()
        self.needs(' ')
        self.form(ACTS)
        self.needs(' : ')
        self.form(REPLIES)
        if self.place != len(text):
            raise Unreadable('more than a line')


def first_unread(names, text, has_tickets):
    """The number of the first line, from 1, that none of a history (of a view, without tickets) is; None where all are read."""
    lines = Lines(names)
    parts = text.split('\n')
    for place, line in enumerate(parts[:-1]):
        try:
            lines.line(line, place if has_tickets else None)
        except Unreadable:
            return place + 1
    return None if parts[-1] == '' else len(parts)
