"""What the dearest turns cost, by valgrind's callgrind, each beside a turn of a loop that counts; and how runs grow with their turns."""
import itertools
import pathlib
import shutil
import sys
import tempfile

from lines import tell

from instructions import instructions

PEOPLE = [f'p{n:02}' for n in range(64)]
# how often a loop does what is measured, in the short and in the long run
FEW, MANY = 40, 240


def clause(members):
    return '(' + ' \\/ '.join(members) + ')' if len(members) > 1 else members[0]


def label(clauses):
    return '<' + ' /\\ '.join(clause(it) for it in clauses) + ' %% True>'


def ring(step):
    """A label of 64 clauses: each principal, or the one so many behind."""
    return label([sorted([PEOPLE[n], PEOPLE[(n + step) % 64]]) for n in range(64)])


def fours(skipped):
    """A label of 64 clauses of four of eight principals, of which there are 70."""
    every = list(itertools.combinations(PEOPLE[:8], 4))
    return label([it for n, it in enumerate(every) if n % 70 not in skipped])


def labels():
    few, more = fours(range(6)), fours(range(40, 46))
    return [
        ('wide', '`meet` of two labels of 64 clauses, refused as wide and caught', f'let a = {ring(1)}\nlet b = {ring(7)}\n', 'try\nlet x = a meet b\ncatch k v\nend\n', 5),
        ('narrow', '`meet` of two labels of 64 clauses, done', f'let a = {few}\nlet b = {more}\n', 'let x = a meet b\n', 3),
        ('flows', '`flows` between two labels of 64 clauses', f'let a = {ring(1)}\nlet b = {ring(7)}\n', 'let x = a flows b\n', 3),
    ]


def names(count):
    """So many names, in their order."""
    letters = 'abcdefghijklmnopqrstuvwxyz'
    return ['n' + ''.join(it) for it in itertools.islice(itertools.product(letters, repeat=3), count)]


def look_ups():
    bound = names(6_000)
    # the first name in the order is never bound, so that no name stands at the place which its rank is
    before = ''.join(f'let {name} = 1\n' for name in bound) + 'let never = false\nif never\nlet aa = 1\nend\n'
    return [('names', '`let` of a name among 6,000, the first of which was never bound', before, f'let {bound[4_000]} = {bound[5_000]}\n', 3)]


def lists():
    before = 'let l = []\nlet l = l push 1\n' + 'let l = l + l\n' * 14
    return [('list', '`let` of a list of 16,384 items', before, 'let y = l\n', 3)]


def taken(host, policy, task, argument, before, body, turns):
    """The instructions of a run in which a loop takes so many turns behind what stands before it."""
    script = f'proc main c\n{before}let go = true\nwhile go\n{body}end\nend\n'
    with tempfile.TemporaryDirectory() as folder:
        folder = pathlib.Path(folder)
        (folder / 'policy.json').write_text(policy([task(before.count('\n') + 1 + turns, [argument], cells=4)], longest=65_536, principals=PEOPLE))
        (folder / 'script.lio').write_text(script)
        return instructions([host, 'policy.json', 'script.lio'], folder)


def growing(host, policy, task, argument, waiting, words):
    """The instructions of a run in which so many tasks wait at a variable, and as many values come through it."""
    script = f'''proc main c
newvar v <True %% True>
let i = 0
let go = true
while go
spawn 3 0 child v
let i = i + 1
let go = i < {waiting}
end
let i = 0
let go = true
while go
put v 1
let i = i + 1
let go = i < {waiting}
end
end
proc child v
take x v
end
'''
    with tempfile.TemporaryDirectory() as folder:
        folder = pathlib.Path(folder)
        (folder / 'policy.json').write_text(policy([task(14 * waiting + 10, [argument], cells=waiting + 1)]))
        (folder / 'script.lio').write_text(script)
        return instructions([host, 'policy.json', 'script.lio', *words], folder)


def idle(host, policy, task, argument, channel, count):
    """The instructions of a million turns beside so many channels, all but one of which receive nothing."""
    channels = [channel('out')] + [channel(f'idle{n}') for n in range(count - 1)]
    spent = []
    for turns in (3_000, 30_000):
        with tempfile.TemporaryDirectory() as folder:
            folder = pathlib.Path(folder)
            (folder / 'policy.json').write_text(policy([task(turns, [argument])], channels=channels))
            (folder / 'script.lio').write_text('proc main c\nlet go = true\nwhile go\nlet i = 1\nend\nend\n')
            spent.append(instructions([host, 'policy.json', 'script.lio'], folder))
    return spent[0] + (spent[1] - spent[0]) / 27_000 * 997_000


def measure(host, policy, task, argument, channel):
    """Prints a line for each of the dearest turns, and for each way in which a run could grow."""
    if not shutil.which('valgrind'):
        sys.exit("bench/run: valgrind isn't installed")
    plain = (taken(host, policy, task, argument, '', 'let i = 1\n', 3_000) - taken(host, policy, task, argument, '', 'let i = 1\n', 600)) / 2_400
    for name, what, before, body, turns in labels() + look_ups() + lists():
        few, many = (taken(host, policy, task, argument, before, body, turns * loops) for loops in (FEW, MANY))
        dear = (many - few) / (MANY - FEW) - (turns - 1) * plain
        tell(f'{name}: {dear:,.0f} instructions, as many as {dear / plain:,.0f} plain turns ({what})')
    for name, words in (('waiting by rounds', []), ('waiting by one worker', ['--workers', '1'])):
        few, many = (growing(host, policy, task, argument, waiting, words) for waiting in (500, 1_000))
        tell(f'{name}: {many / few:.2f} times the instructions for twice as many tasks and values')
    beside = [idle(host, policy, task, argument, channel, count) for count in (1, 256)]
    tell(f'idle channels: {beside[1] / beside[0]:.2f} times the instructions of a million turns beside 256 channels as beside one')
