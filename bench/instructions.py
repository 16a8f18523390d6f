"""Instructions a turn of scripts of many kinds, by valgrind's callgrind: the same on every machine, so that a change is seen."""
import pathlib
import re
import shutil
import subprocess
import sys
import tempfile

from lines import tell

# As many turns as a task has in the short and the long run of a script: what a turn costs is the difference by turns.
SHORT, LONG = 6_400, 32_000

# What each script does, its text, and how many tasks run it.
SCRIPTS = [
    ('count', 'a loop that counts', 1, '''proc main c
let i = 0
let go = true
while go
let i = i + 1
let go = i < 1000000
end
end
'''),
    ('tasks64', 'the same in 64 tasks', 64, '''proc main c
let i = 0
let go = true
while go
let i = i + 1
let go = i < 1000000
end
end
'''),
    ('names', 'a loop with three `let`, 20 names bound', 1, 'proc main c\n' + ''.join(f'let name{chr(97 + n)} = {n}\n' for n in range(20)) + '''let go = true
while go
let named = named + 1
let namek = named + 1
let namer = namek + 1
end
end
'''),
    ('readwrite', 'read, add and write of one reference', 1, '''proc main c
newref r <True %% True> 0
let go = true
while go
read i r
let i = i + 1
write r i
end
end
'''),
    ('lists', 'lists that get 16 items: push, at, a loop', 1, '''proc main c
let loop = true
while loop
let l = []
let i = 0
let go = true
while go
let l = l push i
let x = l at i
let i = i + 1
let go = i < 16
end
end
end
'''),
    ('send', 'sends of 40 bytes', 1, '''proc main c
let go = true
while go
send c "abcdefghijklmnopqrstabcdefghijklmnopqrst"
end
end
'''),
    ('trycatch', 'a division by zero that is caught', 1, '''proc main c
let go = true
while go
try
let x = 1 / 0
catch code payload
end
end
end
'''),
    ('call', 'a call of a procedure that returns 1', 1, '''proc main c
let go = true
while go
call x one
end
end
proc one
return 1
end
'''),
    ('pingpong', 'values to and fro between two tasks, by two variables', 1, '''proc main c
newvar v <True %% True>
newvar w <True %% True>
fork r <True %% True> TURNS 0 other v w
let go = true
while go
put v 1
take x w
end
end
proc other v w
let go = true
while go
take x v
put w x
end
end
'''),
    ('grow', 'a text that grows to 100 bytes, and again', 1, '''proc main c
let again = true
while again
let text = "a"
let go = true
while go
let text = text + "a"
let rest = text from 1
let size = len rest
let go = size < 99
end
end
end
'''),
    ('labels', '`label`, `labelof` and `flows`', 1, '''proc main c
let go = true
while go
label x <True %% True> 1
let l = labelof x
let f = l flows l
end
end
'''),
]


def instructions(words, folder):
    """How many instructions a program takes."""
    result = subprocess.run(['valgrind', '--tool=callgrind', '--callgrind-out-file=/dev/null', *words], cwd=folder, capture_output=True, text=True)
    found = re.search(r'Collected : (\d+)', result.stderr)
    if not found:
        sys.exit(f'bench/run: valgrind: {result.stderr}')
    return int(found.group(1))


def measure(host, policy, task, argument):
    """Prints a line for each script: the instructions of a turn."""
    if not shutil.which('valgrind'):
        sys.exit("bench/run: valgrind isn't installed")
    for name, what, tasks, script in SCRIPTS:
        taken = []
        for turns in [SHORT, LONG]:
            share = turns // tasks
            # the parent of two tasks gives half of its turns away, and they take as many as each other
            text = script.replace('TURNS', str(share // 2))
            with tempfile.TemporaryDirectory() as folder:
                folder = pathlib.Path(folder)
                (folder / 'policy.json').write_text(policy([task(share, [argument], name=f't{n}', cells=4) for n in range(tasks)], longest=128))
                (folder / 'script.lio').write_text(text)
                taken.append(instructions([host, 'policy.json', 'script.lio'], folder))
        tell(f'{name}: {(taken[1] - taken[0]) / (LONG - SHORT):,.0f} instructions a turn ({what})')
