"""Lines of measures, each with what it said when the same was measured last on this machine, so that a loss is seen."""
import atexit
import json
import pathlib
import re

FOLDER = pathlib.Path(__file__).resolve().parent / 'out'
NUMBER = re.compile(r'\d[\d,]*(?:\.\d+)?')
# what was told last, and now: the first number behind a line's name
last, now = {}, {}


def begin(mode):
    """Reads what a mode of bench/run told last, and keeps at the end what it tells now."""
    file = FOLDER / f'{mode}.json'
    try:
        last.update(json.loads(file.read_text()))
    except (OSError, ValueError):
        pass

    def keep():
        FOLDER.mkdir(exist_ok=True)
        file.write_text(json.dumps({**last, **now}, indent=1))

    atexit.register(keep)


def tell(line):
    """Prints a line `NAME: NUMBER ..`, with what the number was last."""
    name, colon, rest = line.partition(': ')
    found = NUMBER.search(rest) if colon else None
    before = ''
    if found:
        value = now[name] = float(found.group().replace(',', ''))
        if name in last:
            before = f'; last {last[name]:,.15g}' + (f', now {value / last[name]:.2f} times that' if last[name] else '')
    print(line + before, flush=True)
