"""Calls of the library from Python, good and bad. `tools/bindings` runs it; alone: LIO_LIBRARY=/path/to/liblio.so python3 test_lio.py."""
import ctypes
import os
import random
import re
import threading
import unittest

import lio

HERE = os.path.dirname(os.path.realpath(__file__))
HELLO = os.path.join(HERE, '..', '..', 'examples', 'hello')
LIBRARY = lio.Library(os.environ.get('LIO_LIBRARY', os.path.join(HERE, '..', 'out', 'liblio.so')))
WORDS = ['policy.json', 'hello.lio']
ROOM = 1 << 12
CHANGED_BUNDLES = 5000


def hello():
    """The files of the example."""
    files = {}
    for name in WORDS:
        with open(os.path.join(HELLO, name), 'rb') as file:
            files[name] = file.read()
    return files


def bundle(files):
    return lio.netstrings(part for name, data in files.items() for part in (name.encode(), data))


def read_netstrings(data):
    """The items of netstrings, and at which byte they stop being any, or None: read here in another way than by the library."""
    found, at = [], 0
    while at < len(data):
        head = re.match(rb'(0|[1-9][0-9]*):', data[at:at + 30])
        begin = at + head.end() if head else 0
        end = begin + int(head[1]) if head else len(data)
        if data[end:end + 1] != b',':
            return found, at
        found.append(data[begin:end])
        at = end + 1
    return found, None


def is_text(word):
    try:
        return word.decode() is not None
    except UnicodeDecodeError:
        return False


def fault_of(words, files):
    """Why no call is made by these bytes, and where; or None."""
    items, broken = read_netstrings(words)
    wrong = [number for number, word in enumerate(items) if not is_text(word)]
    if broken is not None:
        return lio.Cause.WORDS_BROKEN, broken
    if wrong:
        return lio.Cause.WORD_NOT_TEXT, wrong[0]
    items, broken = read_netstrings(files)
    if broken is not None:
        return lio.Cause.FILES_BROKEN, broken
    for number in range(0, len(items), 2):
        if number + 1 == len(items):
            return lio.Cause.FILE_ALONE, number
        if items[number] in items[:number:2]:
            return lio.Cause.FILE_TWICE, number
    return None


def changed(rng, data):
    """Bytes with up to three changes."""
    data = bytearray(data)
    for _ in range(rng.randrange(4)):
        at, other, how = rng.randrange(len(data) + 1), rng.randrange(len(data) + 1), rng.randrange(4)
        if how == 0:
            del data[at:at + 1]
        elif how == 1:
            data[at:at] = bytes([rng.choice(b'0123456789:,\xff a')])
        elif how == 2:
            del data[at:]
        else:
            data += data[min(at, other):max(at, other)]
    return bytes(data)


class Calls(unittest.TestCase):
    def test_a_text_is_sent(self):
        response = LIBRARY.run(WORDS, hello())
        self.assertIs(response.status, lio.Status.DONE)
        self.assertEqual(response.said, b'tasks 1\nended 1\nturns 2\nchannel out 2\n')
        self.assertEqual(response.message, '')
        self.assertEqual(response.files, {'out.txt': b'hi'})

    def test_refusals_are_told(self):
        response = LIBRARY.run(WORDS, {})
        self.assertIs(response.status, lio.Status.MISSING)
        self.assertTrue(response.message.startswith('lio_host: Missing(policy.json): '))
        self.assertEqual((response.said, response.files), (b'', {}))
        self.assertIs(LIBRARY.run([], {}).status, lio.Status.BAD_WORDS)
        self.assertIs(LIBRARY.run([*WORDS, '--workers', '2'], hello()).status, lio.Status.BAD_WORDS)

    def test_bundles_that_are_cut_are_refused(self):
        files = bundle(hello())
        ends = [0]
        for part in (part for name, data in hello().items() for part in (name.encode(), data)):
            ends.append(ends[-1] + len(lio.netstring(part)))
        for cut in range(len(files)):
            status, place, needed, _reply = LIBRARY.call(lio.netstrings(word.encode() for word in WORDS), files[:cut])
            if cut not in ends:
                self.assertEqual((status, place, needed), (lio.Cause.FILES_BROKEN, max(end for end in ends if end < cut), 0))
            elif ends.index(cut) % 2:
                self.assertEqual((status, place, needed), (lio.Cause.FILE_ALONE, ends.index(cut) - 1, 0))
            else:
                self.assertEqual(status, lio.Status.MISSING)

    def test_wrong_bundles_are_refused(self):
        for lie in (b'6:hello,', b'4:hello,', b'05:hello,', b'5 :hello,', b'+5:hello,', b'5:hello;', b':,', b'x', b'18446744073709551616:a,'):
            self.assertEqual(LIBRARY.call(lie, b'')[:3], (lio.Cause.WORDS_BROKEN, 0, 0), lie)
            self.assertEqual(LIBRARY.call(b'', b'1:a,' + lie)[:3], (lio.Cause.FILES_BROKEN, 4, 0), lie)
        twice = bundle(hello()) + bundle({'hello.lio': b''})
        self.assertEqual(LIBRARY.call(b'', twice)[:3], (lio.Cause.FILE_TWICE, 4, 0))
        self.assertEqual(LIBRARY.call(lio.netstrings([b'a', b'\xff']), b'')[:3], (lio.Cause.WORD_NOT_TEXT, 1, 0))
        with self.assertRaises(lio.BundleFault) as raised:
            LIBRARY.run(['\udcff'], {})
        self.assertEqual((raised.exception.cause, raised.exception.place), (lio.Cause.WORD_NOT_TEXT, 0))

    def test_changed_bundles_are_answered_as_another_reader_reads_them(self):
        rng = random.Random(1)
        for _ in range(CHANGED_BUNDLES):
            words = changed(rng, lio.netstrings(rng.choice([[b'policy.json', b'hello.lio'], [b'--make', b'2'], [b'\xc3\xa9', b'\xed\xa0\x80'], []])))
            files = changed(rng, bundle(hello()) if rng.random() < 0.5 else lio.netstrings(rng.choice([b'', b'a', b'bb']) for _ in range(rng.randrange(6))))
            fault, told = fault_of(words, files), LIBRARY.call(words, files, rng.choice([0, 1, 50, ROOM]))
            if fault:
                self.assertEqual(told[:3], (*fault, 0), (words, files))
            else:
                self.assertTrue(told[0] in set(lio.Status) and told[1] == 0 < told[2], (words, files, told[:3]))

    def test_what_lies_behind_a_reply_stays(self):
        given = lio.netstrings(word.encode() for word in WORDS), bundle(hello())
        needed = LIBRARY.call(*given, ROOM)[2]
        for room in (needed - 1, needed, ROOM):
            out, told = (ctypes.c_char * (ROOM + 1)).from_buffer(bytearray(b'\xa5' * (ROOM + 1))), lio._Told()
            LIBRARY._call(given[0], len(given[0]), given[1], len(given[1]), out, room, ctypes.byref(told))
            written = needed if room >= needed else 0
            self.assertEqual(out.raw[written:], b'\xa5' * (ROOM + 1 - written))
            self.assertEqual(len(read_netstrings(out.raw[:written])[0]), 4 if written else 0)

    def test_a_reply_without_room(self):
        given = lio.netstrings(word.encode() for word in WORDS), bundle(hello())
        status, _place, needed, reply = LIBRARY.call(*given, ROOM)
        self.assertEqual((status, len(reply)), (0, needed))
        for room in (0, 1, needed - 1):
            self.assertEqual(LIBRARY.call(*given, room), (0, 0, needed, None))
        self.assertEqual(bytes(LIBRARY.call(*given, needed)[3]), bytes(reply))

    def test_a_long_reply(self):
        response = LIBRARY.run(['--make', '64', '--history', 'kept.txt'], {})
        self.assertIs(response.status, lio.Status.DONE, response.message)
        self.assertGreater(len(response.files['kept.txt']), lio.FIRST_ROOM)
        again = LIBRARY.run(['--make', '64', '--check', 'kept.txt'], response.files)
        self.assertIs(again.status, lio.Status.DONE, again.message)

    def test_a_large_file_is_no_trouble(self):
        response = LIBRARY.run(WORDS, {**hello(), 'other.bin': bytes(300_000_000)})
        self.assertIs(response.status, lio.Status.DONE)

    def test_threads(self):
        done = []
        threads = [threading.Thread(target=lambda: done.extend(LIBRARY.run(WORDS, hello()).status for _ in range(50))) for _ in range(4)]
        for thread in threads:
            thread.start()
        for thread in threads:
            thread.join()
        self.assertEqual(done, [lio.Status.DONE] * 200)


if __name__ == '__main__':
    unittest.main()
