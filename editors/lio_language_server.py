#!/usr/bin/env python3
"""A language server for scripts, over standard input and output (editors/README.md).

Usage: lio_language_server.py [--ask PROGRAM]. Errors are those of `lio_ask check POLICY SCRIPT`, asked as one types over copies of what stands in
the editor; the program is crates/lio_ask/out/lio_ask (tools/build lio_ask), or PROGRAM. The policy of NAME.lio is NAME.json beside it, else
policy.json. A PROGRAM that is named lio_host stands in for it in tests: it runs the script, in a folder of its own.
"""
import json
import os
import re
import subprocess
import sys
import tempfile
from urllib.parse import quote, unquote, urlparse

sys.dont_write_bytecode = True
ROOT = os.path.dirname(os.path.dirname(os.path.realpath(__file__)))
REFUSAL = re.compile(r'^lio_\w+: (?:(warning)|(\w+(?:\(.*?\)+)?)): ([^\s:]+)(?::(\d+))?(?::(\d+))?: (.*)$')
WORD = re.compile(r'[a-z][a-z0-9_]*|==|!=|<=|[<+*/%-]')
PROC = re.compile(r'^[ \t]*proc[ \t]+([a-z][a-z0-9_]*)([^\n]*)')
USES = re.compile(r'^[ \t]*(?:call[ \t]+\S+|fork[ \t]+\S+[ \t]+<[^>]*>[ \t]+\S+[ \t]+\S+|fork[ \t]+\S+[ \t]+\S+[ \t]+\S+[ \t]+\S+|spawn[ \t]+\S+[ \t]+\S+)[ \t]+([a-z0-9_]*)$')
PIECES = re.compile(r'"(?:[^"\\]|\\.)*"?|<[^ \t=<>][^<>]*>|[^ \t]+')
OPENS, BETWEEN = {'if', 'while', 'try'}, {'else', 'catch'}
ERROR, WARNING, SECONDS = 1, 2, 10


def pages():
    """What the tables of docs/SCRIPTS.md say of each statement and each operator, by its word."""
    told = {}
    try:
        with open(os.path.join(ROOT, 'docs', 'SCRIPTS.md'), encoding='utf-8') as file:
            lines = file.read().splitlines()
    except OSError:
        return told
    heads = []
    for line in lines:
        cells = [cell.strip() for cell in re.split(r'(?<!\\)\|', line)[1:-1]]
        if not cells:
            heads = []
        elif not heads:
            heads = cells
        elif heads[0] in ('statement', 'operator') and not set(cells[0]) <= set('-'):
            text = '%s\n\n%s' % (cells[0], '\n'.join('%s: %s  ' % (head, cell) for head, cell in zip(heads[1:], cells[1:]) if cell))
            for form in re.findall(r'`([^`]*)`', cells[0]):
                words = form.split()
                named = [words[1] if words[0] in ('A', 'X') else words[0]] if heads[0] == 'operator' else [words[0]]
                for word in named + [word for word in words if word in BETWEEN | {'using'}]:
                    told[word] = told[word] + '\n\n' + text if word in told and text not in told[word] else told.get(word, text)
    return told


TOLD = {'proc': '`proc P X ..`\n\nbegins a procedure with at most 8 parameters; a line `end` ends it', **pages()}


def procedures(text):
    """The procedures of a script: each name with its parameters and its line."""
    found = [(number, PROC.match(line)) for number, line in enumerate(text.split('\n'))]
    return {match.group(1): (match.group(2).split(), number) for number, match in reversed(found) if match}


def layout(text):
    """The script with its blocks indented by two blanks and one blank between two words."""
    lines, depth = [], 0
    for line in text.split('\n'):
        words = PIECES.findall(line) if not line.lstrip(' \t').startswith('#') else [line.strip(' \t\r')]
        first = words[0] if words else ''
        if first == 'proc':
            depth = 0
        elif first in BETWEEN or first == 'end':
            depth = max(0, depth - 1)
        lines.append(('  ' * depth + ' '.join(word.rstrip('\r') for word in words)).rstrip())
        depth += first in OPENS or first in BETWEEN
    return '\n'.join(lines)


def path_of(uri):
    return unquote(urlparse(uri).path)


def policy_of(script):
    own = os.path.splitext(script)[0] + '.json'
    return own if os.path.exists(own) else os.path.join(os.path.dirname(script), 'policy.json')


class Server:
    """The documents that are open, and the program that is asked."""

    def __init__(self, program):
        self.texts, self.shut = {}, False
        asked = program or os.path.join(ROOT, 'crates', 'lio_ask', 'out', 'lio_ask')
        self.program = asked if os.access(asked, os.X_OK) else None
        self.checks = os.path.basename(asked) != 'lio_host'

    def said(self, uri):
        """The policy's and the script's names, and what the program says of both on standard error."""
        script = path_of(uri)
        policy = policy_of(script)
        policy_uri = 'file://' + quote(policy)
        with tempfile.TemporaryDirectory(prefix='lio-check-') as folder:
            names = {policy: os.path.basename(policy), script: os.path.basename(script)}
            if policy_uri in self.texts:
                policy_text = self.texts[policy_uri]
            elif os.path.exists(policy):
                with open(policy, encoding='utf-8', errors='replace') as file:
                    policy_text = file.read()
            else:
                return names, ''
            for path, text in ((policy, policy_text), (script, self.texts[uri])):
                with open(os.path.join(folder, names[path]), 'w', encoding='utf-8', newline='') as file:
                    file.write(text)
            words = [names[policy], names[script]]
            if not self.checks and not empty_inputs(folder, policy_text, names.values()):
                return names, ''
            try:
                asked = subprocess.run([self.program, *(['check'] if self.checks else []), *words], cwd=folder, stdin=subprocess.DEVNULL, capture_output=True,
                                       timeout=SECONDS, check=False)
            except (OSError, subprocess.TimeoutExpired):
                return names, ''
        return names, asked.stderr.decode('utf-8', 'replace')

    def diagnostics(self, uri):
        """What is wrong, by the document in which it stands."""
        names, said = self.said(uri) if self.program else ({path_of(uri): ''}, '')
        wrong = {'file://' + quote(path): [] for path in names}
        wrong[uri] = wrong.pop('file://' + quote(path_of(uri)), [])
        paths = {name: path for path, name in names.items()}
        for line in said.splitlines():
            found = REFUSAL.match(line)
            if not found or found.group(3) not in paths:
                continue
            warning, _, name, row, column, text = found.groups()
            there = uri if paths[name] == path_of(uri) else 'file://' + quote(paths[name])
            row, column = max(0, int(row or 1) - 1), max(0, int(column or 1) - 1)
            start, end = {'line': row, 'character': column}, {'line': row, 'character': max(column + 1, self.width(there, row))}
            severity = WARNING if warning else ERROR
            wrong[there].append({'range': {'start': start, 'end': end}, 'severity': severity, 'source': 'lio', 'message': text})
        return wrong

    def width(self, uri, row):
        lines = self.texts.get(uri, '').split('\n')
        return len(lines[row]) if row < len(lines) else 0

    def tell(self, uri):
        if not uri.endswith('.lio'):
            return [note for open_uri in self.texts if open_uri.endswith('.lio') and policy_of(path_of(open_uri)) == path_of(uri) for note in self.tell(open_uri)]
        return [{'method': 'textDocument/publishDiagnostics', 'params': {'uri': there, 'diagnostics': all_of}} for there, all_of in self.diagnostics(uri).items()]

    def line_of(self, params):
        lines = self.texts.get(params['textDocument']['uri'], '').split('\n')
        place = params['position']
        return (lines[place['line']] if place['line'] < len(lines) else ''), place['character']

    def word_of(self, params):
        line, at = self.line_of(params)
        return next((found.group() for found in WORD.finditer(line) if found.start() <= at <= found.end()), None)

    def hover(self, params):
        word, known = self.word_of(params), procedures(self.texts.get(params['textDocument']['uri'], ''))
        line, _ = self.line_of(params)
        if word in known and re.match(r'[ \t]*(proc|call|fork|spawn)\b', line) and word not in TOLD:
            return {'contents': {'kind': 'markdown', 'value': '`proc %s`' % ' '.join([word, *known[word][0]])}}
        return {'contents': {'kind': 'markdown', 'value': TOLD[word]}} if word in TOLD else None

    def definition(self, params):
        uri = params['textDocument']['uri']
        known, word = procedures(self.texts.get(uri, '')), self.word_of(params)
        return {'uri': uri, 'range': span(known[word][1])} if word in known else None

    def completion(self, params):
        line, at = self.line_of(params)
        text = self.texts.get(params['textDocument']['uri'], '')
        known = procedures(text)
        if USES.match(line[:at]):
            return [{'label': name, 'kind': 3, 'detail': ' '.join(['proc', name, *known[name][0]])} for name in sorted(known)]
        if re.match(r'^[ \t]*[a-z]*$', line[:at]):
            return [{'label': word, 'kind': 14, 'documentation': {'kind': 'markdown', 'value': TOLD[word]}} for word in sorted(TOLD) if word.isalpha()]
        names = set(re.findall(r'^[ \t]*(?:let|call|label|unlabel|relabel|newref|read|newvar|fullvar|take|fork|wait)[ \t]+([a-z][a-z0-9_]*)', text, re.MULTILINE))
        names |= {name for parameters, _ in known.values() for name in parameters}
        return [{'label': name, 'kind': 6} for name in sorted(names)]

    def symbols(self, params):
        known = procedures(self.texts.get(params['textDocument']['uri'], ''))
        return [{'name': name, 'kind': 12, 'range': span(row), 'selectionRange': span(row)} for name, (_, row) in sorted(known.items(), key=lambda it: it[1][1])]

    def formatting(self, params):
        text = self.texts.get(params['textDocument']['uri'], '')
        whole = {'start': {'line': 0, 'character': 0}, 'end': {'line': text.count('\n') + 1, 'character': 0}}
        return [{'range': whole, 'newText': layout(text)}]

    def answer(self, message):
        """The messages that answer a message."""
        method, params = message.get('method'), message.get('params') or {}
        asked = {'textDocument/hover': self.hover, 'textDocument/definition': self.definition, 'textDocument/completion': self.completion,
                 'textDocument/documentSymbol': self.symbols, 'textDocument/formatting': self.formatting}
        if method == 'initialize':
            able = {'textDocumentSync': 1, 'hoverProvider': True, 'definitionProvider': True, 'completionProvider': {}, 'documentSymbolProvider': True,
                    'documentFormattingProvider': True}
            return [reply(message, {'capabilities': able, 'serverInfo': {'name': 'lio'}})]
        if method in ('textDocument/didOpen', 'textDocument/didChange'):
            document = params['textDocument']
            self.texts[document['uri']] = document['text'] if 'text' in document else params['contentChanges'][-1]['text']
            return self.tell(document['uri'])
        if method == 'textDocument/didClose':
            self.texts.pop(params['textDocument']['uri'], None)
            return [{'method': 'textDocument/publishDiagnostics', 'params': {'uri': params['textDocument']['uri'], 'diagnostics': []}}]
        if method in asked:
            return [reply(message, asked[method](params))]
        if method == 'shutdown':
            self.shut = True
            return [reply(message, None)]
        return [{'id': message['id'], 'error': {'code': -32601, 'message': 'no such method'}}] if 'id' in message else []


def empty_inputs(folder, policy, taken):
    """Makes empty files for the inputs of a policy; answers whether no file of the policy lies outside of the folder."""
    try:
        read = json.loads(policy)
        inputs, files = ([entry['file'] for key in keys for entry in read[key]] for keys in (['inputs'], ['inputs', 'channels']))
    except (ValueError, KeyError, TypeError):
        # such a policy is refused before anything is run
        return True
    if any(not isinstance(name, str) or not re.fullmatch(r'\w[\w.-]{0,99}', name) or name in taken for name in files):
        return False
    for name in inputs:
        with open(os.path.join(folder, name), 'w', encoding='utf-8'):
            pass
    return True


def span(row):
    return {'start': {'line': row, 'character': 0}, 'end': {'line': row, 'character': 0}}


def reply(message, result):
    return {'id': message.get('id'), 'result': result}


def receive(stream):
    """The next message, or None at the end."""
    length = 0
    for line in iter(stream.readline, b''):
        name, _, value = line.decode('ascii', 'replace').partition(':')
        if name.lower() == 'content-length':
            length = int(value)
        elif not line.strip() and length:
            return json.loads(stream.read(length).decode('utf-8'))
    return None


def main(words):
    if words and (len(words) != 2 or words[0] != '--ask'):
        sys.exit(__doc__)
    server = Server(words[1] if words else None)
    for message in iter(lambda: receive(sys.stdin.buffer), None):
        if message.get('method') == 'exit':
            return 0 if server.shut else 1
        for answer in server.answer(message):
            body = json.dumps({'jsonrpc': '2.0', **answer}).encode('utf-8')
            sys.stdout.buffer.write(b'Content-Length: %d\r\n\r\n%s' % (len(body), body))
            sys.stdout.buffer.flush()
    return 0


if __name__ == '__main__':
    sys.exit(main(sys.argv[1:]))
