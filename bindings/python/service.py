"""An example of a service: tenants post scripts that run over the data of all of them, and each gets the bytes of a channel of its own alone.

    LIO_LIBRARY=../out/liblio.so python3 service.py DATA [PORT]

In the folder DATA lie NAME.txt, a tenant's data, and NAME.key, its key. `POST /` with the headers `Tenant: NAME` and `Key: KEY` runs
the script of the body, whose procedure `main` gets the tenant's channel and then each tenant's data, by name. What others keep secret can't
reach the answer: the channel is the tenant's, and nobody has a privilege. The summary, the messages of a run and its history tell more, and
stay here: they are the operator's. How long a run takes isn't hidden from whoever waits for it.
"""
import hmac
import http.server
import json
import os
import sys

import lio

MOST_SCRIPT, MOST_DATA, TURNS, CELLS = 1 << 16, 4096, 1000, 20
# why no run began, which policy and script alone decide: so it is told
REFUSED = {lio.Status.BAD_SCRIPT, lio.Status.BAD_START}


def policy_for(tenant, tenants):
    """The policy of a run for a tenant: one channel, which the tenant may read, and the data of all."""
    everybody = ' /\\ '.join(tenants)
    return json.dumps({
        'version': 1, 'longest': MOST_DATA, 'principals': tenants,
        'channels': [{'name': 'mine', 'label': f'{tenant} %% True', 'file': 'mine'}],
        'inputs': [{'name': name, 'label': f'{name} %% True', 'file': f'data.{name}'} for name in tenants],
        'tasks': [{'name': 'main', 'proc': 'main', 'label': 'True %% True', 'clearance': f'{everybody} %% True', 'turns': TURNS, 'cells': CELLS,
                   'args': [{'channel': 'mine'}, *({'input': name} for name in tenants)]}],
    }).encode()


class Tenants:
    """The tenants' keys and data, and the library that runs their scripts."""

    def __init__(self, folder, library):
        self.library, self.keys, self.data = library, {}, {}
        for name in sorted(os.listdir(folder)):
            tenant, dot, kind = name.partition('.')
            with open(os.path.join(folder, name), 'rb') as file:
                if dot and kind == 'key':
                    self.keys[tenant] = file.read().strip()
                elif dot and kind == 'txt':
                    self.data[tenant] = file.read()
        self.names = sorted(self.keys)

    def knows(self, tenant, key):
        """Whether a key is the tenant's."""
        kept = self.keys.get(tenant)
        return kept is not None and hmac.compare_digest(kept, key.encode())

    def run(self, tenant, script):
        """The status and the body of the answer to a tenant's script."""
        files = {f'data.{name}': self.data.get(name, b'') for name in self.names}
        files |= {'policy': policy_for(tenant, self.names), 'script': script}
        try:
            response = self.library.run(['policy', 'script'], files)
        except lio.NoMemory:
            return 503, b''
        if response.status is lio.Status.DONE:
            return 200, response.files['mine']
        if response.status in REFUSED:
            return 400, response.message.encode()
        return 500, b''


class Handler(http.server.BaseHTTPRequestHandler):
    """Answers one request."""

    tenants: Tenants

    def do_POST(self):
        tenant = self.headers.get('Tenant', '')
        length = self.headers.get('Content-Length', '')
        if not self.tenants.knows(tenant, self.headers.get('Key', '')):
            self.answer(403, b'')
        elif not length.isdigit() or int(length) > MOST_SCRIPT:
            self.answer(413, b'')
        else:
            self.answer(*self.tenants.run(tenant, self.rfile.read(int(length))))

    def answer(self, status, body):
        self.send_response(status)
        self.send_header('Content-Type', 'application/octet-stream')
        self.send_header('Content-Length', str(len(body)))
        self.end_headers()
        self.wfile.write(body)

    def log_message(self, format, *values):
        """Nothing of a run is logged."""


def server(folder, library, port=0):
    """The server of the tenants of a folder, which calls the library from a thread for each request."""
    handler = type('TenantsHandler', (Handler,), {'tenants': Tenants(folder, library)})
    return http.server.ThreadingHTTPServer(('127.0.0.1', port), handler)


def main():
    if len(sys.argv) not in (2, 3):
        sys.exit(__doc__)
    with server(sys.argv[1], lio.Library(os.environ['LIO_LIBRARY']), int(sys.argv[2]) if sys.argv[2:] else 8080) as it:
        it.serve_forever()


if __name__ == '__main__':
    main()
