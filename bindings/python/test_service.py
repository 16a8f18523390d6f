"""Tests the service: two tenants post scripts, and each gets the bytes of its channel alone."""
import http.client
import os
import tempfile
import threading
import unittest

import lio
import service

HERE = os.path.dirname(os.path.realpath(__file__))
LIBRARY = lio.Library(os.environ.get('LIO_LIBRARY', os.path.join(HERE, '..', 'out', 'liblio.so')))
KEYS = {'alice': 'rose', 'bob': 'iris'}
DATA = {'alice': b'pears', 'bob': b'figs'}
# tells the tenant its own data, or tries to tell it the other's
OWN = b'proc main c a b\nunlabel t %s\nsend c t\nend\n'
# tries each way that is open to a script, and then says that it is through
STEAL = b'''proc main c a b
send c "started"
fork r <alice /\\ bob %%%% True> 20 0 look c %s
newref m <True %%%% True> "nothing"
unlabel t %s
try
  send c t
catch kind x
end
try
  write m t
catch kind x
end
end

proc look c v
unlabel t v
try
  send c t
catch kind x
end
return t
end
'''


class Service(unittest.TestCase):
    def setUp(self):
        self.folder = tempfile.TemporaryDirectory()
        for name, key in KEYS.items():
            for kind, data in (('key', key.encode()), ('txt', DATA[name])):
                with open(os.path.join(self.folder.name, f'{name}.{kind}'), 'wb') as file:
                    file.write(data)
        self.server = service.server(self.folder.name, LIBRARY)
        self.thread = threading.Thread(target=self.server.serve_forever)
        self.thread.start()

    def tearDown(self):
        self.server.shutdown()
        self.thread.join()
        self.server.server_close()
        self.folder.cleanup()

    def post(self, tenant, script, key=None):
        connection = http.client.HTTPConnection(*self.server.server_address, timeout=30)
        connection.request('POST', '/', script, {'Tenant': tenant, 'Key': KEYS[tenant] if key is None else key})
        response = connection.getresponse()
        answer = response.status, response.read()
        connection.close()
        return answer

    def test_each_gets_its_own(self):
        self.assertEqual(self.post('alice', OWN % b'a'), (200, b'pears'))
        self.assertEqual(self.post('bob', OWN % b'b'), (200, b'figs'))

    def test_nobody_gets_the_others(self):
        self.assertEqual(self.post('alice', STEAL % (b'b', b'b')), (200, b'started'))
        self.assertEqual(self.post('bob', STEAL % (b'a', b'a')), (200, b'started'))
        self.assertEqual(self.post('alice', OWN % b'b'), (200, b''))

    def test_other_data_change_no_byte(self):
        first = [self.post('alice', script) for script in (OWN % b'a', OWN % b'b', STEAL % (b'b', b'b'))]
        self.server.RequestHandlerClass.tenants.data['bob'] = b'1'
        self.assertEqual([self.post('alice', script) for script in (OWN % b'a', OWN % b'b', STEAL % (b'b', b'b'))], first)

    def test_a_script_that_is_none_is_told(self):
        status, message = self.post('alice', b'proc main c a b\nsend\nend\n')
        self.assertEqual(status, 400)
        self.assertIn(b'BadScript(2, ', message)

    def test_keys(self):
        self.assertEqual(self.post('alice', OWN % b'a', key=KEYS['bob']), (403, b''))
        self.assertEqual(self.post('alice', OWN % b'a', key=''), (403, b''))

    def test_both_at_once(self):
        answers = []
        threads = [threading.Thread(target=lambda name=name, letter=letter: answers.append((name, self.post(name, OWN % letter))))
                   for name, letter in [('alice', b'a'), ('bob', b'b')] * 10]
        for thread in threads:
            thread.start()
        for thread in threads:
            thread.join()
        self.assertEqual(sorted(answers), sorted([(name, (200, DATA[name])) for name in KEYS] * 10))


if __name__ == '__main__':
    unittest.main()
