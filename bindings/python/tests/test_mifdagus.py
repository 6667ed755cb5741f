"""The package: examples and random scripts of MIFDAGUS_TEXTS, and values of every kind."""
import glob
import os
import threading
import unittest

import mifdagus

PAGE = 'script 1\nblock a top\nappend top a\nset a height 10px\ntick 0\n'


def read(path):
    with open(path, 'rb') as file:
        return file.read()


class Texts(unittest.TestCase):
    def test_traces(self):
        for path in glob.glob(os.path.join(os.environ.get('MIFDAGUS_TEXTS', ''), '*.script')):
            trace = read(path[:-len('script')] + 'trace')
            try:
                found = mifdagus.replay(read(path)).text.encode()
            except mifdagus.SyntaxRefusal as refusal:
                found = b'syntax %d %d\n' % (refusal.line, refusal.column)
            self.assertEqual(found, trace, path)


class Jobs(unittest.TestCase):
    def test_replies(self):
        self.assertEqual(str(mifdagus.replay('script 1\nsay a\n')), 'say a\n')
        self.assertEqual(mifdagus.check(PAGE), mifdagus.Reply('ok 4\n', mifdagus.Status.DONE))
        self.assertEqual(mifdagus.lint('script 1\n').text, 'steady\nquiet\n')
        self.assertIn('say 1\n', mifdagus.summary('script 1\nsay a\n').text)
        self.assertEqual(mifdagus.print_script('script 1\nsay  a\n').text, 'script 1\nsay a\n')
        self.assertTrue(mifdagus.inspect(PAGE, 1).text.startswith('box '))
        self.assertEqual(mifdagus.hit(PAGE, 1, 5, 5.5), mifdagus.hit(PAGE, 1, '5px', '5.5px'))
        self.assertIs(mifdagus.judge('script 1\nsay a\ntrace\nsay a\n').status, mifdagus.Status.DONE)
        self.assertIs(mifdagus.judge('script 1\nsay a\ntrace\nsay b\n').status, mifdagus.Status.DIFFERS)
        self.assertEqual(mifdagus.pages('page a\nscript 1\nsay b\n').text, 'a say b\n')
        self.assertIs(mifdagus.pages('').status, mifdagus.Status.SYNTAX)
        self.assertEqual(mifdagus.summary(mifdagus.generate(3).text), mifdagus.generate_run(3))

    def test_kinds_of_text(self):
        for text in (PAGE, PAGE.encode(), bytearray(PAGE.encode()), memoryview(PAGE.encode())):
            self.assertEqual(mifdagus.check(text).text, 'ok 4\n')

    def test_a_limit(self):
        reply = mifdagus.replay(b'#' * 16777217)
        self.assertEqual((reply.status, reply.limit.kind, reply.limit.line), (mifdagus.Status.LIMIT, 'script', 1))

    def test_a_reply_that_is_long(self):
        script = 'script 1\n' + 'say abcdefgh\n' * 20000
        self.assertEqual(mifdagus.replay(script).text, 'say abcdefgh\n' * 20000)

    def test_threads(self):
        found = []
        threads = [threading.Thread(target=lambda: found.append(mifdagus.generate_run(5).text)) for _ in range(8)]
        for thread in threads:
            thread.start()
        for thread in threads:
            thread.join()
        self.assertEqual(found, [mifdagus.generate_run(5).text] * 8)


class Refusals(unittest.TestCase):
    def test_syntax(self):
        with self.assertRaises(mifdagus.SyntaxRefusal) as refused:
            mifdagus.replay('script 1\nsay 5\n')
        self.assertEqual((refused.exception.line, refused.exception.column), (2, 5))
        self.assertIn('line 2, column 5', str(refused.exception))
        for text in ('', b'', b'\0', bytes(range(256)), '\udcff', '\ud800'):
            self.assertRaises(mifdagus.SyntaxRefusal, mifdagus.replay, text)

    def test_numbers(self):
        for tick in (0, 1000001, -1, 2 ** 64 - 1, 2 ** 64, 10 ** 30):
            self.assertRaises(mifdagus.UsageRefusal, mifdagus.inspect, PAGE, tick)
        for number in (1000001, -1):
            self.assertRaises(mifdagus.UsageRefusal, mifdagus.generate, number)
        for x in ('5', 'px', '', '5em', 1e9, float('nan'), float('inf'), 1e-7, '5px\0', '\u0661px'):
            self.assertRaises(mifdagus.UsageRefusal, mifdagus.hit, PAGE, 1, x, 5)

    def test_types(self):
        for script in (None, 5, ['script 1']):
            self.assertRaises(TypeError, mifdagus.replay, script)
        for tick in (None, '1', 1.0, True):
            self.assertRaises(TypeError, mifdagus.inspect, PAGE, tick)
        self.assertRaises(TypeError, mifdagus.hit, PAGE, 1, None, 5)


if __name__ == '__main__':
    unittest.main()
