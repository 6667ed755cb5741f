"""Runs the module in Chromium: serves page.html and the files of bindings/js, hands out cases, and compares what is posted back."""
import http.server
import json
import os
import queue
import re
import subprocess
import tempfile
import threading

HERE = os.path.dirname(os.path.abspath(__file__))
JS = os.path.join(os.path.dirname(HERE), 'js')
KINDS = {'.js': 'text/javascript', '.wasm': 'application/wasm', '.html': 'text/html; charset=utf-8'}
SECONDS = 120
PAGE = 'script 1\nblock a top\nappend top a\nset a height 10px\ntick 0\n'
NAMES = ['top'] + ['e%d' % level for level in range(254)]
DEEPEST = 'script 1\n' + ''.join('block %s top\nappend %s %s\n' % (b, a, b) for a, b in zip(NAMES, NAMES[1:])) + 'tick 0\n'
# Calls with values of every kind, and a part of what they answer.
HOSTILE = [
    (['check', PAGE], {'status': 'done', 'text': 'ok 4\n'}), (['lint', 'script 1\n'], {'text': 'steady\nquiet\n'}),
    (['inspect', PAGE, 1], {'status': 'done'}), (['inspect', PAGE, 0], {'fault': 'UsageRefusal'}),
    (['inspect', PAGE, -1], {'fault': 'UsageRefusal'}), (['inspect', PAGE, 1.5], {'fault': 'UsageRefusal'}),
    (['inspect', PAGE, None], {'fault': 'UsageRefusal'}), (['inspect', PAGE, 2 ** 53], {'fault': 'UsageRefusal'}),
    (['hit', PAGE, 1, 5, '5px'], {'status': 'done'}), (['hit', PAGE, 1, '5', '5px'], {'fault': 'UsageRefusal'}),
    (['hit', PAGE, 1, None, 5], {'fault': 'TypeError'}), (['hit', PAGE, 1, '\ud800px', 5], {'fault': 'UsageRefusal'}),
    (['replay', None], {'fault': 'TypeError'}), (['replay', 5], {'fault': 'TypeError'}),
    (['replay', ''], {'fault': 'SyntaxRefusal', 'line': 1}),
    (['replay', 'script 1\nsay \u00e9\n'], {'fault': 'SyntaxRefusal', 'line': 2, 'column': 5}),
    (['judge', 'script 1\nsay a\ntrace\nsay b\n'], {'status': 'differs'}), (['judge', ''], {'status': 'differs'}),
    (['pages', 'page a\nscript 1\nsay b\n'], {'status': 'done', 'text': 'a say b\n'}), (['pages', ''], {'status': 'syntax'}),
    (['generate', 1000001], {'fault': 'UsageRefusal'}), (['generate', 3], {'status': 'done'}), (['generateRun', 3], {'status': 'done'}),
    (['print', 'script 1\nsay  a\n'], {'status': 'done', 'text': 'script 1\nsay a\n'}),
    (['summary', 'script 1\nsay a\n'], {'status': 'done'}), (['replay', DEEPEST], {'status': 'done', 'text': 'tick 0\n'}),
]
ROUND = {'slow': {'fault': 'OutOfTime'}, 'quick': {'status': 'done', 'text': 'say a\n'},
         'wrong': {'fault': 'SyntaxRefusal', 'line': 2, 'column': 5}, 'types': {'fault': 'TypeError'}, 'odd': {'fault': 'TypeError'},
         'closed': {'message': 'the worker was closed'}, 'again': {'status': 'done', 'text': 'say b\n'}, 'limit': {'status': 'limit'}}


class Server(http.server.ThreadingHTTPServer):
    def __init__(self, cases, shown, module):
        self.module, self.cases, self.shown, self.posted = module, json.dumps(cases).encode(), shown.encode(), queue.Queue()
        super().__init__(('127.0.0.1', 0), Handler)


class Handler(http.server.BaseHTTPRequestHandler):
    def do_GET(self):
        name = self.path.split('?')[0]
        if name == '/cases':
            return self.send(self.server.cases, 'application/json')
        if name == '/shown/':
            return self.send(self.server.shown, KINDS['.html'])
        own = {'/': 'page.html', '/round.js': 'round.js'}.get(name)
        path = os.path.join(HERE, own) if own else os.path.join(JS, os.path.basename(name))
        if path.endswith('.wasm'):
            path = self.server.module
        if not os.path.isfile(path):
            return self.send_error(404)
        with open(path, 'rb') as file:
            self.send(file.read(), KINDS.get(os.path.splitext(path)[1], 'text/plain'))

    def do_POST(self):
        self.server.posted.put((self.path, json.loads(self.rfile.read(int(self.headers['Content-Length'])))))
        self.send(b'', 'text/plain')

    def send(self, content, kind):
        self.send_response(200)
        self.send_header('Content-Type', kind)
        self.send_header('Content-Length', str(len(content)))
        self.end_headers()
        self.wfile.write(content)

    def log_message(self, *words):
        pass


def posted_by(browser, server, place):
    """What a page of the server posts."""
    with tempfile.TemporaryDirectory(prefix='page-') as profile:
        words = [browser, '--headless', '--no-sandbox', '--disable-gpu', '--disable-dev-shm-usage', '--no-first-run',
                 '--user-data-dir=' + profile, '--remote-debugging-port=0', 'http://127.0.0.1:%d%s' % (server.server_port, place)]
        process = subprocess.Popen(words, stdout=subprocess.DEVNULL, stderr=subprocess.DEVNULL, stdin=subprocess.DEVNULL)
        try:
            return server.posted.get(timeout=SECONDS)[1]
        except queue.Empty:
            return {'fault': 'the page posted nothing in %d seconds' % SECONDS}
        finally:
            process.terminate()
            process.wait()


def wanted_of(trace):
    """What `replay` answers for a text with this trace."""
    refusal = re.fullmatch(r'syntax (\d+) (\d+)\n', trace)
    if refusal:
        return {'fault': 'SyntaxRefusal', 'line': int(refusal[1]), 'column': int(refusal[2])}
    is_limit = re.search(r'(?:^|\n)limit \S+ \d+ \d+\n\Z', trace)
    return {'status': 'limit' if is_limit else 'done', 'text': trace}


def holds(answer, wanted):
    return all(answer.get(name) == value for name, value in wanted.items())


def cases_of(texts):
    """Calls with a part of what each answers: those of texts with their traces, and hostile ones."""
    texts = [(name, text.decode(), told.decode()) for name, text, told in texts if is_utf8(text)]
    return [(['replay', text], wanted_of(told)) for _, text, told in texts] + HOSTILE


def differences(browser, module, texts, shown, script, trace):
    """`module` is the path of the module, and `shown` is the page that the README shows: its script is posted with what it writes, to be compared."""
    cases = cases_of(texts)
    report = "<script type=\"module\">setTimeout(function look() { const found = document.querySelector('pre')?.textContent; " \
             "found ? fetch('/shown', { method: 'POST', body: JSON.stringify({ text: found }) }) : setTimeout(look, 50); })</script>"
    server = Server([words for words, _ in cases], shown.replace('./mifdagus.js', '/js/mifdagus.js') + report, module)
    threading.Thread(target=server.serve_forever, daemon=True).start()
    try:
        yield from compared(posted_by(browser, server, '/'), cases)
        found = posted_by(browser, server, '/shown/')
        if found.get('text') != trace.decode():
            yield 'the page of bindings/js/README.md shows %r' % found
    finally:
        server.shutdown()


def is_utf8(text):
    try:
        return bool(text.decode()) or True
    except UnicodeDecodeError:
        return False


def compared(told, cases, where='in the page'):
    if 'fault' in told:
        yield '%s: %s' % (where, told['fault'])
        return
    for (words, wanted), answer in zip(cases, told['answers']):
        if not holds(answer, wanted):
            yield '%s %r ..: %r instead of %r' % (where, str(words)[:90], str(answer)[:300], str(wanted)[:300])
    for name, wanted in ROUND.items():
        if not holds(told[name], wanted):
            yield '%s, %s: %r instead of %r' % (where, name, told[name], wanted)
    if "can't compile" not in told['bad']:
        yield '%s, a module of three bytes: %r' % (where, told['bad'])
