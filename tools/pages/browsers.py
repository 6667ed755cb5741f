"""The browsers that record a page: each opens an address with the recorder before the page's own scripts, in every frame, runs the
actions, and hands over what the recorder sends."""
import base64
import json
import os
import select
import shutil
import socket
import struct
import sys
import tempfile
import time

sys.path.insert(0, os.path.join(os.path.dirname(os.path.dirname(os.path.abspath(__file__))), 'browser'))

import engines
from engines import NoBrowser

HERE = os.path.dirname(os.path.abspath(__file__))
PATIENCE = float(os.environ.get('BROWSER_PATIENCE', '1'))      # more on a busy machine
ANSWER = 20 * PATIENCE         # the most seconds for an answer of the page
SIZE = (800, 600)
SENT = 'pageRecorderSend'


class NoAnswer(Exception):
    """The page doesn't answer: a script in it doesn't end."""


class NoPage(Exception):
    """The address can't be opened."""


def recorder():
    with open(os.path.join(HERE, 'recorder.js'), encoding='utf-8') as file:
        return file.read() + '\n//# sourceURL=page-recorder.js\n'


class Heard:
    """What a page sent: its rows by document, the first one being the page; the addresses that it went to; and its dialogs."""

    def __init__(self):
        self.pages, self.went = [], []

    def rows(self, text):
        told = json.loads(text)
        # While a page is being opened there may be an empty one, whose address Firefox says in one of two ways.
        if told['page'] in ('', 'about:blank'):
            return
        for page in self.pages:
            if page['origin'] == told['origin']:
                page['rows'] += told['rows']
                return
        self.pages.append(told)


class Pipe(engines.Pipe):
    """Chromium's pipe, whose messages are waited for up to a deadline."""
    deadline = None

    def message(self):
        while b'\0' not in self.rest:
            left = self.deadline - time.time() if self.deadline is not None else engines.STARTING
            if left <= 0 or not select.select([self.from_read], [], [], left)[0]:
                raise NoAnswer()
            more = os.read(self.from_read, 1 << 20)
            if not more:
                raise NoBrowser('the browser ended')
            self.rest += more
        one, self.rest = self.rest.split(b'\0', 1)
        return json.loads(one)


class Chromium:
    """Chromium over its debugging pipe."""
    name = 'chromium'

    def __init__(self, program=None):
        self.heard, self.loaded, self.is_open = Heard(), False, False
        try:
            path = engines.found('chromium-headless-shell', program, 'chromium-headless-shell')
        except NoBrowser:
            path = engines.found('chromium', program, 'chromium')
        # Files may read each other, so that a page of files is of one origin, as it would be on a server.
        self.pipe = Pipe(path, engines.CHROMIUM_FLAGS + ['--allow-file-access-from-files'])
        try:
            self.pipe.attach()
            self.ask('Runtime.enable')
            self.ask('Runtime.addBinding', name=SENT)
            self.put(True)
            self.resize(*SIZE)
            self.is_open = True
        except NoAnswer:
            self.close()
            raise NoBrowser("%s doesn't answer" % os.path.basename(path))
        except NoBrowser:
            self.close()
            raise

    def close(self):
        self.pipe.close()

    def listen(self, message):
        """Notes an event; the recording's page is the first that isn't blank."""
        method, params = message.get('method'), message.get('params', {})
        if method == 'Runtime.bindingCalled' and params['name'] == SENT:
            self.heard.rows(params['payload'])
        elif method == 'Page.loadEventFired':
            self.loaded = True
        elif method == 'Page.frameNavigated' and 'parentId' not in params['frame']:
            self.heard.went.append(params['frame']['url'])
        elif method == 'Page.javascriptDialogOpening':
            self.pipe.send('Page.handleJavaScriptDialog', accept=True)
        elif method == 'Inspector.targetCrashed':
            raise NoBrowser("the page's process ended")

    def ask(self, method, **params):
        self.pipe.deadline = time.time() + (ANSWER if self.is_open else engines.STARTING)
        number = self.pipe.send(method, **params)
        while True:
            message = self.pipe.message()
            if message.get('id') == number:
                if 'error' in message:
                    raise NoBrowser('%s: %s' % (method, message['error'].get('message')))
                return message['result']
            self.listen(message)

    def hear(self, seconds):
        """Listens for that long."""
        self.pipe.deadline = time.time() + seconds
        while time.time() < self.pipe.deadline:
            try:
                self.listen(self.pipe.message())
            except NoAnswer:
                return

    def open(self, address, seconds):
        self.heard.went, self.loaded = [], False
        try:
            failed = self.ask('Page.navigate', url=address).get('errorText')
        except NoBrowser as fault:
            raise NoPage(str(fault))
        if failed and failed != 'net::ERR_ABORTED':
            raise NoPage('the browser says %s' % failed)
        end = time.time() + seconds
        while not self.loaded and time.time() < end:
            self.hear(0.05)

    def put(self, on):
        """Puts the recorder into each page that is opened from now on, or leaves it out."""
        if on:
            self.script = self.ask('Page.addScriptToEvaluateOnNewDocument', source=recorder())['identifier']
        else:
            self.ask('Page.removeScriptToEvaluateOnNewDocument', identifier=self.script)

    def value(self, expression):
        answer = self.ask('Runtime.evaluate', expression=expression, returnByValue=True, awaitPromise=True)
        return answer['result'].get('value')

    def resize(self, width, height):
        self.ask('Emulation.setDeviceMetricsOverride', width=width, height=height, deviceScaleFactor=0, mobile=False)


class WebSocket:
    """A connection for messages of text (RFC 6455), as far as a browser on this machine needs."""

    def __init__(self, host, port, path):
        self.socket, self.rest, self.text = socket.create_connection((host, port), ANSWER), b'', b''
        key = base64.b64encode(os.urandom(16)).decode()
        self.socket.sendall(('GET %s HTTP/1.1\r\nHost: %s:%d\r\nUpgrade: websocket\r\nConnection: Upgrade\r\nSec-WebSocket-Key: %s\r\n'
                             'Sec-WebSocket-Version: 13\r\n\r\n' % (path, host, port, key)).encode())
        while b'\r\n\r\n' not in self.rest:
            self.rest += self.more(ANSWER)
        head, self.rest = self.rest.split(b'\r\n\r\n', 1)
        if b' 101 ' not in head.split(b'\r\n')[0]:
            raise NoBrowser("firefox doesn't open its debugging connection")

    def close(self):
        self.socket.close()

    def more(self, seconds):
        if seconds <= 0 or not select.select([self.socket], [], [], seconds)[0]:
            raise NoAnswer()
        data = self.socket.recv(1 << 20)
        if not data:
            raise NoBrowser('the browser ended')
        return data

    def send(self, text):
        data, mask = text.encode(), os.urandom(4)
        size = len(data)
        length = (bytes([0x80 | size]) if size < 126 else bytes([0x80 | 126]) + struct.pack('>H', size) if size < 65536
                  else bytes([0x80 | 127]) + struct.pack('>Q', size))
        masked = bytes(byte ^ mask[place % 4] for place, byte in enumerate(data))
        self.socket.sendall(bytes([0x81]) + length + mask + masked)

    def frame(self):
        """(is last, kind, bytes) of the first whole frame that has come, or None."""
        data = self.rest
        if len(data) < 2:
            return None
        size, start = data[1] & 127, 2
        if size > 125:
            wide = 2 if size == 126 else 8
            if len(data) < 2 + wide:
                return None
            size, start = int.from_bytes(data[2:2 + wide], 'big'), 2 + wide
        if len(data) < start + size:
            return None
        self.rest = data[start + size:]
        return bool(data[0] & 128), data[0] & 15, data[start:start + size]

    def message(self, deadline):
        while True:
            found = self.frame()
            if found is None:
                self.rest += self.more(deadline - time.time())
            elif found[1] == 8:
                raise NoBrowser('the browser ended')
            elif found[1] in (0, 1):
                self.text += found[2]
                if found[0]:
                    text, self.text = self.text, b''
                    return text.decode('utf-8', 'replace')


class Firefox:
    """Firefox over WebDriver BiDi."""
    name = 'firefox'

    def __init__(self, program=None):
        self.heard, self.loaded, self.socket, self.number, self.context = Heard(), False, None, 0, None
        program = engines.found('firefox-esr', program, 'firefox-esr')
        profile = tempfile.mkdtemp()
        preferences = dict(engines.FIREFOX_PREFERENCES, **{'security.fileuri.strict_origin_policy': False})
        with open(os.path.join(profile, 'user.js'), 'w') as file:
            for name, value in preferences.items():
                file.write('user_pref(%s, %s);\n' % (json.dumps(name), json.dumps(value)))
        self.process = engines.Process([program, '--headless', '--no-remote', '--remote-debugging-port', '0', '--profile', profile],
                                       folder=profile)
        try:
            self.begin(profile)
        except NoAnswer:
            self.close()
            raise NoBrowser("firefox-esr doesn't answer")
        except NoBrowser:
            self.close()
            raise

    def begin(self, profile):
        self.connect(self.port(profile))
        self.context = self.ask('browsingContext.getTree')['contexts'][0]['context']
        self.ask('session.subscribe', events=['script.message', 'browsingContext.load', 'browsingContext.navigationStarted'])
        self.put(True)
        self.resize(*SIZE)

    def connect(self, port):
        """A browser that is still starting may keep its answer until it is asked something else."""
        self.socket = WebSocket('127.0.0.1', port, '/session')
        wanted = {'alwaysMatch': {'unhandledPromptBehavior': {'default': 'accept'}}}
        first, end = self.send('session.new', capabilities=wanted), time.time() + 2 * engines.STARTING
        while True:
            try:
                if self.answer(first, time.time() + 5):
                    return
            except NoAnswer:
                if time.time() > end:
                    raise
                self.send('session.status')

    def port(self, profile):
        place, end = os.path.join(profile, 'WebDriverBiDiServer.json'), time.time() + engines.STARTING
        while time.time() < end and self.process.popen.poll() is None:
            try:
                with open(place) as file:
                    return json.load(file)['ws_port']
            except (OSError, ValueError, KeyError):
                time.sleep(0.05)
        raise NoBrowser("firefox-esr doesn't answer")

    def close(self):
        if self.socket:
            self.socket.close()
        self.process.close()

    def listen(self, message):
        method, params = message.get('method'), message.get('params', {})
        # The browser has pages of its own, such as one for the next tab, and the recorder is in them too.
        if method == 'script.message' and params['channel'] == SENT and params['source'].get('context') == self.context:
            self.heard.rows(params['data']['value'])
        elif params.get('context') == self.context and method == 'browsingContext.load':
            self.loaded = True
        elif params.get('context') == self.context and method == 'browsingContext.navigationStarted':
            self.heard.went.append(params['url'])

    def send(self, method, **params):
        self.number += 1
        self.socket.send(json.dumps({'id': self.number, 'method': method, 'params': params}))
        return self.number

    def ask(self, method, **params):
        return self.answer(self.send(method, **params), time.time() + ANSWER)

    def answer(self, number, deadline):
        while True:
            message = json.loads(self.socket.message(deadline))
            if message.get('id') == number:
                if message.get('type') == 'error':
                    raise NoBrowser('firefox says: %s' % message.get('message'))
                return message['result']
            self.listen(message)

    def hear(self, seconds):
        deadline = time.time() + seconds
        while time.time() < deadline:
            try:
                self.listen(json.loads(self.socket.message(deadline)))
            except NoAnswer:
                return

    def open(self, address, seconds):
        self.heard.went, self.loaded = [], False
        try:
            self.ask('browsingContext.navigate', context=self.context, url=address, wait='none')
        except NoBrowser as fault:
            raise NoPage(str(fault).split(': ', 1)[-1])
        end = time.time() + seconds
        while not self.loaded and time.time() < end:
            self.hear(0.05)

    def put(self, on):
        if on:
            self.script = self.ask('script.addPreloadScript', functionDeclaration='(send) => { window.%s = send;\n%s\n}' % (SENT, recorder()),
                                   arguments=[{'type': 'channel', 'value': {'channel': SENT}}])['script']
        else:
            self.ask('script.removePreloadScript', script=self.script)

    def value(self, expression):
        answer = self.ask('script.evaluate', expression='JSON.stringify(%s)' % expression, target={'context': self.context},
                          awaitPromise=True)
        if answer['type'] != 'success' or answer['result'].get('type') != 'string':
            return None
        return json.loads(answer['result']['value'])

    def resize(self, width, height):
        self.ask('browsingContext.setViewport', context=self.context, viewport={'width': width, 'height': height})


BROWSERS = {'chromium': Chromium, 'firefox': Firefox}
