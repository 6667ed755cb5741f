"""The browsers: how each is started, given a page and a size, and asked for its trace; see docs/BROWSERS.md."""
import http.client
import http.server
import json
import os
import queue
import select
import shutil
import socket
import subprocess
import tempfile
import threading
import time

from scripts import commands_of, limit_of, read_script

HERE = os.path.dirname(os.path.abspath(__file__))
FIRST_SIZE = (800, 600)
WIDEST = 10000000     # the most pixels of a viewport's side
LONGEST = 180         # the most seconds for an answer of a running browser
STARTING = 60         # the most seconds for its start
LEAST_RATIO = 0.5     # the least ratio of Chromium's screen
SIXTIETHS = 60        # Firefox's lengths are in sixtieths of a pixel
UPDATES = 8           # how often an update is asked for at once; then with a pause each, for as long as for an answer
PAUSE = 0.05
NO_RATIO = "a ratio that changes is only shown by 'tools/browser/run' in chromium and firefox-stepped"
NO_FRAME = ("a viewport that changes, with an implicit root and frames or scroll margins, is only shown by 'tools/browser/run' in chromium "
            'and firefox-stepped')
ATTEMPTS = 12         # how often a live browser may run a script if updates come that no tick asked for
BUSY = 'updates came that no tick asked for, in each of %d attempts' % ATTEMPTS


class NoBrowser(Exception):
    """There is no such browser, or it no longer answers."""


class NotShown(Exception):
    """The page can't show all of the script."""


def part(name):
    with open(os.path.join(HERE, name)) as file:
        return file.read()


def whole_size(args):
    """The size of a window in whole pixels, as each engine rounds that of a frame."""
    size = [int(float(word[:-2]) + 0.5) for word in args]
    if any(not 0 < number <= WIDEST for number in size):
        raise NotShown('a viewport with a side of less than half a pixel or more than %d' % WIDEST)
    return size


def ratio_of(args):
    ratio = float(args[0][:-1]) / 100
    if not ratio:
        raise NotShown('a ratio of 0%')
    return ratio


def plan_of(text):
    """What `planned` says of a script's text; raises NotShown if the rules end its run at a limit, which a browser doesn't have."""
    plan, limit = planned(read_script(text)), limit_of(text)
    if limit:
        raise NotShown('a script that meets the limit `%s`' % limit)
    return plan


def planned(script):
    """The viewport and ratio that a script begins with, its other items, and what it can run in: in a window of that size if the viewport
    doesn't change later; in a frame if no observer with the implicit root has targets in frames or a scroll margin, since the frame's
    document takes the place of that root there. `steady` says whether the ratio never changes."""
    items, size, ratio = list(script['items']), list(FIRST_SIZE), 1
    while items and items[0]['op'] in ('viewport', 'ratio'):
        first = items.pop(0)
        if first['op'] == 'viewport':
            size = whole_size(first['args'])
        else:
            ratio = ratio_of(first['args'])
    rest = dict(script, items=items, ratio=ratio)
    commands = list(commands_of(rest))
    ratios = [ratio_of(command['args']) for command in commands if command['op'] == 'ratio']
    changes = [whole_size(command['args']) for command in commands if command['op'] == 'viewport']
    implicit = [command['args'] for command in commands if command['op'] == 'io' and command['args'][4] == '-']
    framed = any(command['op'] == 'frame' for command in commands)
    scrolled = script['version'] == 2 and any('scroll' in args for args in implicit)
    return {'script': rest, 'size': size, 'ratio': ratio, 'steady': not ratios, 'window': not changes, 'frame': not (implicit and framed or scrolled)}


def free_port():
    with socket.socket() as one:
        one.bind(('127.0.0.1', 0))
        return one.getsockname()[1]


def found(name, given, package, *places):
    program = given or shutil.which(name) or next((place for place in places if os.access(place, os.X_OK)), None)
    if not program or not shutil.which(program):
        raise NoBrowser("%s isn't installed; Debian's package %s has it" % (given or name, package))
    return program


class Process:
    """A running program with a folder of its own; `close` ends the program and removes the folder."""

    def __init__(self, words, folder=None, **more):
        self.folder = folder
        try:
            self.popen = subprocess.Popen(words, stdin=subprocess.DEVNULL, stderr=subprocess.DEVNULL,
                                          **dict({'stdout': subprocess.DEVNULL}, **more))
        except OSError as e:
            raise NoBrowser("%s can't be started: %s" % (words[0], e.strerror))

    def close(self):
        self.popen.terminate()
        try:
            self.popen.wait(10)
        except subprocess.TimeoutExpired:
            self.popen.kill()
            self.popen.wait()
        if self.folder:
            shutil.rmtree(self.folder, ignore_errors=True)


class Pipe:
    """Chromium's debugging pipe: JSON messages, each followed by a zero byte."""

    def __init__(self, program, flags):
        to_read, self.to_write = os.pipe()
        self.from_read, from_write = os.pipe()
        profile = tempfile.mkdtemp()

        def pipes():
            # The browser reads commands from descriptor 3 and writes answers to descriptor 4.
            low, high = os.dup(to_read), os.dup(from_write)
            spare = [os.dup(low), os.dup(high)]
            os.dup2(spare[0], 3)
            os.dup2(spare[1], 4)

        self.process = Process([program] + flags + ['--remote-debugging-pipe', '--user-data-dir=' + profile],
                               folder=profile, close_fds=False, preexec_fn=pipes)
        os.close(to_read)
        os.close(from_write)
        self.number, self.rest, self.session = 0, b'', None
        self.sized = self.scaled = None     # the size and ratio last given to the browser

    def close(self):
        for end in (self.to_write, self.from_read):
            os.close(end)
        self.process.close()

    def message(self):
        while b'\0' not in self.rest:
            if not select.select([self.from_read], [], [], LONGEST)[0]:
                raise NoBrowser('the browser gave no answer in %d seconds' % LONGEST)
            more = os.read(self.from_read, 1 << 20)
            if not more:
                raise NoBrowser('the browser ended')
            self.rest += more
        one, self.rest = self.rest.split(b'\0', 1)
        return json.loads(one)

    def send(self, method, **params):
        self.number += 1
        request = {'id': self.number, 'method': method, 'params': params}
        if self.session:
            request['sessionId'] = self.session
        data = json.dumps(request).encode() + b'\0'
        try:
            while data:
                data = data[os.write(self.to_write, data):]
        except BrokenPipeError:
            raise NoBrowser('the browser ended')
        return self.number

    def ask(self, method, **params):
        return self.ask_all((method, params))[0]

    def ask_all(self, *requests, until=None):
        """Sends requests at once; returns the answers when all have arrived and the event `until` has been received."""
        methods = {self.send(method, **params): method for method, params in requests}
        answers = {}
        while until or len(answers) < len(methods):
            answer = self.message()
            number = answer.get('id')
            if number in methods and 'error' in answer:
                raise NoBrowser('%s: %s' % (methods[number], answer['error'].get('message')))
            if number in methods:
                answers[number] = answer['result']
            elif answer.get('method') == until:
                until = None
        return [answers[number] for number in methods]

    def attach(self, **more):
        # Only a window may have a size: without one the whole browser refuses it, and the headless shell alone takes it.
        target = self.ask('Target.createTarget', url='about:blank', width=FIRST_SIZE[0], height=FIRST_SIZE[1], newWindow=True, **more)['targetId']
        self.session = self.ask('Target.attachToTarget', targetId=target, flatten=True)['sessionId']
        self.ask('Page.enable')

    def size(self, width, height):
        if self.sized != (width, height):
            self.ask('Emulation.setDeviceMetricsOverride', width=width, height=height, deviceScaleFactor=0, mobile=False)
            self.sized = width, height

    def scale(self, ratio):
        """Sets the ratio of the screen: a `deviceScaleFactor` in the page's metrics would be reported to the page, but not used in layout."""
        if self.scaled is None:
            self.screen = self.ask('Emulation.getScreenInfos')['screenInfos'][0]
            self.scaled = self.screen['devicePixelRatio']
        if self.scaled != ratio:
            if ratio < LEAST_RATIO:
                raise NotShown('a ratio of %g%%, as this browser has none below %g%%' % (100 * ratio, 100 * LEAST_RATIO))
            self.ask('Emulation.updateScreen', screenId=self.screen['id'], devicePixelRatio=ratio)
            self.scaled = ratio


CHROMIUM_FLAGS = ['--headless', '--no-sandbox', '--disable-gpu', '--hide-scrollbars', '--disable-dev-shm-usage',
                  '--no-first-run', '--disable-background-timer-throttling']
BEGIN_FRAME_FLAGS = ['--deterministic-mode', '--enable-begin-frame-control', '--run-all-compositor-stages-before-draw',
                     '--disable-new-content-rendering-timeout', '--disable-threaded-animation', '--disable-threaded-scrolling',
                     '--disable-checker-imaging', '--disable-image-animation-resync']


HAS_RATIO = 'Math.abs(devicePixelRatio - %r) < 1e-6'
HAS_SIZE = 'innerWidth === %d && innerHeight === %d'


class Stepped:
    """A browser that runs an update of the rendering exactly when it is asked for one."""

    def tick(self):
        """Runs an update of the page, and returns what the script wants next."""
        # A frame that the browser uses to finish earlier work isn't an update of the page: ask again until the page has had one.
        asked, end = 0, time.time() + LONGEST
        while time.time() < end:
            wants = self.updated()
            if wants:
                return wants
            asked += 1
            time.sleep(0 if asked < UPDATES else PAUSE)
        raise NoBrowser('the browser had no update in %d seconds' % LONGEST)

    def updated(self):
        """What the script wants after an update, or None if the page had none."""
        self.update()
        return self.value('observersNow.after()', wait=True)

    def await_value(self, expression, called):
        end = time.time() + LONGEST
        while not self.value(expression):
            if time.time() > end:
                raise NoBrowser('the browser had no %s in %d seconds' % (called, LONGEST))

    def await_ratio(self, ratio):
        self.await_value(HAS_RATIO % ratio, 'ratio of %g%%' % (100 * ratio))

    def trace(self, text):
        """The lines of the trace; raises NotShown if the page can't show all of the script."""
        plan = plan_of(text)
        self.blank(plan['size'], plan['ratio'])
        wants = self.begin(plan['script'])
        while wants[0] != 'end':
            if wants[0] == 'viewport':
                self.resize(int(wants[1]), int(wants[2]))
            elif wants[0] == 'ratio':
                self.scale(wants[1])
            elif wants[0] != 'tick':
                raise NotShown(wants[1])
            wants = self.tick() if wants[0] == 'tick' else self.value('observersNow.step()', wait=True)
        return wants[1]


class SteppedChromium(Stepped):
    """Chromium with begin-frame control."""

    def __init__(self, program=None):
        self.pipe = Pipe(found('chromium-headless-shell', program, 'chromium-headless-shell'), CHROMIUM_FLAGS + BEGIN_FRAME_FLAGS)
        self.page = part('page.js')
        self.time = 1000.0
        try:
            self.pipe.attach(enableBeginFrameControl=True)
        except NoBrowser:
            self.close()
            raise

    def close(self):
        self.pipe.close()

    @staticmethod
    def asked(expression, wait=False):
        return 'Runtime.evaluate', dict(expression=expression, returnByValue=True, awaitPromise=wait)

    @staticmethod
    def valued(answer):
        if 'exceptionDetails' in answer:
            raise RuntimeError(json.dumps(answer['exceptionDetails'])[:600])
        return answer['result'].get('value')

    def value(self, expression, wait=False):
        return self.valued(self.pipe.ask_all(self.asked(expression, wait))[0])

    def update(self):
        self.time += 16.0
        self.pipe.ask('HeadlessExperimental.beginFrame', frameTimeTicks=self.time, interval=16.0, noDisplayUpdates=True)

    def resize(self, width, height):
        self.pipe.size(width, height)

    def scale(self, ratio):
        self.pipe.scale(ratio)
        self.await_ratio(ratio)

    def blank(self, size, ratio):
        """Opens a new page in no-quirks mode, and waits for its first update."""
        # No mouse pointer is in the page: if one is, the browser lays the page out again, at a time of its own, after a frame is moved.
        self.pipe.ask_all(('Input.setIgnoreInputEvents', {'ignore': True}), ('Page.navigate', {'url': 'data:text/html,<!doctype html>'}),
                          until='Page.loadEventFired')
        self.pipe.size(*size)
        self.pipe.scale(ratio)
        if not self.value('requestAnimationFrame(() => { window.updated = true; }); ' + HAS_RATIO % ratio):
            self.await_ratio(ratio)
        while not self.value('Boolean(window.updated)'):
            self.update()

    def begin(self, script):
        """What the script wants first. The tool's own code is always the same text, which the browser parses only once."""
        run = 'window.observersNow = observersRun(%s, window, {}); observersNow.step()' % json.dumps(script)
        _, page, wants = self.pipe.ask_all(('Input.setIgnoreInputEvents', {'ignore': False}), self.asked(self.page + '\n0'),
                                           self.asked(run, wait=True))
        self.valued(page)
        return self.valued(wants)


class Loopback(http.server.ThreadingHTTPServer):
    """Serves one page after another at 127.0.0.1, and receives their answers."""
    daemon_threads = True

    def __init__(self):
        super().__init__(('127.0.0.1', 0), Exchange)
        self.pages, self.answers, self.number = {}, queue.Queue(), 0
        threading.Thread(target=self.serve_forever, daemon=True).start()

    def close(self):
        self.shutdown()
        self.server_close()

    def offer(self, page):
        self.number += 1
        self.pages = {'/%d' % self.number: page}
        return 'http://127.0.0.1:%d/%d' % (self.server_address[1], self.number)

    def answer(self):
        end = time.time() + LONGEST
        while time.time() < end:
            try:
                path, answer = self.answers.get(timeout=LONGEST)
            except queue.Empty:
                break
            if path == '/%d' % self.number:
                return json.loads(answer)
        raise NoBrowser('the browser gave no answer in %d seconds' % LONGEST)


class Exchange(http.server.BaseHTTPRequestHandler):
    def do_GET(self):
        self.reply(self.server.pages.get(self.path))

    def do_POST(self):
        self.server.answers.put((self.path, self.rfile.read(int(self.headers['Content-Length']))))
        self.reply('')

    def reply(self, text):
        self.send_response(404 if text is None else 200)
        data = (text or '').encode()
        for name, value in (('Content-Type', 'text/html; charset=utf-8'), ('Cache-Control', 'no-store'), ('Content-Length', len(data))):
            self.send_header(name, str(value))
        try:
            self.end_headers()
            self.wfile.write(data)
        except (BrokenPipeError, ConnectionResetError):
            pass     # A browser that ends or leaves the page doesn't wait for the answer.

    def log_message(self, *words):
        pass


LIVE_PAGE = '''<!doctype html><meta charset="utf-8"><link rel="icon" href="data:,"><style>body { margin: 0 }</style><body><script>
%(page)s
%(live)s
addEventListener('load', async () => {
  const answer = await observersAnswer(%(script)s, %(size)s, %(window)s).catch(e => ({ failed: String(e) }));
  fetch(location.href, { method: 'POST', body: JSON.stringify(answer) });
});
async function observersAnswer(script, size, inWindow) {
  if (!inWindow) return observersInFrame(script, size, document.body);
  const fits = () => innerWidth === size[0] && innerHeight === size[1];
  for (let left = 100; left > 0 && !fits(); left--) await new Promise(done => setTimeout(done, 20));
  if (!fits()) return { sized: [innerWidth, innerHeight] };
  await observersSettled(window);
  return observersLive(script, window, {});
}
</script>'''


def in_json(value):
    """JSON that is safe inside a script element."""
    return json.dumps(value).replace('<', '\\u003c')


class Live:
    """A browser that schedules its updates itself: it is given a page and a size, and the page sends its trace."""

    def __init__(self, program=None):
        self.parts = {'page': part('page.js'), 'live': part('live.js')}
        self.held = []
        try:
            self.start(program)
            self.server = self.hold(Loopback())
        except BaseException:
            self.close()
            raise

    def hold(self, thing):
        """Registers something to be closed with the browser, the last one first."""
        self.held.append(thing)
        return thing

    def close(self):
        while self.held:
            self.held.pop().close()

    def trace(self, text):
        plan = plan_of(text)
        if not plan['steady']:
            raise NotShown(NO_RATIO)
        self.scale(plan['ratio'])
        for _ in range(ATTEMPTS):
            answer = self.attempt(plan, plan['window'])
            if 'sized' in answer and plan['frame']:
                answer = self.attempt(plan, False)
            if 'sized' in answer:
                raise NotShown('the window is %d by %d at least' % tuple(answer['sized']))
            if 'failed' in answer:
                raise RuntimeError(answer['failed'])
            if answer['stop']:
                raise NotShown(answer['stop'][1])
            if not answer['disturbed']:
                return answer['lines']
        raise NotShown(BUSY)

    def scale(self, ratio):
        if ratio != 1:
            raise NotShown('a ratio that is not 100%, in this browser')

    def attempt(self, plan, in_window):
        if not in_window and not plan['frame']:
            raise NotShown(NO_FRAME)
        self.size(*(plan['size'] if in_window else FIRST_SIZE))
        self.open(self.server.offer(LIVE_PAGE % dict(self.parts, script=in_json(plan['script']), size=in_json(plan['size']),
                                                     window=in_json(in_window))))
        return self.server.answer()


class LiveChromium(Live):
    def start(self, program):
        self.pipe = self.hold(Pipe(found('chromium-headless-shell', program, 'chromium-headless-shell'), CHROMIUM_FLAGS))
        self.pipe.attach()

    def scale(self, ratio):
        self.pipe.scale(ratio)

    def size(self, width, height):
        self.pipe.size(width, height)

    def open(self, url):
        self.pipe.ask('Page.navigate', url=url)


FIREFOX_PREFERENCES = {
    'marionette.port': 0, 'browser.shell.checkDefaultBrowser': False, 'browser.startup.page': 0,
    'browser.startup.homepage_override.mstone': 'ignore', 'datareporting.policy.dataSubmissionEnabled': False,
    'app.update.auto': False, 'network.captive-portal-service.enabled': False, 'network.connectivity-service.enabled': False,
    'ui.useOverlayScrollbars': 1, 'browser.sessionhistory.max_total_viewers': 0,
    # What a browser's own window does when a page is loaded takes more time than the page.
    'ui.prefersReducedMotion': 1, 'browser.chrome.site_icons': False, 'reader.parse-on-load.enabled': False,
    'browser.translations.enable': False, 'places.history.enabled': False, 'browser.sessionstore.interval': 100000000,
    'dom.ipc.processPrelaunch.enabled': False,
}
# Gives the content area of the window the size, as the engine's own tools do.
FIREFOX_SIZE = '''const [width, height] = arguments, style = gBrowser.selectedBrowser.style;
for (const limit of ['', 'min-', 'max-']) {
  style.setProperty(limit + 'width', width + 'px');
  style.setProperty(limit + 'height', height + 'px');
}'''
FIREFOX_RATIO = "Services.prefs.setCharPref('layout.css.devPixelsPerPx', String(arguments[0]));"


class Firefox(Live):
    """Firefox over Marionette: JSON messages, each preceded by its length."""
    ratio = 1

    def start(self, program):
        program = found('firefox-esr', program, 'firefox-esr')
        self.profile = tempfile.mkdtemp()
        with open(os.path.join(self.profile, 'user.js'), 'w') as file:
            for name, value in FIREFOX_PREFERENCES.items():
                file.write('user_pref(%s, %s);\n' % (json.dumps(name), json.dumps(value)))
        self.process = self.hold(Process([program, '--headless', '--no-remote', '--marionette', '--remote-allow-system-access',
                                          '--profile', self.profile], folder=self.profile))
        self.number = 0
        self.socket = self.hold(self.connected())
        self.reads = self.socket.makefile('rb')
        self.message()
        self.ask('WebDriver:NewSession', capabilities={'pageLoadStrategy': 'none', 'timeouts': {'script': LONGEST * 1000}})

    def connected(self):
        place, end = os.path.join(self.profile, 'MarionetteActivePort'), time.time() + STARTING
        while time.time() < end and self.process.popen.poll() is None:
            if os.path.exists(place) and open(place).read():
                return socket.create_connection(('127.0.0.1', int(open(place).read())), LONGEST)
            time.sleep(0.05)
        raise NoBrowser("firefox-esr doesn't answer")

    def message(self):
        length = b''
        try:
            while not length.endswith(b':'):
                more = self.reads.read(1)
                if not more:
                    raise NoBrowser('the browser ended')
                length += more
            return json.loads(self.reads.read(int(length[:-1])))
        except OSError:
            raise NoBrowser('the browser gave no answer in %d seconds' % LONGEST)

    def ask(self, method, **params):
        self.number += 1
        data = json.dumps([0, self.number, method, params]).encode()
        self.socket.sendall(b'%d:' % len(data) + data)
        _, _, error, answer = self.message()
        if error:
            raise NoBrowser('%s: %s' % (method, error.get('message')))
        return answer

    def in_chrome(self, script, *args):
        self.ask('Marionette:SetContext', value='chrome')
        self.ask('WebDriver:ExecuteScript', script=script, args=args)
        self.ask('Marionette:SetContext', value='content')

    def size(self, width, height):
        self.in_chrome(FIREFOX_SIZE, width, height)

    def scale(self, ratio):
        """A device pixel is a whole number of sixtieths of a pixel here: any other ratio is rounded."""
        if ratio != self.ratio:
            if abs(SIXTIETHS / ratio - round(SIXTIETHS / ratio)) > 1e-6 or ratio > SIXTIETHS:
                raise NotShown('a ratio of %g%%, which this browser rounds' % (100 * ratio))
            self.in_chrome(FIREFOX_RATIO, ratio)
            self.ratio = ratio

    def open(self, url):
        self.ask('WebDriver:Navigate', url=url)


STEPPED_PAGE = '''<!doctype html><meta charset="utf-8"><link rel="icon" href="data:,"><script>
%s
function observersBegin(script) { return (window.observersNow = observersRun(JSON.parse(script), window, {})).step(); }
addEventListener('load', () => { fetch(location.href, { method: 'POST', body: '"loaded"' }); });
</script>'''


class SteppedFirefox(Stepped, Firefox):
    """Firefox with its refresh driver under control, as in its own tests."""
    sized = None

    def value(self, expression, wait=False):
        return self.ask('WebDriver:ExecuteScript', script='return ' + expression, args=[])['value']

    def update(self, then='null'):
        """Runs an update, and returns the value of an expression in the page after it."""
        script = 'window.windowUtils.advanceTimeAndRefresh(16); return ' + then
        return self.ask('WebDriver:ExecuteScript', script=script, args=[], sandbox='system')['value']

    def updated(self):
        return self.update('window.wrappedJSObject.observersNow.after()')

    def resize(self, width, height):
        self.sized = width, height
        self.size(width, height)
        self.await_size()

    def scale(self, ratio):
        super().scale(ratio)
        self.await_ratio(ratio)
        self.await_size()

    def await_size(self):
        self.await_value(HAS_SIZE % self.sized, 'window of %d by %d' % self.sized)

    def blank(self, size, ratio):
        """Opens a new page, and waits for its first updates."""
        self.open(self.server.offer(STEPPED_PAGE % self.parts['page']))
        self.server.answer()
        if not self.update('%s && %s' % (HAS_SIZE % tuple(size), HAS_RATIO % ratio)):
            # The ratio first: at the ratio of the script before, the window may not have this size.
            self.sized = tuple(size)
            Firefox.scale(self, ratio)
            self.size(*size)
            self.await_ratio(ratio)
            self.await_size()
        self.sized = tuple(size)
        for _ in range(2):
            self.update()

    def begin(self, script):
        return self.value('observersBegin(%s)' % json.dumps(json.dumps(script)), wait=True)


MINI_BROWSER = '/usr/lib/x86_64-linux-gnu/webkit2gtk-4.1/MiniBrowser'


class WebKit(Live):
    """WebKitGTK's MiniBrowser over WebDriver, on a virtual display."""
    session = None

    def start(self, program):
        driver = found('WebKitWebDriver', None, 'webkit2gtk-driver')
        program = found('MiniBrowser', program, 'libwebkit2gtk-4.1-0', MINI_BROWSER)
        display = self.hold(Process([found('Xvfb', None, 'xvfb'), '-displayfd', '1', '-screen', '0', '3000x3000x24', '-nolisten', 'tcp'],
                                    stdout=subprocess.PIPE))
        number = display.popen.stdout.readline().decode().strip()
        self.port = free_port()
        self.process = self.hold(Process([driver, '--port=%d' % self.port],
                                         env=dict(os.environ, DISPLAY=':' + number, GDK_BACKEND='x11')))
        self.started()
        session = self.ask('POST', '', {'capabilities': {'alwaysMatch': {
            'pageLoadStrategy': 'none', 'webkitgtk:browserOptions': {'binary': program, 'args': ['--automation']}}}})
        self.session = '/' + session['sessionId']
        self.around = self.measured()

    def started(self):
        end = time.time() + STARTING
        while time.time() < end and self.process.popen.poll() is None:
            try:
                with socket.create_connection(('127.0.0.1', self.port), 1):
                    return
            except OSError:
                time.sleep(0.05)
        raise NoBrowser("WebKitWebDriver doesn't answer")

    def measured(self):
        """How much wider and higher the window is than its page, once both have the size that was asked for."""
        for _ in range(200):
            frame = self.ask('POST', self.session + '/window/rect', {'width': FIRST_SIZE[0], 'height': FIRST_SIZE[1]})
            inner = self.ask('POST', self.session + '/execute/sync', {'script': 'return [innerWidth, innerHeight]', 'args': []})
            if inner[0] == frame['width'] and 0 <= frame['height'] - inner[1] < 100:
                return [0, frame['height'] - inner[1]]
            time.sleep(0.05)
        raise NoBrowser("the browser's window doesn't take a size")

    def close(self):
        try:
            if self.session:
                self.ask('DELETE', self.session)
        except NoBrowser:
            pass
        super().close()

    def ask(self, method, path, body=None):
        connection = http.client.HTTPConnection('127.0.0.1', self.port, timeout=LONGEST)
        try:
            connection.request(method, '/session' + path, None if body is None else json.dumps(body))
            answer = json.loads(connection.getresponse().read())['value']
        except (OSError, http.client.HTTPException) as e:
            raise NoBrowser('the browser ended: %s' % e)
        finally:
            connection.close()
        if isinstance(answer, dict) and 'error' in answer:
            raise NoBrowser('%s: %s' % (path, answer.get('message') or answer['error']))
        return answer

    def size(self, width, height):
        self.ask('POST', self.session + '/window/rect', {'width': width + self.around[0], 'height': height + self.around[1]})

    def open(self, url):
        self.ask('POST', self.session + '/url', {'url': url})


ENGINES = {'chromium': SteppedChromium, 'chromium-live': LiveChromium, 'firefox': Firefox, 'firefox-stepped': SteppedFirefox,
           'webkit': WebKit}
