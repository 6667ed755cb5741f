"""A visit to a page: it is opened with the recorder in it, the actions are done, and what went wrong is noted. What was recorded until
then is kept whatever happens."""
import os
import re
import urllib.parse
import urllib.request

from . import actions, browsers

DONE, ERRORS, NO_PAGE, NO_BROWSER, SCRIPT_ERROR, NO_END, USAGE, AWAY = range(8)
LOADING = 30 * browsers.PATIENCE
BEFORE_A_CHANGE = 0.1


class Refused(Exception):
    """An exit status and a sentence."""

    def __init__(self, status, sentence):
        Exception.__init__(self, sentence)
        self.status, self.sentence = status, sentence


def address_of(page):
    """The address of a file, or of a server on this machine."""
    parts = urllib.parse.urlsplit(page)
    if parts.scheme in ('http', 'https'):
        if parts.hostname not in ('localhost', '127.0.0.1', '::1') and not str(parts.hostname).endswith('.localhost'):
            raise Refused(NO_PAGE, "%s isn't on this machine; only localhost is opened" % page)
        return page
    path = urllib.request.url2pathname(parts.path) if parts.scheme == 'file' else page
    plain = path if os.path.exists(path) else re.split('[?#]', path)[0]
    if not os.path.isfile(plain):
        raise Refused(NO_PAGE, "there is no file '%s'" % page if not os.path.isdir(plain) else "'%s' is a folder, not a page" % page)
    return 'file://' + urllib.request.pathname2url(os.path.abspath(plain)) + path[len(plain):]


def base_of(page):
    """The name of the files that a recording is written to, without its ending."""
    last = [part for part in re.split('[?#]', page)[0].split('/') if part][-1:]
    return re.sub(r'[^A-Za-z0-9._-]+', '-', os.path.splitext(last[0])[0] if last else '') or 'page'


class Visit:
    """What was heard from the page, the problems as (status, sentence), and what the browser calls itself."""

    def __init__(self):
        self.problems, self.told, self.agent, self.ratio = [], None, '', 1

    def problem(self, status, sentence):
        self.problems.append((status, sentence))

    def run(self, browser, address, seconds, steps):
        try:
            browser.open(address, LOADING)
            self._meet(browser)
            for words in steps:
                if self._has_left(browser) or not self._do(browser, words):
                    break
            browser.hear(seconds)
            if not self._has_left(browser):
                browser.value('pageRecorder.hub.stop()')
                browser.hear(BEFORE_A_CHANGE)
        except browsers.NoPage as fault:
            raise Refused(NO_PAGE, "%s can't be opened: %s" % (address, fault))
        except browsers.NoAnswer:
            self.problem(NO_END, "the page doesn't answer: a script in it ran for more than %d seconds" % browsers.ANSWER)
        except browsers.NoBrowser as fault:
            self.problem(NO_BROWSER, str(fault))
        if self._has_left(browser):
            self.problem(AWAY, 'the page went to %s; what was recorded before that is kept' % browser.heard.went[-1])
        self._keep(browser, address)

    def _meet(self, browser):
        # A page may leave as soon as it is loaded; what it is then asked has no answer.
        self.agent = browser.value('navigator.userAgent') or ''
        self.ratio = browser.value('devicePixelRatio') or 1
        answered = browser.value("(performance.getEntriesByType('navigation')[0] || {}).responseStatus") or 0
        if answered >= 400:
            self.problem(NO_PAGE, 'the server answers %d: there is no such page' % answered)

    @staticmethod
    def _has_left(browser):
        return len(browser.heard.went) > 1

    def _do(self, browser, words):
        """Does an action, and returns whether it could be done."""
        if words[0] == 'wait':
            browser.hear(int(words[1]) / 1000)
        elif words[0] == 'resize':
            browser.resize(int(words[1]), int(words[2]))
        else:
            wrong = browser.value(actions.expression(words))
            if wrong:
                self.problem(NO_PAGE, "the action `%s` can't be done: `%s` %s" % (' '.join(words), words[1], wrong))
                return False
        browser.hear(BEFORE_A_CHANGE)
        return True

    def _keep(self, browser, address):
        pages = browser.heard.pages
        rows = pages[0]['rows'] if pages else []
        self.told = {'format': 'mifdagus recording 1', 'page': pages[0]['page'] if pages else address, 'agent': self.agent, 'ratio': self.ratio,
                     'rows': rows}
        for row in rows:
            if row['what'] == 'script-error':
                self.problem(SCRIPT_ERROR, 'a script of the page failed: %s (%s:%s:%s)' % (
                    row['message'], (row['file'] or 'the page').rsplit('/', 1)[-1], row['line'], row['column']))

    def status(self, errors):
        """The status of what is worst: no browser, no end, away, no page or action, a script error, loop errors."""
        found = {status for status, _ in self.problems}
        for status in (NO_BROWSER, NO_END, AWAY, NO_PAGE, SCRIPT_ERROR):
            if status in found:
                return status
        return ERRORS if errors else DONE
