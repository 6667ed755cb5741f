"""Whether the trace that a browser gives for a script is in no class of docs/BROWSERS.md: one browser for many scripts."""
import engines
import models
import scripts


class Unexplained:
    """`unexplained(bytes)` runs a script; a browser that ends is started again."""

    def __init__(self, engine, program=None):
        self.engine, self.program, self.browser = engine, program, None
        self.start()

    def start(self):
        self.browser = engines.ENGINES[self.engine](self.program)

    def close(self):
        if self.browser:
            self.browser.close()

    def __call__(self, data):
        text = data.decode('latin-1')
        try:
            scripts.read_script(text)
            told = self.browser.trace(text)
        except (scripts.Refused, engines.NotShown, RuntimeError):
            return False
        except engines.NoBrowser:
            self.close()
            self.start()
            return False
        return told != models.by_rules(text) and models.classes_of(text, self.engine.split('-')[0], told) is None
