"""Small random choices: lengths, percentages, margins, thresholds and queries, including unusual ones."""
from ..styles import SIDES

QUERIES = [
    'all', 'print', 'screen', 'not all', 'only screen', 'not print', '(min-width: 600px)', '(max-width: 599.99px)',
    '(width: 500px)', '(min-height: 200px)', '(max-height: 100px)', '(height: 600px)', '(orientation: portrait)',
    '(orientation: landscape)', 'not (orientation: portrait)', '(min-width: 300px) and (max-width: 700px)',
    '(width: 800px) or (height: 300px)', 'screen and (min-width: 500px) and (orientation: landscape)',
    'not screen and (min-width: 400px)', '(width:0px),(height:0px)', 'print, (min-width: 301px)',
    '(min-width: 200px) or (min-height: 900px) , not all',
]
OVERFLOWS = ['visible', 'hidden', 'hidden', 'clip', 'scroll', 'auto']
POSITIONS = ['static', 'relative', 'relative', 'absolute', 'absolute', 'fixed']

_LENGTHS = ['0px', '1px', '10px', '20px', '30px', '50px', '80px', '100px', '100px', '150px', '200px', '300px', '600px',
            '0.02px', '0.5px', '33.33px', '59.99px', '250.5px']
_PERCENTS = ['0%', '10%', '25%', '33.33%', '50%', '50%', '66.6%', '100%', '100%', '120%', '0.01%']
_MARGINS = ['', '', '', '0px', '10px', '-20px', '10% 0px', '50%', '-10%', '5px 6px 7px 8px', '1px 2px 3px', '100px 0px',
            '200px', '-400px', '0.02px', '-0.01%']
_NO_MARGINS = ['0', '1px 2px 3px 4px 5px', '1em']
_THRESHOLDS = ['0', '0', '', '0.5', '0 0.5 1', '1', '0.25 0 0.75', '0.0001', '0.3333 0.6667', '1 1 0',
               '0.1 0.2 0.3 0.4 0.5 0.6 0.7 0.8 0.9']
_NO_THRESHOLDS = ['1.0001', '-0.5', '-0']

_STYLE_WEIGHTS = {'width': 8, 'height': 12, 'min-width': 2, 'min-height': 2, 'max-width': 2, 'max-height': 2, 'margin': 2,
                  'padding': 2, 'border': 2, 'side': 6, 'box-sizing': 3, 'overflow': 6, 'display': 3}
_STYLE_WEIGHTS_WITH_POSITIONS = dict(_STYLE_WEIGHTS, position=8, inset=8)


class Choices:
    def __init__(self, chance, version, positions):
        self.chance, self.version, self.positions = chance, version, positions

    def happens(self, probability):
        return self.chance.random() < probability

    def one_of(self, *options):
        return self.chance.choice(options)

    def length(self):
        odd = ['%dpx' % self.chance.randrange(0, 400), '%d.%02dpx' % (self.chance.randrange(0, 90), self.chance.randrange(100))]
        great = ['1000px', '5000px', '1000000px'] if self.happens(0.1) else []
        return self.chance.choice(_LENGTHS + odd + great)

    def small_length(self):
        return self.one_of('0px', '1px', '2px', '5px', '10px', '0.5px', '3.25px', '17px')

    def signed_length(self):
        return self.one_of('0px', '10px', '-10px', '50px', '-50px', '100px', '250px', '1000px', '-1000px', '0.01px', '-0.02px',
                           '33.3px', '%dpx' % self.chance.randrange(-99, 400))

    def percent(self):
        return self.chance.choice(_PERCENTS + (['10000%', '1000%'] if self.happens(0.05) else []))

    def margin(self):
        return self.chance.choice(_MARGINS + (_NO_MARGINS if self.happens(0.15) else []))

    def thresholds(self):
        return self.chance.choice(_THRESHOLDS + (_NO_THRESHOLDS if self.happens(0.1) else []))

    def query(self):
        return self.chance.choice(QUERIES)

    def edge(self):
        return self.one_of(self.small_length(), self.percent())

    def style(self, node):
        """A line that sets a property."""
        weights = _STYLE_WEIGHTS_WITH_POSITIONS if self.positions else _STYLE_WEIGHTS
        property_ = self.chance.choices(list(weights), list(weights.values()))[0]
        if property_ == 'side':
            property_ = '%s-%s' % (self.one_of('margin', 'padding', 'border'), self.chance.choice(SIDES))
        elif property_ == 'inset':
            property_ = self.chance.choice(SIDES)
        return 'set %s %s %s' % (node, property_, self._value(property_))

    def _value(self, property_):
        if property_ in ('width', 'height'):
            return self.one_of('auto', self.length(), self.length(), self.length(), self.percent())
        if property_.startswith('min-'):
            return self.one_of(self.length(), self.percent(), '0px')
        if property_.startswith('max-'):
            return self.one_of(self.length(), self.percent(), 'none')
        if property_.startswith('border'):
            return self.small_length()
        if property_.startswith(('margin', 'padding')):
            return self.edge()
        if property_ in SIDES:
            return self.one_of('auto', self.signed_length(), self.signed_length(), self.percent(), '-' + self.percent())
        return self.chance.choice({
            'box-sizing': ['content-box', 'border-box', 'border-box'], 'overflow': OVERFLOWS,
            'display': ['none', 'block', 'block'], 'position': POSITIONS}[property_])
