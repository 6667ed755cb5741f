"""Scripts with their output, worked out by hand from the rules: those of the tables in crates/run_tests, with which the proved program is
tested there, and others. In a text, ` / ` stands for a line feed.

For a limit, only the last line of the output is given: one script exceeds the number by one, and one reaches it exactly and goes on.
"""
import os
import re

TOP = os.path.dirname(os.path.dirname(os.path.dirname(os.path.abspath(__file__))))
TABLES = os.path.join(TOP, 'crates', 'run_tests', 'src', 'replay_run_scripts.rt')
CASES = []


class Case:
    """`last` says that `wanted` is only the last line; `version` is the version of the language of the script."""

    def __init__(self, name, script, wanted, status=0, words=(), last=False):
        self.name, self.script, self.wanted, self.status, self.words, self.last = name, script, wanted, status, words, last
        self.version = 2 if script.startswith(b'script 2') else 1


def lines(text):
    return ''.join([line + '\n' for line in text.split(' / ')]) if text else ''


def case(name, script, wanted, status=0, words=(), last=False):
    if not isinstance(script, bytes):
        script = lines(script).encode()
    CASES.append(Case(name, script, wanted if last else lines(wanted), status, list(words), last))


def cases_of_the_table(name):
    """The cases of a table in crates/run_tests: pairs of a script and its output. An entry may be the name of another table."""
    with open(TABLES) as file:
        count, body = re.search(r'^pub\(crate\) const %s: (?:\[\(&str, &str\); ([0-9]+)\]|\(&str, &str\)) = [\[(]\n(.*?)\n[\])];' % name,
                                file.read(), re.M | re.S).groups()
    texts = [text.encode().decode('unicode_escape') for text in re.findall(r'"((?:[^"\\]|\\.)*)"', body)]
    if len(texts) % 2 or len(texts) // 2 + len(re.findall(r'^ +[A-Z_]+,$', body, re.M)) != int(count or 1):
        raise ValueError('%s in %s: the number of pairs differs from its type' % (name, TABLES))
    for number, (script, wanted) in enumerate(zip(texts[::2], texts[1::2]), 1):
        CASES.append(Case('%s, pair %d' % (name, number), script.encode(), wanted, 1 if wanted.startswith('syntax') else 0, [], False))


for table in ('RUNS', 'GROWING', 'REFUSED'):
    cases_of_the_table(table)

ROOT = 'script 1 / block r top / append top r'
ONE_BLOCK = ROOT + ' / ro o top - / ro-observe o r content / tick 0'
ONE_BLOCK_TRACE = 'tick 0 / resize o r rect 0 0 800 0 border 800 0 / round top 1'
case('a block is reported once', ONE_BLOCK, ONE_BLOCK_TRACE)
GROWING = ('script 1 / handler more / grow c height 1px / end / block r top / append top r / block p top / append r p / '
           'block c top / set c height 10px / append p c / ro o top more / ro-observe o p content / ro-observe o c content / '
           'tick 0 / tick 16')
SET_BACK = ('script 1 / handler ha / set c height 20px / end / handler hb / set c height 10px / end / block r top / '
            'append top r / block p top / append r p / block c top / set c height 10px / append p c / ro a top ha / '
            'ro-observe a p content / ro b top hb / ro-observe b c content / tick 0')
SCROLLED = (ROOT + ' / block s top / set s height 100px / set s overflow hidden / append r s / block u top / '
            'set u height 300px / append s u / block t top / set t height 10px / append s t / '
            'io i top - root - margin threshold 0 / io-observe i t / tick 0 / scroll s 0px 250px / tick 16')
ENDLESS = ('script 1 / handler ha / grow x height 1px / remove y / end / handler hb / append z y / end / block r top / '
           'append top r / block x top / set x height 10px / append r x / block z top / append r z / block y top / '
           'set y height 10px / append z y / ro a top ha / ro-observe a x content / ro b top hb / ro-observe b y content / '
           'tick 0')


def endless_trace():
    written = ['tick 0']
    for height in range(10, 333338):
        written += ['resize a x rect 0 0 800 %d border 800 %d' % (height, height), 'resize b y rect 0 0 0 0 border 0 0',
                    'round top 1']
    return ' / '.join(written + ['resize a x rect 0 0 800 333338 border 800 333338', 'limit commands 4 1000000'])


case('a loop that moves its target meets the limit of commands', ENDLESS, endless_trace(), 2)

# --- arguments of the command line ------------------------------------------------------------------------------------------

case('a generated script is counted', b'',
     'tick 5 / timer 0 / frame 0 / task 0 / event 4 / resize 1 / round 1 / intersect 540 / take 0 / say 0 / read 0 / throw 0 / '
     'limit 0 / syntax 0', words=['--generate-run', '499'])
case('a script is generated', b'',
     'script 1 / handler show / each / when seen / load $target 80px 60px / io-unobserve lazy $target / end / end / end / '
     'block r top / append top r / ro fit top - / ro-observe fit r content / '
     'io lazy top show root - margin 200px threshold 0 / block c0 top / set c0 height 100px / append r c0 / '
     'image g0 top 0px 0px / append c0 g0 / block t0 top / set t0 height 20px / append c0 t0 / io-observe lazy g0 / tick 0 / '
     'scroll top 0px 1000px / tick 16 / scroll top 0px 5000px / tick 32 / scroll top 0px 20000px / tick 48 / '
     'scroll top 0px 60000px / tick 64', words=['--generate', '0'])
case('a word too many is refused', ONE_BLOCK, '', 6, ['--check', 'x'])
case('commands are counted', ONE_BLOCK, 'ok 5', words=['--check'])
case('an empty text is not a script', '', 'syntax 1 1', 1, ['--check'])
case('a script is printed in one form', b'script 1\n\n  viewport 800.50px   600px # size\ntick 5\n',
     'script 1 /  / viewport 800.5px 600px / tick 5', words=['--print'])
case('lines are counted', GROWING,
     'tick 2 / timer 0 / frame 0 / task 0 / event 2 / resize 6 / round 4 / intersect 0 / take 0 / say 0 / read 0 / throw 0 / '
     'limit 0 / syntax 0', words=['--summary'])

# --- limits -----------------------------------------------------------------------------------------------------------------


def chain():
    """Nested blocks, each a hundred times as wide as the one around it, and one more than allowed."""
    written, parent = ['script 1'], 'top'
    for number in range(1, 257):
        written += ['block e%d top' % number, 'set e%d width 10000%%' % number, 'append %s e%d' % (parent, number)]
        parent = 'e%d' % number
    return ' / '.join(written + ['read e256', 'block e257 top', 'append e256 e257'])


def numbered(form, count):
    return [form.replace('%k', str(number)) for number in range(1, count + 1)]


def limit(name, made, wanted, number):
    """`made(n)` are the lines after the first that create n of what is counted."""
    case('one past the limit of ' + name, ' / '.join(['script 1'] + made(number + 1)), wanted, 2, last=True)
    case('at the limit of ' + name, ' / '.join(['script 1'] + made(number) + ['say on']), 'say on', last=True)


def observing(make, observe):
    """50,001 observations of three observers."""
    return (numbered('block b%k top', 16667) + numbered(make, 3)
            + [observe % (observer, block) for observer in (1, 2, 3) for block in range(1, 16668)])


HANDLER = ['handler h', 'end']
WATCH = 'io o%k top - root - margin threshold'
LISTENS = ['listen b%d %s h' % (block, event) for block in range(1, 1026)
           for event in ('resize', 'scroll', 'error', 'change')]

case('one past the limit of bytes', b'\n' * 16777217, 'limit script 16777217 16777216', 2, last=True)
case('at the limit of bytes', b'script 1\nsay on\n' + b'\n' * (16777216 - 16), 'say on', last=True)
case('one past the limit of a line', b'script 1\n' + b' ' * 4097 + b'\n', 'limit line 2 4096', 2, last=True)
case('at the limit of a line', b'script 1\n' + b' ' * 4096 + b'\nsay on\n', 'say on', last=True)
limit('handlers', lambda count: [line for number in range(1, count + 1) for line in ('handler h%d' % number, 'end')],
      'limit handlers 8194 4096', 4096)
case('one past the limit of nesting', ' / '.join(['script 1'] + ['when attached top'] * 17), 'limit nesting 18 16', 2, last=True)
case('at the limit of nesting', ' / '.join(['script 1', 'block b top'] + ['when not attached b'] * 16 + ['say on']
                                           + ['end'] * 16), 'say on', last=True)
case('a chain has a depth of at most 256, and no width exceeds the maximum', chain(),
     'read e256 0 0 33554431.984375 0 0 0 / limit depth 772 256', 2)
limit('nodes', lambda count: numbered('block b%k top', count), 'limit nodes 20002 20000', 20000)
limit('documents', lambda count: numbered('frame f%k top d%k', count), 'limit documents 65 64', 63)
limit('resize observers', lambda count: numbered('ro o%k top -', count), 'limit resize-observers 4098 4096', 4096)
limit('intersection observers', lambda count: numbered(WATCH, count), 'limit intersection-observers 4098 4096', 4096)
for called, make, observe in (('resize', 'ro o%k top -', 'ro-observe o%d b%d content'),
                              ('intersection', WATCH, 'io-observe o%d b%d')):
    observed = observing(make, observe)
    case('one past the limit of %s observations' % called, ' / '.join(['script 1'] + observed),
         'limit %s-observations 66672 50000' % called, 2, last=True)
    case('at the limit of %s observations' % called, ' / '.join(['script 1'] + observed[:-1] + ['say on']), 'say on', last=True)
case('one past the limit of listeners', ' / '.join(['script 1'] + HANDLER + numbered('block b%k top', 1025) + LISTENS),
     'limit listeners 5125 4096', 2, last=True)
case('at the limit of listeners', ' / '.join(['script 1'] + HANDLER + numbered('block b%k top', 1025) + LISTENS[:4096]
                                             + ['listen b1 scroll h', 'say on']), 'say on', last=True)
limit('timers', lambda count: HANDLER + numbered('timer top t%k 1 h', count), 'limit timers 4100 4096', 4096)
limit('frame callbacks', lambda count: HANDLER + numbered('raf top f%k h', count), 'limit frame-callbacks 4100 4096', 4096)
limit('tasks', lambda count: HANDLER + ['post top h'] * count, 'limit tasks 4100 4096', 4096)
limit('queries', lambda count: numbered('media m%k top all', count), 'limit queries 4098 4096', 4096)

# --- positions --------------------------------------------------------------------------------------------------------------

ROOT_2 = 'script 2 / block r top / append top r'
case('an absolute box is placed in the padding box of its containing block',
     ROOT_2 + ' / block s top / set s height 100px / set s margin-left 100px / set s position relative / append r s / '
     'block a top / set a position absolute / set a right 10px / set a top 20px / set a width 50% / set a height 30px / '
     'append s a / read a / set s position static / read a / read r',
     'read a 440 20 350 30 0 0 / read a 390 20 400 30 0 0 / read r 0 0 800 100 0 0')
case('an out-of-flow box is clipped by its containing block',
     ROOT_2 + ' / block s top / set s height 50px / set s overflow hidden / append r s / block a top / '
     'set a position absolute / set a top 200px / set a width 10px / set a height 10px / append s a / '
     'io i top - root - margin threshold 0 / io-observe i a / tick 0 / set s position relative / tick 16',
     'tick 0 / intersect i a 0 yes 409600/409600 root 0 0 800 600 box 0 200 10 10 cut 0 200 10 10 / tick 16 / '
     'intersect i a 16 no 0/409600 root 0 0 800 600 box 0 200 10 10 cut 0 0 0 0')
case('a fixed box stays in place when the page scrolls',
     ROOT_2 + ' / block s top / set s height 2000px / append r s / block f top / set f position fixed / set f bottom 0px / '
     'set f width 100px / set f height 40px / append r f / scroll top 0px 500px / read f / read s',
     'read f 0 560 100 40 0 0 / read s 0 -500 800 2000 0 0')
case('a root element has no position',
     'script 2 / block a top / set a position absolute / set a left 10px / append top a / read a / remove a / block r top / '
     'append top r / append r a / read a', 'read a 0 0 800 0 0 0 / read a 10 0 790 0 0 0')

# --- other arguments --------------------------------------------------------------------------------------------------------
case('boxes are listed', SCROLLED,
     'box r 1 0 0 800 100 seen 0 0 800 100 / box s 2 0 0 800 100 seen 0 0 800 100 / box u 3 0 -210 800 300 seen 0 0 800 90 / '
     'box t 3 0 90 800 10 seen 0 90 800 10', words=['--inspect', '2'])
case('the elements at a point', SCROLLED, 'hit t / hit s / hit r', words=['--hit', '2', '5px', '95px'])
case('a clipped part is not hit', SCROLLED, 'miss', words=['--hit', '1', '5px', '305px'])
case('a tick that does not exist', SCROLLED, 'ticks 2', words=['--inspect', '3'])
case('a script without loop handlers is quiet', ONE_BLOCK, 'steady / quiet', words=['--lint'])
case('a handler that grows its target is not quiet', GROWING, 'steady / unquiet 3', words=['--lint'])
case('a handler that sets a size is not quiet', SET_BACK, 'steady / unquiet 3', words=['--lint'])
case('a handler that removes is not steady', ENDLESS, 'unsteady 4 / unquiet 3', words=['--lint'])
case('a trace is the same', ONE_BLOCK + ' / trace / ' + ONE_BLOCK_TRACE, 'equal 3', words=['--judge'])
case('a trace has an extra line', ONE_BLOCK + ' / trace / ' + ONE_BLOCK_TRACE + ' / tick 16', 'differs 4 extra', 7, ['--judge'])
case('a trace lacks lines', ONE_BLOCK + ' / trace / tick 0', 'differs 2 missing', 7, ['--judge'])
case('a trace has a line that is not one', ONE_BLOCK + ' / trace / tick 0 / hello', 'differs 2 not-a-line', 7, ['--judge'])
case('a trace has a different line', ONE_BLOCK + ' / trace / tick 0 / resize o r rect 0 0 800 1 border 800 0 / round top 1',
     'differs 2 text 25', 7, ['--judge'])
case('an empty source has no trace', '', 'differs 1 missing', 7, ['--judge'])
case('pages of a stream are independent',
     'page a / script 1 / page b / script 1 / page a / block r top / append top r / tick 5 / page b / remove z / tick 3 / '
     'page a / tick 9', 'a tick 5 / b throw 2 ReferenceError / b tick 3 / a tick 9', words=['--pages'])
case('a page that is not a script', 'page a / script 1 / bad / page b / script 1 / tick 0', 'a syntax 2 1 / b tick 0', 1,
     ['--pages'])
case('a stream begins with a page', 'tick 0', 'syntax 1 1', 1, ['--pages'])
