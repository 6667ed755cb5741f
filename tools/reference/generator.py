"""The scripts of `--generate N` (docs/TRACE.md, 'Words'): a list of cards, each with an image that loads when it comes near
the viewport."""

MOST = 1000000

_HEAD = '''script 1
handler show
each
when seen
load $target 80px 60px
io-unobserve lazy $target
end
end
end
block r top
append top r
ro fit top -
ro-observe fit r content
io lazy top show root - margin %dpx threshold 0
'''

_CARD = '''block c{0} top
set c{0} height 100px
append r c{0}
image g{0} top 0px 0px
append c{0} g{0}
block t{0} top
set t{0} height 20px
append c{0} t{0}
io-observe lazy g{0}
'''

_TAIL = '''tick 0
scroll top 0px 1000px
tick 16
scroll top 0px 5000px
tick 32
scroll top 0px 20000px
tick 48
scroll top 0px 60000px
tick 64
'''


def script(number):
    cards = 1 + number % 2000
    margin = 200 + 100 * (number // 2000 % 5)
    return (_HEAD % margin + ''.join([_CARD.format(card) for card in range(cards)]) + _TAIL).encode()
