"""Lines `intersect`: the root rectangle, what clips the target on the way to it, what is left, and why it is told now.

Rectangles are left, top, width and height in the coordinates of the viewport of `top`.
"""
from reference.intersection import common_part
from reference.lengths import px
from reference.world import Document

from .wording import ratio, rectangle, size, thresholds


def explain(told):
    observer, entry = told.about
    if entry.unseen is not None:
        explained = ['Nothing is visible: %s.' % entry.unseen]
    else:
        explained = _steps(observer, entry)
    return explained + [_why_now(observer, entry)]


def _steps(observer, entry):
    """Each rectangle on the way with what is left of the target behind it."""
    rows, left = [], None
    for clip in entry.clips:
        before = left
        left = clip.rectangle if left is None and not rows else left and common_part([left, clip.rectangle])
        rows.append((_whose(clip, entry), rectangle(clip.rectangle), _left(before, left, clip, bool(rows))))
    widths = [max([len(row[column]) for row in rows]) for column in (0, 1)]
    explained = [_seen(entry)]
    for whose, edges, left_said in rows:
        explained.append(('  %s  %s  %s' % (whose.ljust(widths[0]), edges.ljust(widths[1]), left_said)).rstrip())
    root = entry.clips[-1]
    if root.rectangle != root.own:
        explained.append('  (the root margin %s is added to the sides of %s)' % (_margins(observer), rectangle(root.own)))
    return explained


def _seen(entry):
    box = entry.clips[0].rectangle
    whole = (box[2] - box[0], box[3] - box[1])
    if not entry.meets:
        return 'Nothing of `%s`, which is %s, is visible:' % (entry.target.name, size(whole))
    if 0 in whole:
        return '`%s` is %s, so it has no area; it intersects the root, so the intersection ratio is 1:' % (
            entry.target.name, size(whole))
    cut = (entry.cut[2] - entry.cut[0], entry.cut[3] - entry.cut[1])
    return '`%s` is %s, of which %s is visible; the intersection ratio is %s:' % (
        entry.target.name, size(whole), size(cut), ratio(entry.part, entry.whole))


def _whose(clip, entry):
    if clip is entry.clips[0]:
        return 'target: %s of `%s`' % (clip.box, clip.thing.name)
    if clip is entry.clips[-1]:
        return 'root: %s of `%s`%s' % (clip.box, clip.thing.name, '' if clip.own == clip.rectangle else ', with root margin')
    if isinstance(clip.thing, Document):
        return 'clip: viewport of `%s`' % clip.thing.name
    return 'clip: padding box of `%s`%s' % (clip.thing.name, '' if clip.own == clip.rectangle else ', with scroll margin')


def _left(before, left, clip, is_clip):
    """What is left behind a clip, or by how much it misses."""
    if not is_clip:
        return ''
    if left is not None:
        return 'leaves %s' % (rectangle(left) if left != before else 'all of it')
    if before is None:
        return ''
    return 'leaves nothing: %s' % _miss(before, clip.rectangle)


def _miss(box, clip):
    if clip[2] < clip[0] or clip[3] < clip[1]:
        return 'its opposite edges cross'
    misses = [(box[0] - clip[2], 'to the right'), (clip[0] - box[2], 'to the left'), (box[1] - clip[3], 'below'),
              (clip[1] - box[3], 'above')]
    distance, where = max(misses)
    return 'it lies %s px %s' % (px(distance), where)


def _margins(observer):
    """Top, right, bottom and left, as in CSS."""
    said = ' '.join([px(amount) + 'px' if unit == 'px' else percent(amount) for unit, amount in observer.margins])
    return said + (', percentages of the width,' if '%' in said else '')


def percent(hundredths):
    sign = '-' if hundredths < 0 else ''
    return sign + ('%d.%02d' % divmod(abs(hundredths), 100)).rstrip('0').rstrip('.') + '%'


def _why_now(observer, entry):
    before_index, before_meets = entry.before
    if before_index < 0:
        return 'Queued because this is the first update since the target was observed; %s.' % _reached(observer, entry.index)
    changes = []
    if before_meets != entry.meets:
        changes.append('the target intersects the root now, and did not before' if entry.meets
                       else 'the target no longer intersects the root')
    if before_index != entry.index and len(observer.thresholds) == 1:
        changes.append('the threshold %s is %s' % (ratio(observer.thresholds[0], 10000), 'reached now' if entry.index else
                                                   'no longer reached'))
    elif before_index != entry.index:
        changes.append('%s now, and %s before' % (_reached(observer, entry.index), 'none was' if not before_index
                                                  else '%d %s' % (before_index, 'was' if before_index == 1 else 'were')))
    return 'Queued because %s.' % '; '.join(changes)


def _reached(observer, index):
    """How many thresholds aren't greater than the ratio."""
    known = observer.thresholds
    if len(known) == 1:
        return 'the threshold %s is %sreached' % (ratio(known[0], 10000), '' if index else 'not ')
    return '%s of the thresholds %s %s reached' % (index or 'none', thresholds(known), 'are' if index > 1 else 'is')
