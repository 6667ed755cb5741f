"""Words that are close, and what is wrong with a word of a form."""
import difflib
import re

from reference import forms, styles

from .wording import listed


def close(word, words, most=3):
    """The words that are close to this one, the closest first."""
    exact = [known for known in words if known.lower() == word.lower()]
    return exact or difflib.get_close_matches(word, words, most, 0.6)


def did_you_mean(near):
    return 'Did you mean %s?' % listed(['`%s`' % word for word in near], 'or')


def of_version_2(word):
    """A sentence on a word of version 2, or None."""
    if word in ('ratio', 'device'):
        return '`%s` needs version 2 of the language: begin the script with `script 2`.' % word
    return None


def wrong_with(word, form):
    """A sentence on why a word isn't of its form, or None where the form says enough."""
    if form.shown == 'PROPERTY' and word in styles.POSITIONED:
        return '`%s` is a property of version 2 of the language: begin the script with `script 2`.' % word
    if of_version_2(word) and form.keywords:
        return of_version_2(word)
    if form.keywords:
        near = close(word, form.keywords)
        return did_you_mean(near) if near else None
    if form.shown == 'LENGTH' or form.shown == 'SIGNED':
        return _wrong_with_length(word, form)
    if form.shown == 'PERCENT':
        return _wrong_with_percentage(word)
    if form.shown in ('WHOLE', 'NUMBER'):
        return _wrong_with_number(word, form)
    if form.shown in ('NAME', 'DOC', 'NODE', 'HANDLER', 'KEY', 'TARGET'):
        return _wrong_with_name(word, form)
    return None


def wrong_with_value(word, form):
    """The same for a property's value, which may be a keyword, a length or a percentage."""
    near = close(word, form.keywords)
    if near:
        return did_you_mean(near)
    is_signed = 'SIGNED' in form.said
    if not is_signed and 'LENGTH' not in form.said:
        return None
    if not word.endswith('%'):
        return _wrong_with_length(word, forms.SIGNED if is_signed else forms.LENGTH)
    if 'PERCENT' not in form.said:
        return 'A percentage is not allowed here.'
    return _wrong_with_percentage(word, is_signed)


def _wrong_with_decimal(word, unit):
    """A sentence on the digits around the point of a number with this unit, or None."""
    if re.fullmatch(r'-?\.[0-9]+' + unit, word):
        return 'A digit is required before the point: `%s`.' % word.replace('.', '0.')
    if re.fullmatch(r'-?[0-9]+\.' + unit, word):
        return 'A digit is required after the point: `%s`.' % word.replace('.', '.0')
    if re.fullmatch(r'-?[0-9]+\.[0-9]{3,}' + unit, word):
        return 'At most two digits are allowed after the point.'
    return None


def _wrong_with_percentage(word, is_signed=False):
    if re.fullmatch(r'-[0-9.]+%', word) and not is_signed:
        return "A percentage can't be negative here."
    wrong = _wrong_with_decimal(word, '%')
    if wrong is None and re.fullmatch(r'-?[0-9]+(\.[0-9]+)?%', word):
        return 'The greatest percentage is 10000%, with up to 7 digits.'
    return wrong


def _wrong_with_length(word, form):
    if re.fullmatch(r'-?[0-9]+(\.[0-9]+)?', word):
        return 'The unit is missing: `%spx`.' % word
    if re.fullmatch(r'-.*px', word) and form is forms.LENGTH:
        return "A length can't be negative here."
    wrong = _wrong_with_decimal(word, 'px')
    if wrong is not None:
        return wrong
    if re.fullmatch(r'-?[0-9]+(\.[0-9]*)?(px|PX|Px)', word):
        if not word.endswith('px'):
            return 'The unit is written `px`.'
        return 'The greatest length is 1000000px, with up to 7 digits.'
    if re.fullmatch(r'-?[0-9.]+%', word):
        return 'A percentage is not allowed here.'
    if re.fullmatch(r'-?[0-9.]+[a-zA-Z]+', word):
        return 'The only unit of length is `px`.'
    return None


def _wrong_with_number(word, form):
    if form is forms.WHOLE:
        if re.fullmatch(r'0[0-9]+', word):
            return 'Leading zeros are not allowed: `%s`.' % (word.lstrip('0') or '0')
        if re.fullmatch(r'[0-9]+(ms|s)', word):
            return 'Milliseconds are written without a unit: `%s`.' % word.rstrip('ms')
        if word.startswith('-'):
            return "A time can't be negative."
        return 'The greatest time is 1000000000000.' if word.isdigit() else None
    if re.fullmatch(r'[0-9.]+%', word):
        return 'A threshold is a number from 0 to 1, not a percentage: half is `0.5`.'
    if re.fullmatch(r'-?\.[0-9]+', word):
        return 'A digit is required before the point: `%s`.' % word.replace('.', '0.')
    return None


def _wrong_with_name(word, form):
    if word == '-':
        return '`-`, for none, is allowed only after `ro NAME DOC`, `io NAME DOC` and `root`.'
    if word == '@':
        return "A document's name must follow directly: `@top`."
    if word.startswith('@'):
        return 'A window, `@` and a document, is an operand only of `listen` and `unlisten`.'
    if word.startswith('$'):
        return 'The only name with `$` is `$target`, which stands for an element.'
    if len(word) > 32:
        return 'This one has %d bytes.' % len(word)
    if not word[0].isalpha():
        return 'A name begins with a letter.'
    odd = [letter for letter in word if not (letter.isalnum() or letter in '_-')]
    return "A name can't contain `%s`." % odd[0] if odd else None
