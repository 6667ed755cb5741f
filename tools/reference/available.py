"""What the proved program supports today; anything else in this package is ahead of it.

A change that adds a version of the language, a property or an argument to the proved program also adds it here; from then on,
tools/compare compares it and bin/explain explains it.
"""
from . import grammar

LANGUAGE = grammar.WHOLE
VERSIONS = LANGUAGE.versions
WORDS = ('--check', '--lint', '--summary', '--print', '--inspect', '--hit', '--judge', '--pages', '--generate', '--generate-run')
WORDS_OF_THE_REFERENCE_ALONE = ()
