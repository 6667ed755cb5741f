"""The browser in which a page of bin/view is shown for pictures and tests.

Gives to others: `program()`, the path of Debian's chromium-headless-shell, otherwise of chromium, or what BROWSER_PROGRAM names.
"""
import os
import shutil

import engines

NAMES = ('chromium-headless-shell', 'chromium')


def program():
    """Raises engines.NoBrowser if there is none."""
    name = next((name for name in NAMES if shutil.which(name)), NAMES[0])
    return engines.found(name, os.environ.get('BROWSER_PROGRAM'), name)
