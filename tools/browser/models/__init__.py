"""Models of the engines: the reference program of tools/reference, modified by the differences of docs/BROWSERS.md.

A Model runs a script and follows a browser's trace. Each difference is a class with a name, and can be left out; `met` contains the
classes that made the run deviate from the rules. If an engine's order depends on memory addresses, the model takes it from the trace.
"""
import os
import sys

sys.path.insert(0, os.path.dirname(os.path.dirname(os.path.dirname(os.path.abspath(__file__)))))

from .classes import CLASSES, alike, by_rules, classes_of, given, orders, run
from .model import Model
