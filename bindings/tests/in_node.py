"""Runs the module in Node, as in_a_page.py does in Chromium; a Node without 64-bit memory must refuse it with a sentence everywhere."""
import json
import os
import subprocess

import in_a_page

HERE = os.path.dirname(os.path.abspath(__file__))
SECONDS = 600
TOO_OLD = 'it needs 64-bit memory'


def told_by(node, folder, cases):
    words = [node, '--no-warnings', os.path.join(HERE, 'in_node.mjs'), folder]
    try:
        done = subprocess.run(words, input=json.dumps(cases).encode(), stdout=subprocess.PIPE, stderr=subprocess.PIPE, timeout=SECONDS)
    except subprocess.TimeoutExpired:
        return {'fault': 'Node took more than %d seconds' % SECONDS}
    if done.returncode:
        return {'fault': 'Node ended with %d: %s' % (done.returncode, done.stderr.decode(errors='replace')[-1500:])}
    return json.loads(done.stdout)


def without_memory(told):
    """What is wrong in a Node that can't compile the module."""
    for name in ('quick', 'wrong', 'again'):
        if TOO_OLD not in told[name].get('message', ''):
            yield "in Node, %s: %r instead of a sentence about 64-bit memory" % (name, told[name])
    # A call is refused either because the worker was closed, or before that, because the worker has found that it can't compile the module.
    if told['closed'].get('message') != 'the worker was closed' and TOO_OLD not in told['closed'].get('message', ''):
        yield 'in Node, closed: %r' % told['closed']
    if not in_a_page.holds(told['odd'], {'fault': 'TypeError'}):
        yield 'in Node, odd: %r' % told['odd']
    # How soon a worker is ended decides which of the two comes first here, too.
    if told['slow'].get('fault') != 'OutOfTime' and TOO_OLD not in told['slow'].get('message', ''):
        yield 'in Node, slow: %r' % told['slow']


def of_sources(told):
    for name, wanted in (('bad', "can't compile"), ('number', 'must be a string'), ('missing', 'build it with bin/build --web')):
        if wanted not in told[name]:
            yield 'in Node, load of a source that is %s: %r' % (name, told[name])


def differences(node, folder, texts):
    """(what is wrong, what was skipped): each a list of sentences."""
    cases = in_a_page.cases_of(texts)
    told = told_by(node, folder, [words for words, _ in cases])
    if 'fault' in told:
        return ['in Node: %s' % told['fault']], []
    if 'lacks' not in told:
        return [*in_a_page.compared(told, cases, 'in Node'), *of_sources(told)], []
    version = subprocess.run([node, '--version'], stdout=subprocess.PIPE).stdout.decode().strip()
    wrong = [] if TOO_OLD in told['lacks'] else ['in Node, load says: %s' % told['lacks']]
    skipped = 'js in Node: %s lacks 64-bit memory, so only its refusals were tested' % version
    return [*wrong, *without_memory(told), *of_sources(told)], [skipped]
