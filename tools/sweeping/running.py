"""Runs pieces: each in a process of its own, started by a worker of Dask's scheduler or by this process."""
import collections
import json
import os
import subprocess
import sys
import tempfile
import time

SECONDS_OF_A_PIECE = 3600
# A piece whose process is ended from outside is run again so often.
MOST_ATTEMPTS = 5
ENDED_FROM_OUTSIDE = (-9, -15, 137, 143)
SECONDS_OF_PATIENCE = 120


class Gone(Exception):
    """The scheduler can't be reached any more."""


def run_in_a_process(words, seconds):
    """(status, output, messages, the input of the last call) of a piece's process. It needs nothing but the standard library, since a worker
    on another machine runs it too."""
    import subprocess as processes
    import tempfile as files
    with files.NamedTemporaryFile(prefix='sweep-') as last:
        try:
            done = processes.run([*words, '--last', last.name], stdin=processes.DEVNULL, stdout=processes.PIPE, stderr=processes.PIPE,
                                 timeout=seconds)
        except processes.TimeoutExpired:
            return 'too late', b'', b'', last.read()
        except OSError as fault:
            return 'not started', b'', str(fault).encode(), b''
        return done.returncode, done.stdout, done.stderr, last.read()


# Dask sends a function of the main program by its code, and any other by its name, which the workers of a scheduler elsewhere can't import.
run_in_a_process.__module__ = '__main__'


def result_of(piece, ended):
    """A piece's result, or None if its process was ended from outside, so that it is to be run again."""
    status, output, said, last = ended
    if status == 0:
        return json.loads(output)
    if status in ENDED_FROM_OUTSIDE:
        return None
    words, _, text = last.partition(b'\n')
    fault = {'fault': 'the process of the piece ended with %s: %s' % (status, said.decode(errors='replace').strip()[-400:]), 'input': None,
             'words': words.decode(errors='replace'), 'text': text[:4000].decode('latin-1')}
    return {'piece': piece, 'inputs': 0, 'calls': 0, 'ends': {}, 'sum': '', 'faults': [fault], 'worst': {}}


class Attempts:
    """How often each piece was begun."""

    def __init__(self):
        self.count = collections.Counter()

    def taken(self, piece, ended):
        """The piece's result, or None if it is to be run again."""
        self.count[piece] += 1
        result = result_of(piece, ended)
        if result is None and self.count[piece] >= MOST_ATTEMPTS:
            return result_of(piece, ('a signal from outside, %d times' % MOST_ATTEMPTS, *ended[1:]))
        return result


def in_processes(pieces, workers, words_of, take):
    """Runs the pieces in so many processes of this machine at once, and hands each result to `take`."""
    attempts, waiting, running = Attempts(), collections.deque(pieces), {}
    try:
        while waiting or running:
            while waiting and len(running) < workers:
                piece = waiting.popleft()
                running[piece] = Begun(words_of(piece))
            for piece, begun in list(running.items()):
                ended = begun.ended()
                if ended is None:
                    continue
                del running[piece]
                result = attempts.taken(piece, ended)
                if result is None:
                    waiting.appendleft(piece)
                else:
                    take(result)
            time.sleep(0.02)
    finally:
        for begun in running.values():
            begun.stop()


class Begun:
    """A piece's process that runs beside others."""

    def __init__(self, words):
        self.output, self.said, self.last = tempfile.TemporaryFile(), tempfile.TemporaryFile(), tempfile.NamedTemporaryFile(prefix='sweep-')
        self.ends = time.monotonic() + SECONDS_OF_A_PIECE
        self.process = subprocess.Popen([*words, '--last', self.last.name], stdin=subprocess.DEVNULL, stdout=self.output, stderr=self.said)

    def ended(self):
        status = self.process.poll()
        if status is None and time.monotonic() < self.ends:
            return None
        if status is None:
            self.stop()
            status = 'too late'
        for file in (self.output, self.said, self.last):
            file.seek(0)
        return status, self.output.read(), self.said.read(), self.last.read()

    def stop(self):
        self.process.kill()
        self.process.wait()


def has_dask():
    try:
        import distributed
        return bool(distributed.Client)
    except ImportError:
        return False


def by_dask(pieces, workers, address, words_of, take):
    """Runs the pieces on the workers of a scheduler: the one at the address, or one that is started here. Raises Gone if it ends."""
    import logging
    import distributed
    # Its loggers have levels of their own, and one writes a traceback when the scheduler goes away, which is told by Gone.
    logging.disable(logging.CRITICAL)
    cluster = None if address else distributed.LocalCluster(n_workers=workers, threads_per_worker=1, processes=True, dashboard_address=None)
    try:
        with distributed.Client(address or cluster, timeout=SECONDS_OF_PATIENCE) as client:
            hand_out(client, pieces, words_of, take)
    except (OSError, distributed.TimeoutError, distributed.client.CancelledError) as fault:
        raise Gone(str(fault)) from None
    finally:
        if cluster:
            cluster.close()


def hand_out(client, pieces, words_of, take):
    """Keeps four pieces for each worker with the scheduler, so that a long sweep isn't held by it."""
    import distributed
    attempts, waiting, running = Attempts(), collections.deque(pieces), {}
    wait = distributed.wait
    while waiting or running:
        workers = max(1, len(client.scheduler_info()['workers']))
        while waiting and len(running) < 4 * workers:
            piece = waiting.popleft()
            running[client.submit(run_in_a_process, words_of(piece), SECONDS_OF_A_PIECE, pure=False, retries=MOST_ATTEMPTS)] = piece
        try:
            done = wait(list(running), timeout=5, return_when='FIRST_COMPLETED').done
        except distributed.TimeoutError:
            done = ()
        if client.status != 'running':
            raise Gone('the connection is %s' % client.status)
        for future in done:
            piece = running.pop(future)
            if future.status == 'error' and not isinstance(future.exception(), distributed.scheduler.KilledWorker):
                raise Gone("its workers can't begin %s: %s" % (piece, future.exception()))
            result = None if future.status != 'finished' else attempts.taken(piece, future.result())
            if result is None:
                waiting.appendleft(piece)
                attempts.count[piece] += future.status != 'finished'
                if attempts.count[piece] > MOST_ATTEMPTS:
                    raise Gone('the scheduler lost %s %d times' % (piece, MOST_ATTEMPTS))
            else:
                take(result)
