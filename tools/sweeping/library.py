"""The library's calls in this process, by the words of the program."""
import ctypes
import os

DONE, SYNTAX, LIMIT, NO_MEMORY, READ_FAULT, TOO_LONG, USAGE, DIFFERS = range(8)
WHOLE = (DONE, SYNTAX, LIMIT, DIFFERS)
ROOM = 1 << 16
BYTES, NUMBER = [ctypes.c_char_p, ctypes.c_size_t], [ctypes.c_uint64]
REPLY = [ctypes.c_void_p, ctypes.c_size_t, ctypes.POINTER(ctypes.c_size_t)]
JOBS = {
    '': ('replay', BYTES), '--check': ('check', BYTES), '--lint': ('lint', BYTES), '--summary': ('summary', BYTES), '--print': ('print', BYTES),
    '--judge': ('judge', BYTES), '--pages': ('pages', BYTES), '--inspect': ('inspect', NUMBER + BYTES), '--hit': ('hit', NUMBER + BYTES * 3),
    '--generate': ('generate', NUMBER), '--generate-run': ('generate_run', NUMBER),
}


class Library:
    """`last` is a file that holds the input of the call that runs, so that whoever started this process sees at which it stopped."""

    def __init__(self, path, last=None):
        self.made, self.buffer = ctypes.CDLL(path), ctypes.create_string_buffer(ROOM)
        self.last = os.open(last, os.O_WRONLY | os.O_CREAT) if last else None
        self.calls = {}
        for word, (job, parameters) in JOBS.items():
            call = getattr(self.made, 'mifdagus_raw_' + job)
            call.argtypes, call.restype = parameters + REPLY, ctypes.c_uint8
            self.calls[word] = call

    def note(self, words, text):
        if self.last is not None:
            noted = repr(list(words)).encode() + b'\n' + text
            os.pwrite(self.last, noted, 0)
            os.ftruncate(self.last, len(noted))

    def call(self, words, text, room):
        """(status, how many bytes are needed) of a call with the buffer of at least so many bytes."""
        if room > len(self.buffer):
            self.buffer = ctypes.create_string_buffer(room)
        needed = ctypes.c_size_t(77)
        given = []
        if len(words) > 1:
            given.append(int(words[1]))
        for word in words[2:]:
            given += [word.encode(), len(word.encode())]
        if not words or not words[0].startswith('--generate'):
            given += [text, len(text)]
        status = self.calls[words[0] if words else ''](*given, ctypes.addressof(self.buffer), room, ctypes.byref(needed))
        return status, needed.value

    def answer(self, words, text):
        """(status, reply) with as much room as it takes."""
        self.note(words, text)
        status, needed = self.call(words, text, ROOM)
        if status == TOO_LONG:
            status, needed = self.call(words, text, needed)
        return status, ctypes.string_at(self.buffer, needed)
