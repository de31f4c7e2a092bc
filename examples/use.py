"""use.py: the events of a capture, by ctypes. Its arguments are options of `show`, and the capture is standard input:

    python3 use.py --frames bare --packets aligned --itm 1 < events.itm
"""
import ctypes
import sys
from collections import namedtuple

DONE, CAPTURE_FAULT, WRITE_FAULT, RECOVERED = 0, 3, 5, 9
Event = namedtuple('Event', 'place source kind values')


class Ended(ctypes.Structure):
    _fields_ = [('status', ctypes.c_uint64), ('output', ctypes.c_size_t), ('notes', ctypes.c_size_t)]


library = ctypes.CDLL('liblipparoy.so.1')
library.lipparoy_run.argtypes = [ctypes.c_char_p, ctypes.c_size_t] * 4 + [ctypes.POINTER(Ended)]
library.lipparoy_run.restype = None


def run(words, data, room=1 << 16):
    """The status, the output and the notes of a call."""
    words, ended, notes = ' '.join(words).encode(), Ended(WRITE_FAULT), ctypes.create_string_buffer(4096)
    while ended.status == WRITE_FAULT:
        room *= 2
        output = ctypes.create_string_buffer(room)
        library.lipparoy_run(words, len(words), data, len(data), output, room, notes, len(notes), ended)
    return ended.status, output.raw[:ended.output], notes.raw[:ended.notes]


def events(data, *options):
    """Each event of the capture; an error at its fault, unless `--recover` is among the options."""
    status, output, notes = run(['show', *options], data)
    for line in output.decode().splitlines():
        place, source, *rest = line.split()
        if place[0].isdigit() and source.isdigit():
            yield Event(place, int(source), rest[0], rest[1:])
    if status not in (DONE, RECOVERED):
        raise ValueError(line if status == CAPTURE_FAULT else notes.decode())


if __name__ == '__main__':
    for event in events(sys.stdin.buffer.read(), *sys.argv[1:]):
        print(*event)
