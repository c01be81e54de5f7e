"""Answers the script of a file through the shared library, and prints the replies."""
import ctypes
import sys

USAGE, MEMORY = 2, 3


def gridlet(path):
    library = ctypes.CDLL(path)
    size = ctypes.c_size_t
    library.gridlet_room.argtypes = [
        ctypes.c_char_p, size, ctypes.c_uint32, ctypes.POINTER(size)]
    library.gridlet_run.argtypes = [
        ctypes.c_char_p, size, ctypes.c_uint32, ctypes.c_char_p, size, ctypes.POINTER(size)]
    for call in (library.gridlet_room, library.gridlet_run):
        call.restype = ctypes.c_uint32
    return library


def answer(library, script, order=0):
    """The status of a script, and its replies."""
    room, written = ctypes.c_size_t(), ctypes.c_size_t()
    status = library.gridlet_room(script, len(script), order, ctypes.byref(room))
    if status in (USAGE, MEMORY):
        return status, b""
    out = ctypes.create_string_buffer(room.value + 1)
    status = library.gridlet_run(
        script, len(script), order, out, room.value + 1, ctypes.byref(written))
    return status, out.raw[:written.value]


def main():
    library = gridlet(sys.argv[1])
    with open(sys.argv[2], "rb") as file:
        status, replies = answer(library, file.read())
    sys.stdout.buffer.write(replies)
    return status


if __name__ == "__main__":
    sys.exit(main())
