"""A budget is opened, its rent changed 10,000 times, and the total read each time. Prints the least
total and the greatest: session.py libgridlet.so."""
import ctypes
import sys

ANSWERED, ROOM = 0, 5
BUDGET = b"set A1 rent\nset B1 900\nset B2 450\nset B3 120\nset B4 =SUM(B1:B3)*12\n"


class Handle(ctypes.Structure):
    """A session as the library sees it."""
    _fields_ = [("state", ctypes.c_void_p)]


def library(path):
    """The library of this file, with the types of its calls."""
    made = ctypes.CDLL(path)
    session, size = ctypes.POINTER(Handle), ctypes.c_size_t
    sizes = ctypes.POINTER(size)
    made.gridlet_open.argtypes = [ctypes.c_uint32, session]
    made.gridlet_feed.argtypes = [session, ctypes.c_char_p, size]
    made.gridlet_replies.argtypes = [session, ctypes.c_char_p, size, sizes, sizes]
    made.gridlet_end.argtypes = [session]
    made.gridlet_close.argtypes = [session]
    made.gridlet_close.restype = None
    return made


class Session:
    """A sheet that lives in this process."""

    def __init__(self, made, order=0, room=4096):
        self.made, self.handle = made, Handle()
        self.session = ctypes.pointer(self.handle)
        self.room, self.out = room, ctypes.create_string_buffer(room)
        self.written, self.left = ctypes.c_size_t(), ctypes.c_size_t()
        self.sizes = ctypes.byref(self.written), ctypes.byref(self.left)
        status = made.gridlet_open(order, self.session)
        if status != ANSWERED:
            raise MemoryError(f"no session: status {status}")

    def feed(self, text):
        """Feeds bytes; the status."""
        return self.made.gridlet_feed(self.session, text, len(text))

    def end(self):
        """Ends the input; the status of the script."""
        return self.made.gridlet_end(self.session)

    def replies(self):
        """All replies that wait."""
        taken = b""
        while True:
            status = self.made.gridlet_replies(self.session, self.out, self.room, *self.sizes)
            taken += ctypes.string_at(self.out, self.written.value)
            if status != ROOM:
                return taken

    def ask(self, text):
        """Feeds bytes, and takes all replies."""
        self.feed(text)
        return self.replies()

    def close(self):
        """Closes the session."""
        self.made.gridlet_close(self.session)

    def __enter__(self):
        return self

    def __exit__(self, *_):
        self.close()


def main():
    with Session(library(sys.argv[1])) as sheet:
        sheet.ask(BUDGET)
        totals = [int(sheet.ask(b"set B1 %d\nshow B4\n" % rent).split()[1])
                  for rent in range(10000)]
    print(min(totals), max(totals))


if __name__ == "__main__":
    main()
