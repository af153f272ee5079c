#!/usr/bin/env python3
"""The pool from Python, by ctypes alone: a thread puts lines, and another reads them where they stand and clears them.

usage: python3 example.py [LIBPARDZ.so LIBPARDZ-HEAP.so]

Without words it takes the libraries that `install` puts where the system looks for them.
"""
import ctypes
import queue
import sys
import threading
import time

OK, GONE, BUSY = 0, 8, 15


class Lane(ctypes.Structure):
    """pardz_lane: a lane, or PARDZ_EMPTY."""

    _fields_ = [("at", ctypes.c_void_p), ("full", ctypes.c_uint64)]


class Shape(ctypes.Structure):
    """pardz_shape."""

    _fields_ = [(name, ctypes.c_uint32) for name in ("lanes", "first_page", "pages", "last_generation", "tag")]


class Census(ctypes.Structure):
    """pardz_census."""

    _fields_ = [(name, ctypes.c_uint32) for name in ("free", "unopened", "filling", "present", "marked", "retired")]


class Slot(ctypes.Structure):
    """pardz_pool: a pool that any thread calls, or PARDZ_EMPTY."""

    _fields_ = [("at", ctypes.c_void_p), ("full", ctypes.c_uint64)]


class Lent(ctypes.Structure):
    """pardz_lent: a reference of such a pool, with its bytes."""

    _fields_ = [("at", ctypes.c_void_p), ("len", ctypes.c_size_t), ("key", ctypes.c_uint64), ("lane", ctypes.c_uint32)]


class OwnedSlot(ctypes.Structure):
    """pardz_owned: a reference that goes to any thread, or PARDZ_EMPTY."""

    _fields_ = [("at", ctypes.c_void_p), ("key", ctypes.c_uint64)]


class Refused(Exception):
    """A call answered a code that isn't PARDZ_OK."""


def load(library, heap):
    """The library, over the heap that it calls."""
    names = ctypes.CDLL(heap, mode=ctypes.RTLD_GLOBAL)
    names.pardz_next_number.restype = ctypes.c_uint64
    pardz = ctypes.CDLL(library)
    slot, lent, owned, number = ctypes.POINTER(Slot), ctypes.POINTER(Lent), ctypes.POINTER(OwnedSlot), ctypes.c_uint32
    lane, key, size, bytes_at = ctypes.POINTER(Lane), ctypes.c_uint64, ctypes.c_size_t, ctypes.POINTER(ctypes.c_void_p)
    for name, arguments in {
        "open_numbered": [ctypes.POINTER(Shape), lane, size, ctypes.c_uint64],
        "put": [lane, ctypes.c_char_p, size, ctypes.POINTER(key)],
        "get": [lane, key, bytes_at, ctypes.POINTER(size)],
        "release": [lane, key],
        "clear": [lane, key],
        "join": [lane, lane],
        "close": [lane, ctypes.POINTER(Census)],
        "attach": [ctypes.POINTER(Shape), slot],
        "pool_put": [slot, number, ctypes.c_char_p, size, ctypes.POINTER(key)],
        "pool_get": [slot, number, key, lent],
        "pool_release": [slot, lent],
        "pool_clear": [slot, number, key],
        "detach": [slot, ctypes.POINTER(Census)],
        "own": [slot, number, key, owned],
        "owned_bytes": [owned, bytes_at, ctypes.POINTER(size)],
        "disown": [owned],
    }.items():
        call = getattr(pardz, "pardz_" + name, None)
        if call is not None:
            call.argtypes, call.restype = arguments, ctypes.c_uint32
    return pardz, names.pardz_next_number


def must(code):
    """Raises what a code says."""
    if code != OK:
        raise Refused(f"code {code}: pardz.h says what it means")


class Pool:
    """A pool with its lanes. A lane is in one call at a time."""

    def __init__(self, library, heap, shape):
        self.pardz, next_number = load(library, heap)
        self.lanes = (Lane * shape.lanes)()
        must(self.pardz.pardz_open_numbered(ctypes.byref(shape), self.lanes, shape.lanes, next_number()))

    def put(self, number, data):
        """Publishes bytes by the lane of this number, and answers their key."""
        key = ctypes.c_uint64()
        must(self.pardz.pardz_put(self.lanes[number], data, len(data), ctypes.byref(key)))
        return key.value

    def read(self, number, key, reader):
        """What `reader` makes of a view of the bytes, where they stand; None where nothing is published under the key."""
        at, length = ctypes.c_void_p(), ctypes.c_size_t()
        code = self.pardz.pardz_get(self.lanes[number], key, ctypes.byref(at), ctypes.byref(length))
        if code == GONE:
            return None
        must(code)
        try:
            view = (ctypes.c_ubyte * length.value).from_address(at.value) if length.value else b""
            return reader(memoryview(view).toreadonly())
        finally:
            must(self.pardz.pardz_release(self.lanes[number], key))

    def clear(self, number, key):
        """Whether this call cleared the key."""
        code = self.pardz.pardz_clear(self.lanes[number], key)
        if code != GONE:
            must(code)
        return code == OK

    def close(self):
        """Joins the lanes, closes the pool, and answers what its places were."""
        census = Census()
        for number in range(len(self.lanes) - 1, 0, -1):
            must(self.pardz.pardz_join(self.lanes[0], self.lanes[number]))
        must(self.pardz.pardz_close(self.lanes[0], ctypes.byref(census)))
        return {name: getattr(census, name) for name, _ in Census._fields_}


class SharedPool:
    """A pool that any number of threads call at once."""

    def __init__(self, library, heap, shape):
        self.pardz, _ = load(library, heap)
        self.slot = Slot()
        must(self.pardz.pardz_attach(ctypes.byref(shape), ctypes.byref(self.slot)))

    def call(self, name, *arguments):
        """Calls until a lane serves it, and answers the code."""
        while True:
            code = getattr(self.pardz, "pardz_" + name)(self.slot, *arguments)
            if code != BUSY:
                return code
            time.sleep(0)

    def put(self, data):
        """Publishes bytes, and answers their key."""
        key = ctypes.c_uint64()
        must(self.call("pool_put", threading.get_native_id(), data, len(data), ctypes.byref(key)))
        return key.value

    def take(self, key):
        """The bytes under a key, which this call cleared; None where nothing is published under it any more."""
        lent = Lent()
        code = self.call("pool_get", threading.get_native_id(), key, ctypes.byref(lent))
        if code == GONE:
            return None
        must(code)
        data = ctypes.string_at(lent.at, lent.len) if lent.len else b""
        cleared = self.call("pool_clear", 0, key)
        must(self.call("pool_release", ctypes.byref(lent)))
        if cleared == GONE:
            return None
        must(cleared)
        return data

    def own(self, key):
        """The bytes under a key, where they stand, also when the key is cleared and the pool is closed."""
        owned = OwnedSlot()
        must(self.call("own", threading.get_native_id(), key, ctypes.byref(owned)))
        return Owned(self.pardz, owned)

    def close(self):
        """Closes the pool, and answers how many keys were still published."""
        census = Census()
        must(self.pardz.pardz_detach(ctypes.byref(self.slot), ctypes.byref(census)))
        return census.present


class Owned:
    """An owned reference, until `close`; any thread may have it."""

    def __init__(self, pardz, slot):
        self.pardz, self.slot = pardz, slot

    def view(self):
        """A view of the bytes, to be used before `close`."""
        at, length = ctypes.c_void_p(), ctypes.c_size_t()
        must(self.pardz.pardz_owned_bytes(ctypes.byref(self.slot), ctypes.byref(at), ctypes.byref(length)))
        bytes_there = (ctypes.c_ubyte * length.value).from_address(at.value) if length.value else b""
        return memoryview(bytes_there).toreadonly()

    def close(self):
        """Gives the reference back."""
        must(self.pardz.pardz_disown(ctypes.byref(self.slot)))


def many_threads(library, heap):
    """Twenty threads put and take by the two lanes of one pool."""
    pool = SharedPool(library, heap, Shape(lanes=2, first_page=64, pages=3, last_generation=2**32 - 1, tag=2))
    keys = queue.SimpleQueue()

    def put_and_take(thread):
        for line in range(50):
            keys.put(pool.put(f"line {line} of {thread}".encode()))
            key = keys.get()
            assert pool.take(key).startswith(b"line ") and pool.take(key) is None

    threads = [threading.Thread(target=put_and_take, args=(number,)) for number in range(20)]
    for thread in threads:
        thread.start()
    for thread in threads:
        thread.join()
    owned = pool.own(pool.put(b"owned"))
    assert pool.close() == 1
    reader = threading.Thread(target=lambda: keys.put((bytes(owned.view()), owned.close())))
    reader.start()
    reader.join()
    assert keys.get_nowait() == (b"owned", None)


def main():
    words = sys.argv[1:] or ["libpardz.so.0.2", "libpardz-heap.so.0.2"]
    if len(words) != 2:
        sys.exit(__doc__.strip())
    library, heap = words
    try:
        load(library, heap)
    except OSError as error:
        sys.exit(f"{error}\n\n{__doc__.strip()}")
    pool = Pool(library, heap, Shape(lanes=2, first_page=8, pages=2, last_generation=2**32 - 1, tag=1))
    keys = queue.Queue(maxsize=4)

    def put_lines():
        try:
            for line in range(1000):
                keys.put(pool.put(1, f"line {line}".encode()))
        finally:
            keys.put(None)

    writer = threading.Thread(target=put_lines, daemon=True)
    writer.start()
    for line, key in enumerate(iter(keys.get, None)):
        text = pool.read(0, key, lambda view: str(view, "utf-8"))
        assert text == f"line {line}" and pool.clear(0, key) and not pool.clear(0, key)
        if line % 250 == 0:
            print(text)
    writer.join()
    assert pool.read(0, pool.put(0, b""), bytes) == b"" and pool.read(0, 1, bytes) is None
    print(pool.close())
    # (By one slot of a pool many threads call over the library that cargo builds alone, which has owned references too.)
    if hasattr(ctypes.CDLL(library), "pardz_own"):
        many_threads(library, heap)


if __name__ == "__main__":
    main()
