"""Loads the library as a shared object and makes two calls: the row check and MaxNTO."""
import ctypes, sys


class Answer(ctypes.Structure):
    _fields_ = [("number", ctypes.c_size_t), ("first", ctypes.c_size_t), ("second", ctypes.c_size_t)]


def words(values):
    return (ctypes.c_uint64 * len(values))(*values), ctypes.c_size_t(len(values))


def octets(values):
    return (ctypes.c_uint8 * len(values))(*values), ctypes.c_size_t(len(values))


library = ctypes.CDLL(sys.argv[1])
for name in ("ropethistle_check_rows", "ropethistle_maxnto"):
    getattr(library, name).restype = Answer
two = ctypes.c_size_t(2)
x, z, p, v, room = words([1, 1, 2, 2]), words([0, 1, 1, 3]), octets([0, 1, 0, 1]), words([0]), words([7] * 9)
a = library.ropethistle_check_rows(two, two, *x, *z, *p, *v, *room)
assert (a.number, a.first, a.second) == (0, 0, 0)
assert list(room[0]) == [0] * 8 + [7]
a = library.ropethistle_check_rows(two, two, *words([1] * 4), *words([0] * 4), *p, *v, *room)
assert (a.number, a.first, a.second) == (10, 0, 1)
a = library.ropethistle_maxnto(two, *x, *z, *p)
assert a.number == 0 and list(x[0]) == [2, 2, 1, 1] and list(z[0]) == [1, 3, 0, 1] and list(p[0]) == [0, 1, 0, 1]
null = ctypes.c_void_p(0), ctypes.c_size_t(0)
assert library.ropethistle_maxnto(two, *null, *null, *null).number == 2
print("link.py: all tests passed")
