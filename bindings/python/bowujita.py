"""All grid points of a job or a tray, each once, in order; the shortest pattern; its words, texts, costs and sheets. docs/SPEC.md says what each call does.

The proved library is loaded from BOWUJITA_SO, or from target/staticlib/libbowujita.so of the repository, which bindings/run links.

>>> disk = ellipse(n=1, cx=0, cy=0, p=1, q=0, r=1, s=1)
>>> len(list(points(scale=0, a=disk, b=disk)))
9
>>> pattern = shortest(scale=20, a=slice_of(n=50, zx=-65, zy=-71, w=4813), b=disk)
>>> pattern.scale, pattern.u, pattern.t
(15, Point(a=16, b=-48, c=-137, d=-14), Point(a=-75, b=53, c=0, d=-53))
>>> word = words(*pattern)
>>> word.count("T") == pulses(exponent(pattern.u, pattern.scale)) == 28
True
"""
import collections
import ctypes
import os
import pathlib
import struct

u8, u16, u32, u64, size = ctypes.c_uint8, ctypes.c_uint16, ctypes.c_uint32, ctypes.c_uint64, ctypes.c_size_t
i16, i32, i64 = ctypes.c_int16, ctypes.c_int32, ctypes.c_int64


def _struct(name, **fields):
    return type(name, (ctypes.Structure,), {"_fields_": list(fields.items())})


# The structs as the library has them: bindings/declared.py holds them to the source.
FOUR = _struct("FOUR", a=i32, b=i32, c=i32, d=i32)
WIDE_FOUR = _struct("WIDE_FOUR", a=i64, b=i64, c=i64, d=i64)
EIGHT = _struct("EIGHT", a=i16, b=i16, c=i16, d=i16, ai=i16, bi=i16, ci=i16, di=i16)
SHAPE = _struct("SHAPE", kind=u8, n=u16, xl=i32, xh=i32, yl=i32, yh=i32, cx=i32, cy=i32, p=u16, q=i16, r=u16, s=u32, zx=i16, zy=i16, w=i32)
COUNT = _struct("COUNT", hi=u64, lo=u64)
COUNTS = _struct("COUNTS", counts=COUNT * 21)
STATE = _struct("STATE", stage=u8, k=u8, all=u8, ended=u8, a=SHAPE, b=SHAPE, spot=FOUR, operator=EIGHT, tally=COUNTS)
REPLY = _struct("REPLY", kind=u8, number=u8, flag=u8, scale=u8, count=size, u=FOUR, t=FOUR)
LEFT = _struct("LEFT", session=STATE, reply=REPLY)
TRAY_STATE = _struct("TRAY_STATE", taken=u8, k=u8, all=u8, ended=u8, count=size, spot=FOUR, b=SHAPE, a=SHAPE * 8)
TRAY_LEFT = _struct("TRAY_LEFT", session=TRAY_STATE, reply=REPLY)
THREE = _struct("THREE", n=i32, lo=i32, hi=i32)
TWO_WORDS = _struct("TWO_WORDS", hi=i64, lo=u64)
HANDED = _struct("HANDED", number=u8, ended=u8, count=size)
WORD = _struct("WORD", number=u8, second=u8, length=size)
INVERTED = _struct("INVERTED", number=u8, operator=EIGHT)
PRICES = _struct("PRICES", h=u32, s=u32, t=u32, w=u32)
TICKS = _struct("TICKS", number=u8, fits=u8, ticks=u32)
WROTE = _struct("WROTE", number=u8, count=size)
SEEN = _struct("SEEN", number=u8, k=u8, ticks=u32, taken=size, m=u64, u=FOUR, t=FOUR)
PLAIN_SHEET = _struct("PLAIN_SHEET", k=u8, u=FOUR, t=FOUR, ticks=u32)

_bytes, _numbers = ctypes.POINTER(u8), ctypes.POINTER(i32)
_read, _write, _fill = (_bytes, size), (_bytes, size), (_numbers, size)

# What each call takes and gives.
CALLS = {
    "bowujita_abi": ((), u32),
    "bowujita_read": ((STATE, *_read), LEFT),
    "bowujita_hand_out": ((STATE, *_fill), LEFT),
    "bowujita_rewind": ((STATE,), LEFT),
    "bowujita_clear": ((STATE,), LEFT),
    "bowujita_has_solution": ((STATE,), REPLY),
    "bowujita_has_image": ((STATE, FOUR), REPLY),
    "bowujita_shortest": ((STATE,), REPLY),
    "bowujita_tally": ((STATE,), COUNTS),
    "bowujita_tray_take": ((TRAY_STATE, u64, u64, *_read, *_read), TRAY_LEFT),
    "bowujita_tray_hand_out": ((TRAY_STATE, *_fill), TRAY_LEFT),
    "bowujita_tray_rewind": ((TRAY_STATE,), TRAY_LEFT),
    "bowujita_tray_clear": ((TRAY_STATE,), TRAY_LEFT),
    "bowujita_sign": ((i64, i64), i32),
    "bowujita_wide_sign": ((TWO_WORDS, TWO_WORDS), i32),
    "bowujita_exponent": ((FOUR, u8), u32),
    "bowujita_pulses": ((u32,), u64),
    "bowujita_line": ((THREE, THREE, u8, i32, i32, *_fill), HANDED),
    "bowujita_entry": ((u8, FOUR, u8, FOUR, *_fill), HANDED),
    "bowujita_words": ((u8, FOUR, FOUR, *_write, *_write), WORD),
    "bowujita_operator_test": ((EIGHT,), u8),
    "bowujita_image": ((EIGHT, FOUR), WIDE_FOUR),
    "bowujita_inverse": ((EIGHT,), INVERTED),
    "bowujita_cost": ((PRICES, *_read, u32), TICKS),
    "bowujita_tray_cost": ((PRICES, *_read, u32), TICKS),
    "bowujita_qasm_write": ((*_read, *_write), WROTE),
    "bowujita_qasm_read": ((*_read, *_write), WROTE),
    "bowujita_sheet_read": ((u8, *_read), SEEN),
    "bowujita_sheet_write": ((PLAIN_SHEET, *_write), WROTE),
}
ABI = 2


def _strict(kind):
    """The type of a number that is passed as it is or not at all: ctypes alone would cut it to its width."""

    def from_param(x):
        made = kind(x)
        if made.value != x:
            raise OverflowError(f"{x} does not fit")
        return made

    return type(kind.__name__, (), {"from_param": staticmethod(from_param)})


_STRICT = {kind: _strict(kind) for kind in (u8, u16, u32, u64, size, i16, i32, i64)}


def _load():
    here = pathlib.Path(__file__).resolve().parent
    library = ctypes.CDLL(os.environ.get("BOWUJITA_SO", here / "../../target/staticlib/libbowujita.so"))
    for name, (takes, gives) in CALLS.items():
        call = getattr(library, name)
        call.argtypes, call.restype = [_STRICT.get(kind, kind) for kind in takes], gives
    if library.bowujita_abi() != ABI:
        raise ImportError(f"libbowujita.so has ABI {library.bowujita_abi()}, this module {ABI}")
    return library


_library = _load()

SENTENCES = {
    1: "there is no byte",
    2: "the kind is none of those that are read here",
    3: "the body is cut short",
    4: "a field, a bound or a number is out of its range",
    5: "an ellipse has P·R − Q² below 1",
    6: "a parity sum of an operator is odd",
    7: "an operator with even parity sums is not special",
    8: "a known kind stands out of its turn",
    9: "scale, A and B are not all there; of trays: none is taken",
    10: "the end was reported, and no rewind or clearing came since",
    11: "a slice has zx = zy = 0",
    12: "u and t do not solve the equation of a first column",
    13: "a word, a text or a sheet is longer than its slice",
    14: "there is no pattern up to the job's scale",
    15: "a byte of a word is not one of the four letters",
    16: "no byte of A, a ninth A, or bytes behind B",
    17: "a line of a text is not one of the three, or is not closed",
    18: "no word, a last word that is not closed, or a ninth",
    19: "the reader is neither 1 nor 2",
}


class Refused(Exception):
    """A call that did nothing, with the number of SPEC, "Refusals".

    >>> try:
    ...     Session().rewind()
    ... except Refused as why:
    ...     print(why.number, why)
    9 refused 9: scale, A and B are not all there; of trays: none is taken
    """

    def __init__(self, number):
        self.number = number
        super().__init__(f"refused {number}: {SENTENCES[number]}")


def _checked(reply):
    if reply.number:
        raise Refused(reply.number)
    return reply


Point = collections.namedtuple("Point", "a b c d")
Pattern = collections.namedtuple("Pattern", "scale u t")
TrayPoint = collections.namedtuple("TrayPoint", "point regions")
Operator = collections.namedtuple("Operator", "a b c d ai bi ci di")
Cost = collections.namedtuple("Cost", "ticks fits")
Sheet = collections.namedtuple("Sheet", "k u t ticks")


def _point(four):
    return Point(four.a, four.b, four.c, four.d)


def _plain(kind, numbers):
    """A struct of numbers, each as it is or not at all.

    >>> exponent((2**32, 0, 0, 1), 3)
    Traceback (most recent call last):
        ...
    OverflowError: (4294967296, 0, 0, 1) does not fit
    """
    made = kind(*numbers)
    if [getattr(made, name) for name, _ in kind._fields_] != list(numbers):
        raise OverflowError(f"{tuple(numbers)} does not fit")
    return made


def _lent(data):
    """Bytes as a pointer and a length."""
    data = bytes(data)
    return ctypes.cast(ctypes.c_char_p(data), _bytes), len(data)


# ---- records
def rectangle(*, n, xl, xh, yl, yh):
    """The record of a rectangle.

    >>> rectangle(n=1, xl=0, xh=1, yl=0, yh=1).hex()
    '02010000000000010000000000000001000000'
    """
    return struct.pack("<BHiiii", 2, n, xl, xh, yl, yh)


def ellipse(*, n, cx, cy, p, q, r, s):
    """The record of an ellipse."""
    return struct.pack("<BHiiHhHI", 3, n, cx, cy, p, q, r, s)


def slice_of(*, n, zx, zy, w):
    """The record of a slice of the unit disk."""
    return struct.pack("<BHhhi", 5, n, zx, zy, w)


def operator(*, a, b, c, d, ai, bi, ci, di):
    """The record of an operator."""
    return struct.pack("<B8h", 4, a, b, c, d, ai, bi, ci, di)


class Session:
    """A job and the place of its walk, with the counts of what was handed out; from keyword arguments, or empty.

    >>> disk = ellipse(n=1, cx=0, cy=0, p=1, q=0, r=1, s=1)
    >>> s = Session(scale=1, all=True, a=disk, b=disk)
    >>> s.has_solution()
    True
    >>> s.hand_out(2)
    ([Point(a=-1, b=0, c=-1, d=0), Point(a=-1, b=0, c=0, d=0)], False)
    >>> len(list(s.points()))
    15
    >>> s.rewind()
    >>> sum(1 for _ in s.points()), s.tally()[:3]
    (17, [9, 8, 0])
    """

    def __init__(self, *, scale=None, all=None, a=None, b=None, operators=()):
        self.state = STATE()
        if scale is not None:
            self.read(struct.pack("<BB", 1, scale))
        if all is not None:
            self.read(bytes([6, bool(all)]))
        for record in (a, b, *operators):
            if record is not None:
                self.read(record)

    def _left(self, left):
        self.state = left.session
        return _checked(left.reply)

    def read(self, data):
        """One record from the front of the bytes; how many bytes were taken."""
        return self._left(_library.bowujita_read(self.state, *_lent(data))).count

    def hand_out(self, space):
        """The next points, at most `space` of them, and whether the end is reached."""
        numbers = (i32 * (4 * space))()
        reply = self._left(_library.bowujita_hand_out(self.state, numbers, len(numbers)))
        flat = numbers[: 4 * reply.count]
        return [Point(*flat[i : i + 4]) for i in range(0, len(flat), 4)], bool(reply.flag)

    def points(self, space=1024):
        """The points that are left, one after another; the session moves on by hand-outs of `space` points."""
        ended = False
        while not ended:
            some, ended = self.hand_out(space)
            yield from some

    def rewind(self):
        """Back before the first point."""
        self._left(_library.bowujita_rewind(self.state))

    def clear(self):
        """A fresh session again."""
        self._left(_library.bowujita_clear(self.state))

    def has_solution(self):
        """Whether the job lists a point."""
        return bool(_checked(_library.bowujita_has_solution(self.state)).flag)

    def has_image(self, w):
        """Whether w is what the remembered operator makes of a listed point."""
        return bool(_checked(_library.bowujita_has_image(self.state, _plain(FOUR, w))).flag)

    def shortest(self):
        """The shortest pattern that the job allows."""
        reply = _checked(_library.bowujita_shortest(self.state))
        return Pattern(reply.scale, _point(reply.u), _point(reply.t))

    def tally(self):
        """How many of the points handed out since the last rewind or clearing have each exponent from 0 to 20."""
        return [n.hi << 64 | n.lo for n in _library.bowujita_tally(self.state).counts]


class Tray:
    """One to eight regions A with a scale, a selection and a region B, and the place of the walk over the points of all of them; from keyword arguments, or empty.

    A point comes with the regions that hold it, by their places.

    >>> disk = ellipse(n=1, cx=0, cy=0, p=1, q=0, r=1, s=1)
    >>> right = slice_of(n=1, zx=1, zy=0, w=0)
    >>> t = Tray(scale=0, a=[disk, right], b=disk)
    >>> t.hand_out(3)
    ([TrayPoint(point=Point(a=-1, b=0, c=0, d=0), regions=(0, 1)), TrayPoint(point=Point(a=0, b=-1, c=0, d=0), regions=(0, 1)), TrayPoint(point=Point(a=0, b=0, c=-1, d=0), regions=(0,))], False)
    >>> t.rewind()
    >>> len(list(t.points()))
    9
    >>> t.take(0, False, [], disk)
    Traceback (most recent call last):
        ...
    bowujita.Refused: refused 16: no byte of A, a ninth A, or bytes behind B
    """

    def __init__(self, *, scale=None, all=False, a=(), b=b""):
        self.state = TRAY_STATE()
        if scale is not None:
            self.take(scale, all, a, b)

    def _left(self, left):
        self.state = left.session
        return _checked(left.reply)

    def take(self, scale, all, a, b):
        """A tray of regions' records replaces the one there; how many regions A."""
        return self._left(_library.bowujita_tray_take(self.state, scale, all, *_lent(b"".join(a)), *_lent(b))).count

    def hand_out(self, space):
        """The next points, at most `space` of them, and whether the end is reached."""
        numbers = (i32 * (5 * space))()
        reply = self._left(_library.bowujita_tray_hand_out(self.state, numbers, len(numbers)))
        flat = numbers[: 5 * reply.count]
        return [TrayPoint(Point(*flat[i : i + 4]), tuple(j for j in range(8) if flat[i + 4] >> j & 1)) for i in range(0, len(flat), 5)], bool(reply.flag)

    def points(self, space=1024):
        """The points that are left, one after another; the session moves on by hand-outs of `space` points."""
        ended = False
        while not ended:
            some, ended = self.hand_out(space)
            yield from some

    def rewind(self):
        """Back before the first point."""
        self._left(_library.bowujita_tray_rewind(self.state))

    def clear(self):
        """Without a tray again."""
        self._left(_library.bowujita_tray_clear(self.state))


# ---- calls without a session
def points(**job):
    """The points of a job, one after another: the keyword arguments are those of Session.

    >>> disk = ellipse(n=1, cx=0, cy=0, p=1, q=0, r=1, s=1)
    >>> next(points(scale=12, a=disk, b=disk))
    Point(a=-63, b=-7, c=0, d=-7)
    """
    yield from Session(**job).points()


def shortest(**job):
    """The shortest pattern of a job: the keyword arguments are those of Session.

    >>> disk = ellipse(n=1, cx=0, cy=0, p=1, q=0, r=1, s=1)
    >>> shortest(scale=8, a=disk, b=disk).u
    Point(a=-1, b=0, c=0, d=0)
    """
    return Session(**job).shortest()


def sign(p, q):
    """The sign of p + q√2, for p and q of up to 128 bits.

    >>> sign(-7, 5), sign(-99, 70), sign(0, 0), sign(2**120, -(2**119))
    (1, -1, 0, 1)
    """

    def two(x):
        if not -(2**127) <= x < 2**127:
            raise OverflowError("a number of more than 128 bits")
        return TWO_WORDS(x >> 64, x & (2**64 - 1))

    if all(-(2**63) <= x < 2**63 for x in (p, q)):
        return _library.bowujita_sign(p, q)
    return _library.bowujita_wide_sign(two(p), two(q))


def exponent(v, k):
    """The exponent of v/√2^k.

    >>> exponent((0, 0, 0, 1), 3), exponent((0, 0, 0, 2), 3)
    (3, 1)
    """
    return _library.bowujita_exponent(_plain(FOUR, v), k)


def pulses(e):
    """The pulse count of an exponent.

    >>> [pulses(e) for e in (0, 1, 2, 15)]
    [0, 0, 2, 28]
    """
    return _library.bowujita_pulses(e)


def _paged(width, page, space):
    after, place, ended = 0, (0,) * width, False
    while not ended:
        numbers = (i32 * (width * space))()
        reply = _checked(page(after, place, numbers))
        flat = numbers[: width * reply.count]
        for i in range(0, len(flat), width):
            after, place = 1, tuple(flat[i : i + width])
            yield place
        ended = bool(reply.ended)


def line(first, second, space=256):
    """The pairs of a line problem, one after another; an interval is (n, lo, hi).

    >>> list(line((1, 0, 5), (1, -1, 1)))
    [(0, 0), (1, 0), (1, 1), (2, 1), (2, 2)]
    """
    return _paged(2, lambda after, place, numbers: _library.bowujita_line(_plain(THREE, first), _plain(THREE, second), after, *place, numbers, len(numbers)), space)


def entry(k, u, space=256):
    """All t that make a first column with u at scale k, one after another.

    >>> sum(1 for t in entry(1, (0, 0, 0, 1)))
    8
    """
    return map(Point._make, _paged(4, lambda after, place, numbers: _library.bowujita_entry(k, _plain(FOUR, u), after, _plain(FOUR, place), numbers, len(numbers)), space))


def words(k, u, t, room=1024):
    """Of the words of U and of TUT†, the one with fewer T.

    >>> words(2, (0, -1, -1, 1), (0, 1, 0, 0))
    'HTSHTSSHSHWWW'
    """
    first, second = (u8 * room)(), (u8 * room)()
    word = _checked(_library.bowujita_words(k, _plain(FOUR, u), _plain(FOUR, t), first, room, second, room))
    return bytes((second if word.second else first)[: word.length]).decode("ascii")


def operator_test(g):
    """0, or the number of an operator's refusal.

    >>> operator_test((0, 0, 0, 1, 0, 1, 0, 0)), operator_test((1, 0, 0, 1, 0, 1, 0, 0))
    (0, 6)
    """
    return _library.bowujita_operator_test(_plain(EIGHT, g))


def image(g, v):
    """What an operator makes of a point.

    >>> image((0, 0, 0, 1, -1, 1, 1, 0), (1, 2, 3, 4))
    Point(a=-1, b=2, c=5, d=8)
    """
    return _point(_library.bowujita_image(_plain(EIGHT, g), _plain(FOUR, v)))


def inverse(g):
    """The inverse of an operator.

    >>> inverse((0, 0, 0, 1, 0, 1, 0, 0))
    Operator(a=0, b=0, c=0, d=1, ai=0, bi=1, ci=0, di=0)
    """
    h = _checked(_library.bowujita_inverse(_plain(EIGHT, g))).operator
    return Operator(*(getattr(h, name) for name in Operator._fields))


def cost(tariff, word, memory):
    """What a word costs by a tariff (h, s, t, w), in thousandths of a tick, and whether that fits a memory.

    >>> cost((1500, 400, 7000, 0), "HTS", 10)
    Cost(ticks=9, fits=True)
    """
    reply = _checked(_library.bowujita_cost(_plain(PRICES, tariff), *_lent(word.encode()), memory))
    return Cost(reply.ticks, bool(reply.fits))


def tray_cost(tariff, some, memory):
    """The same for one to eight words together.

    >>> tray_cost((1500, 400, 7000, 0), ["HTS", "S"], 9)
    Cost(ticks=10, fits=False)
    """
    text = "".join(word + "\n" for word in some)
    reply = _checked(_library.bowujita_tray_cost(_plain(PRICES, tariff), *_lent(text.encode()), memory))
    return Cost(reply.ticks, bool(reply.fits))


def qasm(word):
    """A word as lines of OpenQASM 2.0.

    >>> print(qasm("HTW"), end="")
    t q[0];
    h q[0];
    """
    text = (u8 * (8 * len(word)))()
    return bytes(text[: _checked(_library.bowujita_qasm_write(*_lent(word.encode()), text, len(text))).count]).decode("ascii")


def word_of(text):
    """The word of such lines.

    >>> word_of("t q[0];\\nh q[0];\\n")
    'HT'
    """
    word = (u8 * (len(text) // 8))()
    return bytes(word[: _checked(_library.bowujita_qasm_read(*_lent(text.encode()), word, len(word))).count]).decode("ascii")


def _sheet(k, u, t, ticks):
    made = PLAIN_SHEET(k, _plain(FOUR, u), _plain(FOUR, t), ticks)
    if (made.k, made.ticks) != (k, ticks):
        raise OverflowError(f"{(k, ticks)} does not fit")
    return made


def write_sheet(k, u, t, ticks):
    """The bytes of a pattern sheet.

    >>> sheet = write_sheet(2, (0, -1, -1, 1), (0, 1, 0, 0), 31)
    >>> read_sheet(sheet) == (Sheet(2, (0, -1, -1, 1), (0, 1, 0, 0), 31), 38)
    True
    """
    data = (u8 * 38)()
    return bytes(data[: _checked(_library.bowujita_sheet_write(_sheet(k, u, t, ticks), data, len(data))).count])


def read_sheet(data):
    """One pattern sheet from the front of the bytes, as the desk sees it, and how many bytes were taken.

    >>> sheet = struct.pack("<BB4i4iI", 7, 2, 0, -1, -1, 1, 0, 1, 0, 0, 31)
    >>> read_sheet(sheet)
    (Sheet(k=2, u=Point(a=0, b=-1, c=-1, d=1), t=Point(a=0, b=1, c=0, d=0), ticks=31), 38)
    """
    seen = _checked(_library.bowujita_sheet_read(1, *_lent(data)))
    return Sheet(seen.k, _point(seen.u), _point(seen.t), seen.ticks), seen.taken


def read_sheet_as_crew(data):
    """The pulse count and the ticks of one sheet, which is all that the line crew sees, and how many bytes were taken.

    >>> sheet = struct.pack("<BB4i4iI", 7, 2, 0, -1, -1, 1, 0, 1, 0, 0, 31)
    >>> read_sheet_as_crew(sheet)
    (2, 31, 38)
    """
    seen = _checked(_library.bowujita_sheet_read(2, *_lent(data)))
    return seen.m, seen.ticks, seen.taken
