"""mqarbset for Python: midambles, whole and by the block, chips for the signal card, who is on the air, timeslot
parts, beacon timeslots, paging bits and the class book of the 3.84 Mcps option of 3GPP TS 25.221.

Over the C interface (include/mqarbset.h), with ctypes of the standard library only. A call that is
refused raises Refused, which has the refusal's number and words; the book is then as it was. Whole
numbers of any size may be handed in, and the library refuses what it must; what is no whole number,
or no bytes or no numbers where these are expected, is a TypeError that names the parameter, and a
negative length of a block, or blocks of length 0, a ValueError. The library does all the work and is
proved; this module is not.

The shared library is the one that MQARBSET_LIBRARY names, or the one that install.sh installed with
this file, or, in a checkout, the one that examples/run built; no other is looked for.
"""
import array
import ctypes
import enum
import math
import operator
import os
import pathlib
import threading
from typing import Dict, Iterable, List, NamedTuple, Optional, Tuple

__all__ = [
    'UP', 'DOWN', 'OFF', 'ON', 'TORN', 'Part', 'Span', 'Parts', 'Place', 'Indicator', 'Booking', 'Summary', 'Book', 'Blocks', 'BlockPlace', 'Heard',
    'Refused', 'refusal_text', 'midamble_chip', 'midamble', 'blocks', 'pair', 'pairs', 'hear', 'parts', 'at', 'beacon', 'indicator', 'owner', 'page',
    'read_page',
]
__version__ = '0.9.0'

UP, DOWN = 0, 1
OFF, ON, TORN = 0, 1, 2

_LONG_MIDAMBLE, _LONG_PAIRS, _PAGE_BYTES, _INDICATORS = 512, 1024, 276, 68
_SEATS, _LIST_RECORDS, _RECORD_BYTES, _BOOK_BYTES, _TEXT_BYTES = 16, 40, 8, 6432, 255
_LEAVES = 16
_LARGEST = 2 ** 32 - 1
_INSTALLED = None  # install.sh writes the library's path here


class Part(enum.IntEnum):
    """The parts of a timeslot in time order, by the numbers that the library counts them with."""
    DATA_1 = 1
    TFCI_1 = 2
    MIDAMBLE = 3
    TPC = 4
    TFCI_2 = 5
    DATA_2 = 6
    GUARD = 7


class Refused(Exception):
    """A refused call: `number` is document 01's or 02's, `words` are its words."""

    def __init__(self, number: int) -> None:
        super().__init__(number)
        self.number = number

    @property
    def words(self) -> str:
        return refusal_text(self.number)

    def __str__(self) -> str:
        return f'{self.number}, {self.words}'


class Span(NamedTuple):
    """A part of a timeslot: its first chip, 0 to 2559, and its length in chips."""
    start: int
    length: int


class Parts(NamedTuple):
    """The seven parts in time order, and how many bits data 1 and data 2 carry. An empty part starts
    where the part before it ends."""
    spans: Dict[Part, Span]
    bits: Tuple[int, int]


class Place(NamedTuple):
    """What lies at a chip: the part, and the symbol's number in it (in midamble and guard the chip's
    offset), from 0."""
    part: Part
    number: int


class BlockPlace(NamedTuple):
    """A place in a midamble: which midamble it is, and how many of its chips are written already."""
    cell: int
    burst: int
    count: int
    user: int
    written: int


class Heard(NamedTuple):
    """Who is on the air: the user, and the two sums of that user, real and imaginary part; both are whole numbers,
    and zero is never -0.0."""
    user: int
    re: float
    im: float


class Indicator(NamedTuple):
    """Where an indicator sits: its frame, its number q there, and `length` carrying bits from `first`
    and from `second`; all count from 0."""
    frame: int
    q: int
    first: int
    second: int
    length: int


class Booking(NamedTuple):
    """A booking as it is listed: direction is UP or DOWN, the code is (factor, index)."""
    timeslot: int
    direction: int
    burst: int
    factor: int
    index: int
    user: int
    tfci: int
    tpc: int


class Summary(NamedTuple):
    """What a seat's bookings cover in a timeslot: of each of the 16 leaves, leaf 0 first, whether a booking
    covers it; the direction of the bookings, UP or DOWN, None where there are none; and how many they are.

    Code (factor, index) is free where none of its leaves is covered: not any(leaves[(index - 1) * n:index * n])
    with n = 16 // factor.
    """
    leaves: Tuple[bool, ...]
    direction: Optional[int]
    count: int


# ---- the library

def _struct(name, *fields):
    return type(name, (ctypes.Structure,), {'_fields_': list(fields)})


def _numbers(name, *names):
    return _struct(name, *((n, ctypes.c_uint32) for n in names))


_Book = _struct('_Book', ('inside', ctypes.c_ubyte * _BOOK_BYTES))
_BookAnswer = _struct('_BookAnswer', ('refusal', ctypes.c_uint32), ('book', _Book))
_Answer = _numbers('_Answer', 'refusal', 'value')
_BlockPlace = _numbers('_BlockPlace', *BlockPlace._fields)
_BlockStart = _struct('_BlockStart', ('refusal', ctypes.c_uint32), ('place', _BlockPlace))
_Block = _struct('_Block', ('refusal', ctypes.c_uint32), ('written', ctypes.c_uint32), ('place', _BlockPlace))
_PairAnswer = _struct('_PairAnswer', ('refusal', ctypes.c_uint32), ('re', ctypes.c_float), ('im', ctypes.c_float))
_HearAnswer = _struct('_HearAnswer', ('refusal', ctypes.c_uint32), ('user', ctypes.c_uint32), ('re', ctypes.c_float), ('im', ctypes.c_float))
_PartsAnswer = _struct('_PartsAnswer', ('refusal', ctypes.c_uint32), ('start', ctypes.c_uint32 * 7),
                       ('length', ctypes.c_uint32 * 7), ('bits', ctypes.c_uint32 * 2))
_Place = _numbers('_Place', 'refusal', 'part', 'number')
_Beacons = _numbers('_Beacons', 'refusal', 'count', 'first', 'second')
_Indicator = _numbers('_Indicator', 'refusal', 'frame', 'q', 'first', 'second', 'length')
_Owner = _numbers('_Owner', 'refusal', 'reserved', 'q')
_Summary = _numbers('_Summary', 'refusal', 'leaves', 'direction', 'count')

# What each function takes and gives: u a number, m lent memory (a pointer and its length), f a lent row of floats
# (likewise, its length in floats), b a book, p a place in a midamble.
_CALLS = {
    'mq_version': ('', ctypes.c_uint32),
    'mq_book_bytes': ('', ctypes.c_uint32),
    'mq_refusal_text': ('um', _Answer),
    'mq_midamble_chip': ('uuuuu', _Answer),
    'mq_midamble': ('uuuum', _Answer),
    'mq_block_start': ('uuuu', _BlockStart),
    'mq_block_value': ('pm', _Block),
    'mq_pair': ('uuuuuu', _PairAnswer),
    'mq_pairs': ('uuuuuf', _Answer),
    'mq_hear': ('uuuf', _HearAnswer),
    'mq_parts': ('uuuuu', _PartsAnswer),
    'mq_at': ('uuuuuu', _Place),
    'mq_beacon': ('uu', _Beacons),
    'mq_indicator': ('uuuu', _Indicator),
    'mq_owner': ('uuu', _Owner),
    'mq_page': ('uumm', _Answer),
    'mq_read_page': ('uumm', _Answer),
    'mq_empty_book': ('', _Book),
    'mq_open_value': ('buuuuuu', _BookAnswer),
    'mq_book_value': ('buuuuuuuuu', _BookAnswer),
    'mq_cancel_value': ('buuuu', _BookAnswer),
    'mq_close_value': ('bu', _BookAnswer),
    'mq_list_bytes': ('bum', _Answer),
    'mq_summary_value': ('buu', _Summary),
}
_TYPES = {'u': [ctypes.c_uint32], 'm': [ctypes.c_char_p, ctypes.c_size_t],
          'f': [ctypes.POINTER(ctypes.c_float), ctypes.c_size_t], 'b': [_Book], 'p': [_BlockPlace]}
_FLOATS = ('f', '@f', '=f', '<f')  # how a buffer may name the floats that the library takes


def _path() -> str:
    """The shared library's path, or a message that says what to do."""
    named = os.environ.get('MQARBSET_LIBRARY')
    if named:
        return named
    built = pathlib.Path(__file__).resolve().parent.parent / 'target' / 'staticlib' / 'libmqarbset.so'
    path = _INSTALLED or str(built)
    if not os.path.exists(path):
        raise ImportError(f'no {path}: build it (examples/run), install it (install.sh) or name it in MQARBSET_LIBRARY')
    return path


def _loaded():
    """The library with the types of its calls, if it is of this module's version."""
    path = _path()
    library = ctypes.CDLL(path)
    try:
        for name, (takes, gives) in _CALLS.items():
            function = getattr(library, name)
            function.argtypes = [t for letter in takes for t in _TYPES[letter]]
            function.restype = gives
    except AttributeError as missing:
        raise ImportError(f'{path} is another version than this module, {__version__}: {missing}') from None
    number = library.mq_version()
    version = f'{number // 10000}.{number // 100 % 100}.{number % 100}'
    if version != __version__ or library.mq_book_bytes() != _BOOK_BYTES:
        raise ImportError(f'{path} has the version {version}, and this module {__version__}: install both together')
    return library


_library = _loaded()


class _Lent:
    """Memory that is lent to a call: to read, or room to write in."""

    def __init__(self, buffer, size):
        self.passed = [buffer, size]


def _whole(name, value):
    """A whole number."""
    try:
        return operator.index(value)
    except TypeError:
        raise TypeError(f'{name} must be a whole number, not {type(value).__name__}') from None


def _number(name, value):
    """A number as the library takes it. What does not fit 32 bits goes as the largest that does: every
    call refuses both alike."""
    n = _whole(name, value)
    return n if 0 <= n <= _LARGEST else _LARGEST


def _length(value, least):
    """How many bytes a block has, at least so many."""
    n = _whole('length', value)
    if n < least:
        raise ValueError(f'length must be at least {least}, not {n}')
    return n


def _place(held):
    """The library's struct as a BlockPlace."""
    return BlockPlace(*(getattr(held, name) for name in BlockPlace._fields))


def _bytes(name, value):
    """Bytes to read."""
    try:
        held = memoryview(value).tobytes()
    except TypeError:
        raise TypeError(f'{name} must be bytes, not {type(value).__name__}') from None
    return _Lent(held, len(held))


def _float(name, value):
    """A number as a float of C. One that no such float equals goes as not a number: it is never rounded."""
    try:
        nearest = ctypes.c_float(value).value
    except OverflowError:
        return math.nan
    except TypeError:
        raise TypeError(f'{name} must be numbers, not {type(value).__name__}') from None
    return nearest if nearest == value else math.nan


def _row(name, value):
    """The numbers of a row; text and bytes are none."""
    try:
        if not isinstance(value, (str, bytes, bytearray)):
            return list(value)
    except TypeError:
        pass
    raise TypeError(f'{name} must be numbers, not {type(value).__name__}')


def _buffer(value):
    """The memory of an array of floats; None for what is no such array."""
    try:
        view = memoryview(value)
    except TypeError:
        return None
    return view if view.format in _FLOATS and view.ndim > 0 and view.c_contiguous else None


def _floats(name, value):
    """A row of floats to read: the memory of an array of floats itself, or a copy of it where it is read-only; any
    other row of numbers is made such an array."""
    view = _buffer(value)
    if view is None:
        view = memoryview(array.array('f', [_float(name, number) for number in _row(name, value)]))
    size = view.nbytes // view.itemsize
    row = ctypes.c_float * size
    return _Lent(row.from_buffer_copy(view) if view.readonly else row.from_buffer(view), size)


def _answered(call, first, numbers):
    """What the library answers to a call."""
    passed = list(first)
    for name, value in numbers.items():
        passed += value.passed if isinstance(value, _Lent) else [_number(name, value)]
    return getattr(_library, call)(*passed)


def _call(call, *first, **numbers):
    """The answer's fields, or Refused. A book or a place goes first; what is named is a number, or lent memory."""
    answer = _answered(call, first, numbers)
    numbers.clear()  # who keeps the refusal does not keep the lent memory
    if answer.refusal:
        raise Refused(answer.refusal)
    return answer


def _written(call, room, *book, size=1, **numbers):
    """What a call writes into memory that is lent to it last: its answer says how much, in pieces of
    so many bytes."""
    out = ctypes.create_string_buffer(room)
    answer = _call(call, *book, **numbers, out=_Lent(out, room))
    return out.raw[:answer.value * size]


# ---- the calls

def refusal_text(number: int) -> str:
    """The words of a refusal's number; '' for a number that is no refusal's."""
    return _written('mq_refusal_text', _TEXT_BYTES, number=number).decode('ascii')


def midamble_chip(cell: int, burst: int, count: int, user: int, chip: int) -> int:
    """One chip of a user's midamble: its power of j, 0 to 3.

    cell 0 to 127; burst type 1 to 3; count 4, 8 or 16 (type 2: 3 or 6); user 1 to count, under 4 one of
    1, 3, 5, 7; chip 1 to 512 (type 2: 256). Refused with 1, 2, 3, 4, 10.
    """
    return _call('mq_midamble_chip', cell=cell, burst=burst, count=count, user=user, chip=chip).value


def midamble(cell: int, burst: int, count: int, user: int) -> bytes:
    """All chips of a user's midamble, a byte each: 512, or 256 for type 2.

    cell 0 to 127; burst type 1 to 3; count 4, 8 or 16 (type 2: 3 or 6); user 1 to count, under 4 one of
    1, 3, 5, 7. Refused with 1, 2, 3, 4.
    """
    return _written('mq_midamble', _LONG_MIDAMBLE, cell=cell, burst=burst, count=count, user=user)


class Blocks:
    """A midamble block by block, from a place on: an iterator of bytes, a byte a chip. Each block has `length`
    chips, at least 1, and the last one those that are left; `block` gives one of another length in between.

    However a midamble is cut, its blocks joined are midamble's bytes. `place` is where the next block begins: a
    Blocks made with it goes on from there. Numbers that are no place are refused with 1, 2, 3, 4, 23 when a block
    is asked for, and the place stays as it was. For one thread at a time.
    """

    def __init__(self, place: BlockPlace, length: int = 64) -> None:
        self._length = _length(length, 1)
        self._place = _BlockPlace(*(_number(name, value) for name, value in BlockPlace(*place)._asdict().items()))

    @property
    def place(self) -> BlockPlace:
        """Where the next block begins; a number that does not fit 32 bits is the largest that does."""
        return _place(self._place)

    def block(self, length: int) -> bytes:
        """The next block: length chips, or as many as are left; none at the end, and none where length is 0."""
        room = min(_length(length, 0), _LONG_MIDAMBLE)
        out = ctypes.create_string_buffer(room)
        answer = _call('mq_block_value', self._place, out=_Lent(out, room))
        self._place = answer.place
        return out.raw[:answer.written]

    def __iter__(self) -> 'Blocks':
        return self

    def __next__(self) -> bytes:
        block = self.block(self._length)
        if not block:
            raise StopIteration
        return block

    def __repr__(self) -> str:
        return f'Blocks({self.place}, length={self._length})'


def blocks(cell: int, burst: int, count: int, user: int, length: int = 64) -> Blocks:
    """A user's midamble from its first chip on, in blocks of length chips: an iterator of bytes.

    length at least 1; the others as for midamble. Refused with 1, 2, 3, 4.
    """
    length = _length(length, 1)
    return Blocks(_place(_call('mq_block_start', cell=cell, burst=burst, count=count, user=user).place), length)


def pair(cell: int, burst: int, count: int, user: int, chip: int, level: int) -> Tuple[float, float]:
    """One chip of a user's midamble for the signal card: its real and its imaginary part at a level.

    level a whole number, 1 to 2047; the others as for midamble_chip. Powers 0, 1, 2 and 3 are (level, 0.0),
    (0.0, level), (-level, 0.0) and (0.0, -level), and zero is never -0.0. Refused with 1, 2, 3, 4, 10, 22.
    """
    a = _call('mq_pair', cell=cell, burst=burst, count=count, user=user, chip=chip, level=level)
    return a.re, a.im


def pairs(cell: int, burst: int, count: int, user: int, level: int) -> 'array.array[float]':
    """All chips of a user's midamble at a level, real part then imaginary part, chip after chip: an array
    of the type code 'f' (of the standard library) with 1024 floats, or 512 for type 2.

    level as for pair; the others as for midamble. Refused with 1, 2, 3, 4, 22.
    """
    out = (ctypes.c_float * _LONG_PAIRS)()
    lent = _Lent(out, _LONG_PAIRS)
    written = _call('mq_pairs', cell=cell, burst=burst, count=count, user=user, level=level, out=lent).value
    return array.array('f', bytes(out)[:written * ctypes.sizeof(ctypes.c_float)])


def hear(cell: int, burst: int, count: int, row: Iterable[float]) -> Optional[Heard]:
    """Who is on the air: of the users that the count permits the one that is heard best, the lowest of several that
    are heard alike; None for nobody, where both sums of every user are zero.

    row has what was received at each chip of a midamble, real part then imaginary part, chip after chip: at least
    1024 numbers, or 512 for type 2, each whole and from -2047 to 2047; -0.0 reads as 0, and further numbers are not
    read. An array of floats (of the type code 'f', or any other C-contiguous buffer of the format 'f') is lent
    itself, without a copy unless it is read-only, and no thread may write it meanwhile. Of any other row a row of
    floats is made, and a number that is no such float, as 5.00000001 is none, is not rounded to one, but refused
    with 24. cell, burst and count as for midamble. Refused with 1, 2, 3, 11, 24.
    """
    a = _call('mq_hear', cell=cell, burst=burst, count=count, row=_floats('row', row))
    return Heard(a.user, a.re, a.im) if a.user else None


def parts(burst: int, direction: int, factor: int, tfci: int = 0, tpc: int = 0) -> Parts:
    """Where the seven parts of a timeslot lie.

    burst type 1 to 3; direction UP or DOWN; factor 1, 2, 4, 8, 16 (DOWN: 1, 16); tfci 0, 4, 8, 16, 32
    bits; tpc 0 or 2 bits (DOWN: 0). Refused with 2, 6, 7, 8.
    """
    a = _call('mq_parts', burst=burst, direction=direction, factor=factor, tfci=tfci, tpc=tpc)
    return Parts({part: Span(a.start[part - 1], a.length[part - 1]) for part in Part}, (a.bits[0], a.bits[1]))


def at(burst: int, direction: int, factor: int, tfci: int = 0, tpc: int = 0, *, chip: int) -> Place:
    """What lies at a chip, 0 to 2559; the others as for parts. Refused with 2, 6, 7, 8, 10."""
    a = _call('mq_at', burst=burst, direction=direction, factor=factor, tfci=tfci, tpc=tpc, chip=chip)
    return Place(Part(a.part), a.number)


def beacon(sync: int, k: int) -> List[int]:
    """The beacon timeslots of a frame, one or two: sync is the synchronisation case, 1 or 2; k 0 to 14
    (case 2: 0 to 6). Refused with 9."""
    a = _call('mq_beacon', sync=sync, k=k)
    return [a.first, a.second][:a.count]


def indicator(burst: int, length: int, frames: int, number: int) -> Indicator:
    """Where a paging indicator sits.

    burst type 1 or 2; length 2, 4 or 8 symbols; frames per block 1 to 4; number below frames times N,
    where N is 60, 30, 15 (type 1) or 68, 34, 17 (type 2) for these lengths. Refused with 2, 10.
    """
    a = _call('mq_indicator', burst=burst, length=length, frames=frames, number=number)
    return Indicator(a.frame, a.q, a.first, a.second, a.length)


def owner(burst: int, length: int, bit: int) -> Optional[int]:
    """The indicator q that owns a paging bit, or None where the bit is reserved: bit 0 to 243 (type 2:
    275), in time order; the others as for indicator. Refused with 2, 10."""
    a = _call('mq_owner', burst=burst, length=length, bit=bit)
    return None if a.reserved else a.q


def page(burst: int, length: int, settings: bytes) -> bytes:
    """One frame's bits in time order, 244 (type 2: 276) bytes of 0 or 1, from at least N settings: 0 is
    off, any other is on. burst and length as for indicator. Refused with 2, 10, 11."""
    return _written('mq_page', _PAGE_BYTES, burst=burst, length=length, settings=_bytes('settings', settings))


def read_page(burst: int, length: int, bits: bytes) -> bytes:
    """The N indicators of one frame, a byte each: OFF, ON or TORN, from at least 244 (type 2: 276) bits
    in time order: 0 is 0, any other is 1. burst and length as for indicator. Refused with 2, 10, 11."""
    return _written('mq_read_page', _INDICATORS, burst=burst, length=length, bits=_bytes('bits', bits))


class Book:
    """A class book: sixteen seats, 0 to 15, all closed at first. A refused call leaves it as it was.

    Threads may share a book: its calls come one after the other. A book is copied with copy.copy or
    copy.deepcopy, and two are equal if all their seats are. Its form does not leave the program: what
    is kept of it is the lines of a lesson (docs/LESSONS.md), which give the book again;
    examples/lesson.py shows how.
    """

    __hash__ = None  # a book changes

    def __init__(self) -> None:
        self._lock = threading.Lock()
        self._book = _library.mq_empty_book()

    def _held(self):
        with self._lock:
            return self._book  # never changed in place: a call gives another

    def _changed(self, call, **numbers):
        with self._lock:
            self._book = _call(call, self._book, **numbers).book

    def __copy__(self) -> 'Book':
        made = type(self)()
        made._book = self._held()
        return made

    def __deepcopy__(self, memo) -> 'Book':
        return self.__copy__()

    def __reduce_ex__(self, protocol):
        raise TypeError("a book's form does not leave the program: keep the lines of a lesson that give it again")

    def __eq__(self, other: object) -> bool:
        if not isinstance(other, Book):
            return NotImplemented
        return bytes(self._held()) == bytes(other._held())

    def __repr__(self) -> str:
        book, seats = self.__copy__(), []
        for seat in range(_SEATS):
            try:
                seats.append(f'seat {seat} {len(book.list(seat))}')
            except Refused:
                continue
        return f'<Book: {", ".join(seats) or "no seat open"}>'

    def open(self, seat: int, cell: int, sync: int, k: int, long: int = 0, short: int = 0) -> None:
        """Opens a seat.

        seat 0 to 15, not open; cell 0 to 127; sync and k as for beacon; long 4, 8 or 16, or 0 for 8;
        short 3 or 6, or 0 for 3. Users above 8 (type 2: above 3) need 16 and 6 outright. Refused with
        1, 3, 9, 12, 13, 15.
        """
        self._changed('mq_open_value', seat=seat, cell=cell, sync=sync, k=k, long=long, short=short)

    def book(self, seat: int, timeslot: int, direction: int, burst: int, factor: int, index: int, user: int,
             tfci: int = 0, tpc: int = 0) -> None:
        """Books a code in a timeslot for a seat.

        seat 0 to 15, open; timeslot 0 to 14; direction UP or DOWN; burst type 1 to 3 (DOWN: 1, 2); factor
        1, 2, 4, 8, 16 (DOWN: 1, 16); index 1 to factor; user 1 to the seat's count for the burst type, under
        4 one of 1, 3, 5, 7; tfci and tpc as for parts. In one timeslot two bookings of a seat clash (17) if
        their directions differ, or if exactly one of them is type 2, or if their codes share a leaf. Refused
        with 2, 4 to 8, 12 to 14, 16 to 20.
        """
        self._changed('mq_book_value', seat=seat, timeslot=timeslot, direction=direction, burst=burst,
                      factor=factor, index=index, user=user, tfci=tfci, tpc=tpc)

    def cancel(self, seat: int, timeslot: int, factor: int, index: int) -> None:
        """Cancels the booking that is named by timeslot and code; the numbers as for book. Refused with
        5, 6, 12, 13, 14, 21."""
        self._changed('mq_cancel_value', seat=seat, timeslot=timeslot, factor=factor, index=index)

    def close(self, seat: int) -> None:
        """Closes a seat, 0 to 15: its bookings and its settings go. Refused with 12, 13, 14."""
        self._changed('mq_close_value', seat=seat)

    def list(self, seat: int) -> List[Booking]:
        """A seat's bookings, by timeslot, then by the first leaf of their codes; seat 0 to 15, open.
        Refused with 12, 13, 14."""
        records = _written('mq_list_bytes', _LIST_RECORDS * _RECORD_BYTES, self._held(), size=_RECORD_BYTES, seat=seat)
        return [Booking(*records[i:i + _RECORD_BYTES]) for i in range(0, len(records), _RECORD_BYTES)]

    def summary(self, seat: int, timeslot: int) -> Summary:
        """Which codes of a timeslot a seat has free; seat 0 to 15, open; timeslot 0 to 14. Nothing of another
        seat is told. Refused with 5, 12, 13, 14."""
        answer = _call('mq_summary_value', self._held(), seat=seat, timeslot=timeslot)
        leaves = tuple(bool(answer.leaves >> leaf & 1) for leaf in range(_LEAVES))
        return Summary(leaves, answer.direction if answer.count else None, answer.count)
