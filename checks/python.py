"""The Python module beside what it says: users and counts, the default counts, midambles by the block, rows of floats, who is on the air, summaries, threads, copies, pickles, wrong arguments, where the library is found, its version.

    MQARBSET_LIBRARY=.. PYTHONPATH=python python3 checks/python.py TEMPORARY-FOLDER

checks/run calls it. Says what does not hold and ends with 1, or says how much was tried.
"""
import array
import collections
import concurrent.futures
import copy
import ctypes
import decimal
import fractions
import inspect
import itertools
import math
import multiprocessing
import os
import pathlib
import pickle
import shutil
import subprocess
import sys
import threading

import mqarbset
from mqarbset import DOWN, UP, Book, Part, Refused

ROOT = pathlib.Path(__file__).resolve().parent.parent
FOLDER = pathlib.Path(sys.argv[1])
tried = 0


def holds(what, truth):
    global tried
    tried += 1
    if not truth:
        sys.exit(f'python: not so: {what}')


def raised(kind, call, *arguments, **named):
    """What a call raises; it must be of that kind."""
    try:
        call(*arguments, **named)
    except kind as error:
        return error
    except Exception as error:
        sys.exit(f'python: {call.__name__}{arguments} raises {error!r}, and not {kind.__name__}')
    sys.exit(f'python: {call.__name__}{arguments} raises nothing, and not {kind.__name__}')


def threads():
    """Sixteen threads on one book: what was accepted is there afterwards, and nothing else."""
    book, accepted = Book(), [0] * 16
    for seat in range(16):
        book.open(seat, seat, 1, 0, 16, 6)

    def lesson(seat):
        for turn in range(40):
            for index in range(1, 16):
                try:
                    book.book(seat, 1 + (turn + index) % 13, UP, 1, 16, index + 1, 1 + index % 16)
                    accepted[seat] += 1
                except Refused as refused:
                    holds(f'refusal {refused.number} in a shared book', refused.number in (17, 19, 20))
            for booking in book.list(seat)[turn % 7::3]:
                book.cancel(seat, booking.timeslot, booking.factor, booking.index)
                accepted[seat] -= 1

    running = [threading.Thread(target=lesson, args=(seat,)) for seat in range(16)]
    interval = sys.getswitchinterval()
    sys.setswitchinterval(1e-6)
    for one in running:
        one.start()
    for one in running:
        one.join()
    sys.setswitchinterval(interval)
    for seat in range(16):
        holds(f'seat {seat} holds {accepted[seat]}', len(book.list(seat)) == accepted[seat])


def refused_elsewhere(number):
    raise Refused(number)


def pickles():
    error = raised(Refused, mqarbset.beacon, 3, 0)
    for again in (pickle.loads(pickle.dumps(error)), copy.copy(error), copy.deepcopy(error)):
        holds('a refusal is the same when it is copied', (again.number, again.words, str(again)) == (9, error.words, str(error)))
    with concurrent.futures.ProcessPoolExecutor(1, mp_context=multiprocessing.get_context('spawn')) as pool:
        holds('a refusal comes back from a pool of processes', raised(Refused, pool.submit(refused_elsewhere, 20).result).number == 20)
        holds('and the pool goes on', raised(Refused, pool.submit(refused_elsewhere, 7).result).number == 7)


def arguments():
    page, book = mqarbset.page, Book()
    for wrong in (30, 10 ** 13, 'a text', None, [0, 1], 1.5):
        holds(f'page refuses settings of {wrong!r} by name', 'settings' in str(raised(TypeError, page, 1, 4, wrong)))
        holds(f'read_page refuses bits of {wrong!r} by name', 'bits' in str(raised(TypeError, mqarbset.read_page, 1, 4, wrong)))
    numbers = {
        mqarbset.refusal_text: 1, mqarbset.midamble_chip: 5, mqarbset.midamble: 4, mqarbset.blocks: 5, mqarbset.pair: 6, mqarbset.pairs: 5, mqarbset.parts: 5, mqarbset.beacon: 2, mqarbset.indicator: 4,
        mqarbset.owner: 3, book.open: 6, book.book: 9, book.cancel: 4, book.close: 1, book.list: 1, book.summary: 2,
    }
    for call, count in numbers.items():
        names = list(inspect.signature(call).parameters)[:count]
        for i, name in enumerate(names):
            for wrong in (1.0, '1', None, b'1'):
                passed = [1] * count
                passed[i] = wrong
                holds(f'{call.__name__} names {name}', str(raised(TypeError, call, *passed)).startswith(f'{name} must be a whole number'))
    for huge in (2 ** 32, 2 ** 64, 10 ** 30, -1, -2 ** 40):
        holds(f'cell {huge} is refused with 1', raised(Refused, mqarbset.midamble, huge, 1, 8, 1).number == 1)
        holds(f'seat {huge} is refused with 13', raised(Refused, book.close, huge).number == raised(Refused, book.summary, huge, 14).number == 13)
        holds(f'timeslot {huge} is refused with 5', raised(Refused, book.summary, 3, huge).number == 5)
        holds(f'number {huge} is refused with 10', raised(Refused, mqarbset.indicator, 1, 4, 1, huge).number == 10)
    holds('a bytearray and a memoryview are bytes', page(1, 4, bytearray(30)) == page(1, 4, memoryview(bytes(30))) == page(1, 4, bytes(30)))


def blocks():
    """Midambles by the block: blocks joined are the midamble however it is cut, places, and what is refused."""
    for burst, count, user, chips in ((1, 16, 9, 512), (2, 6, 5, 256), (3, 4, 7, 512)):
        whole = mqarbset.midamble(17, burst, count, user)
        for length in (1, 3, 64, 100, 255, 256, 511, 512, 513, 10 ** 30):
            cut = list(itertools.islice(mqarbset.blocks(17, burst, count, user, length), chips + 1))
            holds('blocks joined are the midamble', b''.join(cut) == whole and all(type(block) is bytes for block in cut))
            holds('every block but the last is full', all(len(block) == length for block in cut[:-1]) and 0 < len(cut[-1]) <= length)
        holds('a block has 64 chips where nothing is said', [len(block) for block in itertools.islice(mqarbset.blocks(17, burst, count, user), 9)] == [64] * (chips // 64))
        card = mqarbset.blocks(17, burst, count, user)
        start = card.place
        holds('a midamble starts with nothing written', start == (17, burst, count, user, 0))
        holds('a block of 0 takes none and keeps the place', card.block(0) == b'' and card.place == start)
        first, second = card.block(64), card.block(100)
        kept = card.place
        holds('the place counts what is written', kept == start._replace(written=164))
        holds('64 chips, then 100, then the rest', first + second + card.block(10 ** 9) == whole)
        holds('from a kept place it goes on', b''.join(itertools.islice(mqarbset.Blocks(kept), 9)) == whole[164:])
        holds('at the end each block takes none', card.block(1) == card.block(512) == b'' and list(itertools.islice(card, 1)) == [] and card.place.written == chips)
        beyond = mqarbset.Blocks(start._replace(written=chips + 1))
        holds('a place above the length is refused with 23', raised(Refused, beyond.block, 0).number == raised(Refused, next, beyond).number == 23)
        holds('and stays as it was', beyond.place.written == chips + 1)
    for place, number in (((128, 4, 5, 0, 513), 1), ((0, 4, 5, 0, 513), 2), ((0, 1, 5, 0, 513), 3), ((0, 1, 8, 9, 513), 4), ((0, 2, 6, 6, -1), 23)):
        holds(f'a block there is refused with {number}', raised(Refused, mqarbset.Blocks(place).block, 1).number == number)
    holds('a start is refused at once', [raised(Refused, mqarbset.blocks, *place).number for place in ((128, 4, 5, 0), (0, 4, 5, 0), (0, 1, 5, 0), (0, 1, 8, 9))] == [1, 2, 3, 4])
    raised(ValueError, mqarbset.blocks, 0, 1, 8, 8, 0)
    raised(ValueError, mqarbset.Blocks, (0, 1, 8, 8, 0), 0)
    raised(ValueError, mqarbset.blocks(0, 1, 8, 8).block, -1)
    raised(TypeError, mqarbset.Blocks, (0, 1, 8, 8))


def floats():
    """The row of pairs beside the pairs and the chips, and levels on both sides of the rule."""
    turned = ((1, 0), (0, 1), (-1, 0), (0, -1))
    for burst, count, user, chips in ((1, 16, 9, 512), (2, 6, 5, 256), (3, 8, 1, 512)):
        for level in (1, 3, 2047):
            row = mqarbset.pairs(17, burst, count, user, level)
            holds('a row is an array of floats', type(row) is array.array and row.typecode == 'f' and len(row) == 2 * chips)
            wanted = [(level * re, level * im) for re, im in (turned[power] for power in mqarbset.midamble(17, burst, count, user))]
            holds('a row has the chips at the level', list(zip(row[::2], row[1::2])) == wanted)
            holds('no zero is a minus zero', all(math.copysign(1, x) == 1 for x in row if x == 0))
            for i in (1, 2, 100, chips):
                pair = mqarbset.pair(17, burst, count, user, i, level)
                holds('one pair is that of the row', pair == wanted[i - 1] and all(type(x) is float for x in pair))
    for level in (0, 2048, 2 ** 32, -1):
        holds(f'level {level} is refused with 22', raised(Refused, mqarbset.pair, 0, 1, 8, 1, 1, level).number == 22)
        holds(f'level {level} is refused with 22', raised(Refused, mqarbset.pairs, 0, 1, 8, 1, level).number == 22)
    holds('22 is last in order', raised(Refused, mqarbset.pair, 0, 1, 8, 1, 513, 0).number == 10 and raised(Refused, mqarbset.pairs, 0, 1, 8, 9, 0).number == 4)


def hearing():
    """Who is heard: clean copies, turned ones, nobody, and what is refused beside a neighbour that is answered."""
    for burst, count, permitted, chips in ((1, 16, range(1, 17), 512), (3, 8, range(1, 9), 512), (1, 4, (1, 3, 5, 7), 512), (2, 6, range(1, 7), 256), (2, 3, (1, 2, 3), 256)):
        for user, level in itertools.product(permitted, (1, 1000, 2047)):
            row = mqarbset.pairs(17, burst, count, user, level)
            heard = mqarbset.hear(17, burst, count, row)
            holds('a clean copy is heard as its user', heard == (user, level * chips, 0.0))
            holds('a user is a whole number, and a sum a float', type(heard) is mqarbset.Heard and [type(x) for x in heard] == [int, float, float])
            holds('no zero is a minus zero', math.copysign(1, heard.im) == 1)
            turned = [x for re, im in zip(row[::2], row[1::2]) for x in (-im, re)]
            holds('turned by j, so are the sums', mqarbset.hear(17, burst, count, turned) == (user, 0.0, level * chips))
        holds('zeros and minus zeros are nobody', mqarbset.hear(17, burst, count, [0, -0.0, 0.0, False] * (chips // 2)) is None)
        again = [0] * (2 * chips)  # a midamble's last chips are its first ones again, 456 (type 2: 192) chips later
        again[0], again[384 if burst == 2 else 912] = 5, -5
        holds('nobody is heard where all sums are zero', mqarbset.hear(17, burst, count, again) is None)
        alike = [0] * (2 * chips)
        alike[-1] = -2047
        holds('of all that are heard alike it is the lowest', mqarbset.hear(17, burst, count, alike).user == 1)

    row = mqarbset.pairs(17, 1, 8, 5, 1000)
    short = row[:512]
    for passed, number in (((128, 1, 8, row), 1), ((17, 4, 8, row), 2), ((17, 1, 6, row), 3), ((17, 2, 8, row), 3), ((17, 1, 8, row[:1023]), 11), ((17, 2, 6, short[:511]), 11), ((17, 3, 4, []), 11)):
        holds(f'refused with {number}', raised(Refused, mqarbset.hear, *passed).number == number)
    for passed in ((127, 1, 8, row), (17, 3, 8, row), (17, 1, 4, row), (17, 2, 6, row), (17, 1, 8, row[:1024]), (17, 2, 6, short), (17, 1, 8, row + row)):
        holds('and a neighbour is answered', mqarbset.hear(*passed) is not None)
    worst = [0.5]
    holds('the lowest is given', [raised(Refused, mqarbset.hear, *numbers, worst).number for numbers in ((128, 4, 5), (17, 4, 5), (17, 1, 5), (17, 1, 8))] == [1, 2, 3, 11])

    # 24. What no float of C equals is not rounded: each of these is refused where it is read, and not where it isn't.
    wrong = (2048, -2048, 0.5, -0.5, 2047.5, 1e-40, 5e-324, math.inf, -math.inf, math.nan, 5.00000001, -4.999999999, 1e300, 2 ** 24 + 1, 10 ** 30, -10 ** 400, fractions.Fraction(1, 3),
             decimal.Decimal('5.00000000000000000000001'))
    right = (2047, -2047, 0, -0.0, 5.0, True, fractions.Fraction(6, 2), decimal.Decimal('-7'))
    for burst, count, samples in ((1, 8, 1024), (2, 6, 512)):
        for sample, place in itertools.product(wrong + right, (0, 333, samples - 1, samples)):
            longer = list(row[:samples]) + [0]
            longer[place] = sample
            if sample in right or place == samples:
                holds(f'a sample of {sample!r} is answered', mqarbset.hear(17, burst, count, longer) == mqarbset.hear(17, burst, count, array.array('f', longer[:samples])) is not None)
            else:
                holds(f'a sample of {sample!r} is refused with 24', raised(Refused, mqarbset.hear, 17, burst, count, longer).number == 24)
    longer = row + array.array('f', [math.nan])
    longer[1023] = 0.5
    holds('also in an array of floats', raised(Refused, mqarbset.hear, 17, 1, 8, longer).number == 24)
    holds('but not behind what is read', mqarbset.hear(17, 1, 8, row + array.array('f', [math.nan])) == mqarbset.hear(17, 1, 8, row))


def lent(row):
    """Where the floats lie that the library gets for a row, and how many they are."""
    called, got = mqarbset._library.mq_hear, []

    def hear(*passed):
        got.append((ctypes.addressof(passed[3]), passed[4]))
        return called(*passed)

    mqarbset._library.mq_hear = hear
    mqarbset.hear(17, 2, 6, row)
    mqarbset._library.mq_hear = called
    return got[0]


def heard_rows():
    """What may be a row, which rows are lent as they lie, and that none is written or held; what is no row."""
    row = mqarbset.pairs(17, 2, 6, 5, 1000)
    whole, before = [int(x) for x in row], bytes(row)
    wanted = mqarbset.hear(17, 2, 6, row)
    of_c = (ctypes.c_float * 512)(*row)
    view, frozen = memoryview(row), memoryview(row).toreadonly()
    square = view.cast('B').cast('f', (256, 2))
    for other in (whole, list(row), tuple(whole), collections.deque(row), map(float, whole), array.array('d', row), array.array('h', whole), array.array('q', whole), memoryview(array.array('d', row)),
                  memoryview(array.array('i', whole)), view, frozen, square, memoryview(before).cast('f'), memoryview(row[::-1])[::-1], of_c, (ctypes.c_double * 512)(*row), (ctypes.c_short * 512)(*whole)):
        holds(f'a {type(other).__name__} of the same numbers is heard alike', mqarbset.hear(17, 2, 6, other) == wanted)
    holds('so is a range', mqarbset.hear(17, 2, 6, range(-300, 300)) == mqarbset.hear(17, 2, 6, list(range(-300, 300))) is not None)
    place = row.buffer_info()[0]
    for same in (row, view, square):
        holds('an array of floats is lent as it lies', lent(same) == (place, 512))
    holds('so is one of ctypes', lent(of_c) == (ctypes.addressof(of_c), 512))
    longer = row + row
    holds('and a part in one piece', lent(memoryview(longer)[6:]) == (longer.buffer_info()[0] + 6 * 4, 1018))
    holds('what is read-only is lent as a copy', lent(frozen)[0] != place and lent(frozen)[1] == 512)
    holds('nothing is written', bytes(row) == bytes(of_c) == before)
    for again in (view, square, frozen):
        again.release()
    row.append(0.0)  # which an array refuses to do as long as somebody holds its memory
    try:
        mqarbset.hear(17, 1, 8, row)
    except Refused as refused:
        holds('513 numbers are refused with 11', refused.number == 11)
        row.extend(row[:511])
    holds('a refusal holds no row either', mqarbset.hear(17, 1, 8, row) is not None)
    for wrong in (None, 5, 1.5, 'a text', '0' * 1024, b'bytes', bytes(1024), bytearray(1024), ctypes.c_float(5), object()):
        holds(f'a row of {wrong!r} is named', str(raised(TypeError, mqarbset.hear, 17, 1, 8, wrong)) == f'row must be numbers, not {type(wrong).__name__}')
    for wrong in (None, '5', b'5', 5j, [5], (5, 5)):
        for at in (0, 1023):
            numbers = [5] * 1024
            numbers[at] = wrong
            holds(f'a number of {wrong!r} is named', str(raised(TypeError, mqarbset.hear, 17, 1, 8, numbers)) == f'row must be numbers, not {type(wrong).__name__}')
    for i, name in enumerate(('cell', 'burst', 'count')):
        for wrong in (1.0, '1', None, b'1'):
            passed = [17, 1, 8, [0] * 1024]
            passed[i] = wrong
            holds(f'hear names {name}', str(raised(TypeError, mqarbset.hear, *passed)).startswith(f'{name} must be a whole number'))


def users():
    """Which users each count permits, in a question and in a seat; and their chips, which are the same under every count."""
    for burst, full, count, permitted in ((1, 16, 16, range(1, 17)), (3, 16, 8, range(1, 9)), (1, 16, 4, (1, 3, 5, 7)), (2, 6, 6, range(1, 7)), (2, 6, 3, (1, 2, 3))):
        book = Book()
        book.open(0, 17, 1, 0, **{'short' if burst == 2 else 'long': count})
        for user in range(19):
            if user in permitted:
                holds('a permitted user has the same chips under every count', mqarbset.midamble(17, burst, count, user) == mqarbset.midamble(17, burst, full, user))
                book.book(0, 1, UP, burst, 16, 1, user)
                book.cancel(0, 1, 16, 1)
                continue
            holds(f'user {user} of {count} is refused with 4', raised(Refused, mqarbset.midamble, 17, burst, count, user).number == 4)
            none = user < 1 or user > full
            holds(f'user {user} in a seat of {count} is refused', raised(Refused, book.book, 0, 1, UP, burst, 16, 1, user).number == (4 if none else 16))
    holds('4 is no count of type 2', raised(Refused, mqarbset.midamble, 17, 2, 4, 1).number == 3 and raised(Refused, Book().open, 0, 17, 1, 0, 4, 4).number == 3)


def defaults():
    """What a count that is not given, or is 0, stands for, long and short each by itself; and the users that such a seat has."""
    def opened(*counts, **named):
        book = Book()
        book.open(0, 17, 1, 0, *counts, **named)
        return book

    holds('counts not given are 8 and 3', opened() == opened(0, 0) == opened(8, 3))
    holds('each by itself', opened(long=16) == opened(16, 0) == opened(16, 3) and opened(short=6) == opened(0, 6) == opened(8, 6))
    holds('other counts are others', all(a != b for a, b in itertools.combinations((opened(), opened(16), opened(0, 6), opened(16, 6), opened(4)), 2)))
    book = opened()
    for burst, last, full in ((1, 8, 16), (3, 8, 16), (2, 3, 6)):
        for user in range(1, last + 1):
            book.book(0, 1, UP, burst, 16, 1, user)
            book.cancel(0, 1, 16, 1)
        for user in range(last + 1, full + 1):
            holds(f'user {user} above {last} is refused with 16', raised(Refused, book.book, 0, 1, UP, burst, 16, 1, user).number == 16)


def summaries():
    """Which leaves a code covers, first leaf first, the direction and the number; by seat and timeslot, and what is refused."""
    book = Book()
    book.open(0, 17, 1, 14)
    book.open(1, 17, 1, 14)
    nothing = ((False,) * 16, None, 0)
    holds('an opened seat covers nothing', all(book.summary(0, timeslot) == nothing for timeslot in range(15)))
    codes = [(factor, index) for factor in (1, 2, 4, 8, 16) for index in range(1, factor + 1)]
    for factor, index in codes:
        for direction in (UP, DOWN) if factor in (1, 16) else (UP,):
            book.book(0, 3, direction, 2, factor, index, 3)
            summary, n = book.summary(0, 3), 16 // factor
            holds('a code covers 16/factor leaves from (index - 1)16/factor', [leaf for leaf in range(16) if summary.leaves[leaf]] == list(range((index - 1) * n, index * n)))
            holds('a leaf is true or false', len(summary.leaves) == 16 and all(type(leaf) is bool for leaf in summary.leaves))
            holds('the direction and the number are told', summary.direction == direction and summary.count == 1)
            holds('another timeslot and another seat are not', book.summary(0, 2) == book.summary(0, 4) == book.summary(1, 3) == nothing)
            taken = [not any(summary.leaves[(i - 1) * (16 // f):i * (16 // f)]) for f, i in codes]
            holds('what is free can be booked, and nothing else', taken == [free(book, direction, f, i) for f, i in codes])
            book.cancel(0, 3, factor, index)
            holds('cancelled, it is free', book.summary(0, 3) == nothing)
    book.book(0, 3, UP, 1, 4, 2, 1)
    book.book(0, 3, UP, 3, 16, 16, 2)
    holds('two are joined', book.summary(0, 3) == (tuple(leaf in (4, 5, 6, 7, 15) for leaf in range(16)), UP, 2))
    book.close(0)
    holds('order of refusals', [raised(Refused, book.summary, *place).number for place in ((0, 14), (16, 14), (16, 15), (0, 15))] == [14, 13, 5, 5])
    book.open(0, 17, 1, 14)
    holds('a closed seat opened again covers nothing', all(book.summary(0, timeslot) == nothing for timeslot in range(15)))


def free(book, direction, factor, index):
    """Whether a code can be booked in timeslot 3 beside what is there; where downlink has no such factor, uplink codes below it say so."""
    if direction == DOWN and factor not in (1, 16):
        n = 16 // factor
        return all(free(book, DOWN, 16, leaf + 1) for leaf in range((index - 1) * n, index * n))
    attempt = copy.copy(book)
    try:
        attempt.book(0, 3, direction, 2, factor, index, 3)
    except Refused as refused:
        holds('what is not free clashes', refused.number == 17)
        return False
    return True


def books():
    book, other = Book(), Book()
    holds('two empty books are equal', book == other and not book != other)
    holds('a book is no number', book != 5)
    holds('an empty book says so', repr(book) == '<Book: no seat open>')
    book.open(3, 0, 1, 0)
    book.open(11, 0, 2, 3)
    book.book(3, 2, DOWN, 1, 16, 3, 4)
    holds('a book says which seats are open', repr(book) == '<Book: seat 3 1, seat 11 0>')
    holds('books with other seats differ', book != other)
    holds('a copy is equal', copy.copy(book) == book == copy.deepcopy(book))
    raised(TypeError, hash, book)
    raised(TypeError, pickle.dumps, book)
    holds('TFCI and TPC are 0 where they are left out', mqarbset.parts(1, UP, 8) == mqarbset.parts(1, UP, 8, 0, 0))
    holds('also at a chip', mqarbset.at(1, UP, 8, chip=5) == mqarbset.at(1, UP, 8, 0, 0, chip=5) == (Part.DATA_1, 0))
    holds('parts come in time order', list(mqarbset.parts(1, UP, 8).spans) == list(Part))
    for name in mqarbset.__all__:
        holds(f'{name} is there', hasattr(mqarbset, name))


def run(module, **environment):
    """What `import mqarbset` does of a copy of the module in another folder, in a process of its own."""
    keep = {name: value for name, value in os.environ.items() if name not in ('MQARBSET_LIBRARY', 'PYTHONPATH')}
    return subprocess.run([sys.executable, '-B', '-c', 'import mqarbset; print(mqarbset._library._name)'], cwd=FOLDER,
                          env={**keep, 'PYTHONPATH': str(module.parent), **environment}, capture_output=True, text=True)


def found():
    """Where the library is looked for, and where not."""
    library = pathlib.Path(os.environ['MQARBSET_LIBRARY']).resolve()
    module = FOLDER / 'a' / 'b' / 'c' / 'mqarbset.py'
    module.parent.mkdir(parents=True)
    shutil.copy(ROOT / 'python' / 'mqarbset.py', module)
    for planted in (module.parent, *list(module.parents)[1:4]):
        shutil.copy(library, planted / 'libmqarbset.so')
    alone = run(module)
    holds('a library that only lies about is not loaded', alone.returncode == 1 and 'MQARBSET_LIBRARY' in alone.stderr)
    holds('the one that is named is', run(module, MQARBSET_LIBRARY=str(library)).stdout.strip() == str(library))
    built = FOLDER / 'a' / 'b' / 'target' / 'staticlib' / 'libmqarbset.so'
    built.parent.mkdir(parents=True)
    shutil.copy(library, built)
    holds('or the one that was built in the checkout', run(module).stdout.strip() == str(built))
    module.write_text(module.read_text().replace("__version__ = '", "__version__ = '9"))
    other = run(module)
    holds('a library of another version is refused', other.returncode == 1 and 'install both together' in other.stderr)


if __name__ == '__main__':
    for part in (arguments, users, defaults, blocks, floats, hearing, heard_rows, summaries, books, pickles, threads, found):
        part()
    print(f'python: {tried} things tried of the module, all as it says')
