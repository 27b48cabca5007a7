"""A lesson over the Python module: a midamble, whole and by the block, its chips for the signal card, who is on the air, the parts of a timeslot, the class book, and refusals with their words.

    PYTHONPATH=python python3 examples/lesson.py      after examples/run, which builds the library
"""
import copy
import pickle

import mqarbset
from mqarbset import DOWN, UP, Book, Refused

DIRECTIONS = {'up': UP, 'down': DOWN}
WORDS = {number: word for word, number in DIRECTIONS.items()}


def tried(what, call, *arguments):
    """One call, and what became of it."""
    try:
        print(f'{what}: {call(*arguments)}')
    except Refused as refused:
        print(f'{what}: refused with {refused}')


def kept(book, seat, cell, sync, k, long, short):
    """What is kept of a seat's plan: the lines of a lesson, its opening with the counts written outright and its bookings."""
    lines = [f'open {seat} {cell} {sync} {k} {long} {short}']
    for b in book.list(seat):
        lines.append(f'book {seat} {b.timeslot} {WORDS[b.direction]} {b.burst} {b.factor} {b.index} {b.user} {b.tfci} {b.tpc}')
    return lines


def made_again(lines):
    """The book that such lines give."""
    book = Book()
    for line in lines:
        name, *words = line.split()
        numbers = [DIRECTIONS[word] if word in DIRECTIONS else int(word) for word in words]
        {'open': book.open, 'book': book.book}[name](*numbers)
    return book


def questions():
    tried('midamble of cell 0, type 1, user 8 of 8, the first chips', lambda: list(mqarbset.midamble(0, 1, 8, 8)[:8]))
    tried('user 9 of 8', mqarbset.midamble, 0, 1, 8, 9)
    tried('user 7 of 4, in a wide harbour, the first chips', lambda: list(mqarbset.midamble(0, 1, 4, 7)[:8]))
    tried('user 2 of 4', mqarbset.midamble, 0, 1, 4, 2)
    tried('chip 1', mqarbset.midamble_chip, 0, 1, 8, 8, 1)

    tried('the midamble in blocks of 200 chips', lambda: [len(block) for block in mqarbset.blocks(0, 1, 8, 8, length=200)])
    card = mqarbset.blocks(0, 1, 8, 8)
    tried('64 chips, then 100, then what is left', lambda: [len(card.block(length)) for length in (64, 100, 512)])
    tried('the place behind them', lambda: card.place)
    tried('a block behind the end', card.block, 64)
    tried('a place that no midamble has', mqarbset.Blocks(card.place._replace(written=513)).block, 64)

    tried('chip 4 for the signal card at level 1000', mqarbset.pair, 0, 1, 8, 8, 4, 1000)
    tried('the first four chips at level 1000', lambda: mqarbset.pairs(0, 1, 8, 8, 1000)[:8])
    tried('level 2048', mqarbset.pairs, 0, 1, 8, 8, 2048)

    row = mqarbset.pairs(0, 1, 8, 8, 1000)
    tried('user 8 at level 1000 is heard', mqarbset.hear, 0, 1, 8, row)
    both = [one + other for one, other in zip(row, mqarbset.pairs(0, 1, 8, 3, 400))]
    tried('and with user 3 at level 400 besides', mqarbset.hear, 0, 1, 8, both)
    tried('in silence', mqarbset.hear, 0, 1, 8, [0] * 1024)
    tried('a sample of 2048', mqarbset.hear, 0, 1, 8, [2048] + [0] * 1023)
    tried('a sample that is almost 5', mqarbset.hear, 0, 1, 8, [5.00000001] + [0] * 1023)

    print('uplink type 1, factor 8, TFCI 16, TPC 2:')
    parts = mqarbset.parts(1, UP, 8, 16, 2)
    for part, span in parts.spans.items():
        print(f'  {part.name:8} from {span.start:4}, {span.length:4} chips')
    print(f'  data bits {parts.bits[0]} and {parts.bits[1]}')
    tried('at chip 1500', lambda: mqarbset.at(1, UP, 8, 16, 2, chip=1500))
    tried('direction 2', lambda: mqarbset.at(1, 2, 8, 16, 2, chip=1500))
    tried('a factor beyond 32 bits', mqarbset.parts, 1, UP, 2 ** 32 + 8, 16, 2)

    tried('beacon timeslots of case 2, k 6', mqarbset.beacon, 2, 6)
    tried('indicator 37', mqarbset.indicator, 1, 4, 2, 37)
    tried('bit 121', mqarbset.owner, 1, 4, 121)
    bits = bytearray(mqarbset.page(1, 4, bytes([0, 1] * 15)))
    bits[4] = 0
    tried('page with indicators 1, 3, 5, .. on and a bit turned over', lambda: list(mqarbset.read_page(1, 4, bits)))
    tried('settings for 29 of 30 indicators', mqarbset.page, 1, 4, bytes(29))


def class_book():
    book = Book()
    tried('open seat 3', book.open, 3, 0, 1, 0)
    tried('book (16, 3) for user 4 in timeslot 2', book.book, 3, 2, DOWN, 1, 16, 3, 4)
    tried('book (16, 1) for user 1 in timeslot 0', book.book, 3, 0, DOWN, 1, 16, 1, 1)
    tried('book (16, 4) for user 9, who needs a seat opened with long=16', book.book, 3, 2, DOWN, 1, 16, 4, 9)
    print(f'{book}')
    for booking in book.list(3):
        print(f'  {booking}')

    # Which codes are free in timeslot 2: (16, 3) is booked, and so (2, 1), which covers its leaf, is not.
    summary = book.summary(3, 2)
    print(f'{summary.count} in timeslot 2, down: {summary.direction == DOWN}, leaves {"".join(str(int(leaf)) for leaf in summary.leaves)}')
    for factor, index in ((16, 3), (16, 4), (2, 1), (2, 2)):
        n = 16 // factor
        print(f'  code ({factor}, {index}) is free: {not any(summary.leaves[(index - 1) * n:index * n])}')
    tried('a summary of timeslot 15', book.summary, 3, 15)

    # What is kept of the plan; the same lines are a lesson for ./bench.
    lines = kept(book, 3, 0, 1, 0, 8, 3)
    for line in lines:
        print(f'  {line}')
    print(f'the book made again from these lines: {"the same" if made_again(lines) == book else "another"}')

    # Copies in memory, each a book of its own.
    before, deep = copy.copy(book), copy.deepcopy(book)
    tried('book (1, 1) in timeslot 2', book.book, 3, 2, DOWN, 1, 1, 1, 5)
    tried('book in direction 7', book.book, 3, 2, 7, 1, 16, 5, 5)
    print(f'the book after both: {"the same" if book == before else "changed"}')
    tried('cancel (16, 3) in timeslot 2', book.cancel, 3, 2, 16, 3)
    tried('seat 3 now', book.list, 3)
    tried('close seat 3', book.close, 3)
    tried('seat 3 now', book.list, 3)
    tried('the copies, bookings', lambda: [len(before.list(3)), len(deep.list(3))])
    tried('close seat 3 of one copy', before.close, 3)
    tried('the other, bookings', lambda: len(deep.list(3)))
    try:
        pickle.dumps(book)
    except TypeError as error:
        print(f'a pickled book: {error}')


questions()
class_book()
