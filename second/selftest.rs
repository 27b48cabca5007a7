//! Document 01, "Figures to check", and the few facts that the chapters state beside their rules; and of document 02
//! the burst types, the signal card, (`users`) the users that a count permits, (`blocks`) midambles by the block,
//! (`summaries`) free codes at a glance, (`defaults`) what a count of 0 in opening means, and (`hearing`) who is on the
//! air.

mod blocks;
mod defaults;
mod hearing;
mod summaries;
mod users;

use crate::beacons::{beacon_timeslots, words};
use crate::book::{Book, Record, Settings, MOST_OF_A_SEAT};
use crate::lesson::{Bench, NO_BOOKING};
use crate::midambles::{family, least_shift, one_chip, shift};
use crate::paging::{indicator, owner, owner_words, place_words};
use crate::refusals::{in_words, Answer};
use crate::rows::Rows;
use crate::signal_card::{self, all_pairs, one_pair};
use crate::timeslots::{timeslot, Direction, Part, Question, Timeslot, CHIPS};
use std::collections::HashSet;
use std::io::{self, Write};

/// A figure: its name, what this program gives, what the documents say.
struct Figure {
    name: String,
    given: String,
    wanted: String,
}

fn figure(name: &str, given: impl ToString, wanted: impl ToString) -> Figure {
    Figure { name: name.to_string(), given: given.to_string(), wanted: wanted.to_string() }
}

/// Prints a line for each figure, and says whether all are right.
pub fn print(out: &mut dyn Write, rows: &Rows) -> io::Result<bool> {
    let mut all_right = true;
    for Figure { name, given, wanted } in figures(rows) {
        if given == wanted {
            writeln!(out, "ok {name}: {given}")?;
        } else {
            writeln!(out, "FAILED {name}: {given}, the documents say {wanted}")?;
            all_right = false;
        }
    }
    Ok(all_right)
}

fn figures(rows: &Rows) -> Vec<Figure> {
    let mut figures = Vec::new();
    figures.extend(row_figures(rows));
    figures.extend(midamble_figures(rows));
    figures.extend(users::figures(rows));
    figures.extend(blocks::figures(rows));
    figures.extend(pair_figures(rows));
    figures.extend(zero_figures(rows));
    figures.extend(level_figures(rows));
    figures.extend(lent_row_figures(rows));
    figures.extend(hearing::figures(rows));
    figures.extend(timeslot_figures());
    figures.extend(beacon_figures());
    figures.extend(paging_figures());
    figures.extend(seat_3_figures());
    figures.extend(burst_type_figures());
    figures.extend(room_figures());
    figures.extend(summaries::figures(rows));
    figures.extend(defaults::figures(rows));
    figures.extend(damaged_book_figures());
    figures
}

/// "Every row has its digit count and no two rows of a table are equal."
fn row_figures(rows: &Rows) -> Vec<Figure> {
    let of_digits =
        |table: &[String], digits: usize| table.iter().filter(|row| row.len() == digits).count();
    let different = |table: &[String]| table.iter().collect::<HashSet<&String>>().len();
    vec![
        figure("long rows of 114 digits", of_digits(&rows.long, 114), 128),
        figure("short rows of 48 digits", of_digits(&rows.short, 48), 128),
        figure("different long rows", different(&rows.long), 128),
        figure("different short rows", different(&rows.short), 128),
        figure("row 0 long begins", &rows.long[0][..4], "8DF6"),
        figure("row 0 long ends", &rows.long[0][113..], "4"),
    ]
}

fn midamble_figures(rows: &Rows) -> Vec<Figure> {
    let chip =
        |count, user, i| in_words(one_chip(rows, 0, 1, count, user, i), |power| power.to_string());
    let chips = |from, to| (from..=to).map(|i| chip(16, 8, i)).collect::<Vec<String>>().join(",");
    let joined = |shifts: Vec<usize>| {
        shifts.iter().map(usize::to_string).collect::<Vec<String>>().join(", ")
    };
    let by_formula = |burst_type, users: &[usize]| {
        joined(users.iter().map(|k| shift(family(burst_type), *k)).collect())
    };
    let by_search = |burst_type, users: &[usize]| {
        joined(users.iter().filter_map(|k| least_shift(rows, burst_type, *k as u32)).collect())
    };
    let last_element = |burst_type| {
        let family = family(burst_type);
        (1..=2 * family.base_users)
            .map(|k| shift(family, k) + family.midamble_length)
            .max()
            .unwrap_or(0)
    };
    let six_users = [1, 8, 9, 10, 15, 16];
    let all_short = [1, 2, 3, 4, 5, 6];
    vec![
        figure("user 8, chips 1 to 8", chips(1, 8), "1,0,1,2,1,2,1,0"),
        figure("user 8, chips 453 to 460", chips(453, 460), "3,2,1,2,1,0,1,2"),
        figure(
            "shifts, count 16, by the formula",
            by_formula(1, &six_users),
            "399, 0, 370, 313, 28, 427",
        ),
        figure(
            "shifts, count 16, by search",
            by_search(1, &six_users),
            "399, 0, 370, 313, 28, 427",
        ),
        figure(
            "shifts, count 6, by the formula",
            by_formula(2, &all_short),
            "128, 64, 0, 96, 32, 160",
        ),
        figure("shifts, count 6, by search", by_search(2, &all_short), "128, 64, 0, 96, 32, 160"),
        figure("last long element read", last_element(1), 939),
        figure("last short element read", last_element(2), 416),
        figure("user 9, count 8", chip(8, 9, 1), "refused 4"),
        figure("user 0, count 16", chip(16, 0, 1), "refused 4"),
        figure("user 16, count 16, is answered", one_chip(rows, 0, 1, 16, 16, 1).is_ok(), true),
    ]
}

/// The bits of a number that is lent before a call: a NaN with a payload, which no call writes.
const LENT: u32 = 0x7FC1_2345;

/// So many lent numbers.
fn lent_numbers(length: usize) -> Vec<f32> {
    vec![f32::from_bits(LENT); length]
}

/// How many of the numbers are as they were lent, to the bit.
fn untouched(numbers: &[f32]) -> usize {
    numbers.iter().filter(|number| number.to_bits() == LENT).count()
}

/// The bits of the numbers, eight hexadecimal digits each.
fn bit_words(numbers: &[f32]) -> String {
    let words = numbers.iter().map(|number| format!("{:08X}", number.to_bits()));
    words.collect::<Vec<String>>().join(" ")
}

/// The row of pairs of a user; nothing where it is refused.
fn row_of_pairs(
    rows: &Rows,
    cell: u32,
    [burst_type, count, user]: [u32; 3],
    level: u32,
) -> Vec<f32> {
    let mut lent = lent_numbers(1024);
    let written = all_pairs(rows, cell, burst_type, count, user, level, &mut lent).unwrap_or(0);
    lent[..written].to_vec()
}

/// Document 02: "Powers 0, 1, 2, 3 are (a, 0), (0, a), (-a, 0), (0, -a)". The chips are document 01's, cell 0.
///
/// Its figures have the powers of user 8's chips 1 to 8 and 453 to 460. User 16 is shifted by 427, so its chips 30 to
/// 37 are elements 457 to 464, the first eight again. Digit 14 of the long row is 9, + - - +: elements 53 to 56, which
/// are user 8's chips 509 to 512, have the powers 1, 54 + 2, 55 + 2 and 56 modulo 4, that is 1,0,1,0.
///
/// The short row begins 5D, - + - + + + - +: user 3, who is not shifted, begins with the powers 1 + 2, 2, 3 + 2, 4, 5,
/// 6, 7 + 2 and 8 modulo 4, that is 3,2,1,0,1,2,1,0. User 6 is shifted by 160, so its chips 33 to 40 are elements 193
/// to 200, the same. Digit 16 is F: elements 61 to 64, which are user 3's chips 253 to 256, are 1,2,3,0.
fn pair_figures(rows: &Rows) -> Vec<Figure> {
    let one_by_one = |[burst_type, count, user]: [u32; 3], first, last, level| {
        let pair = |i| {
            let pair = one_pair(rows, 0, burst_type, count, user, i, level);
            in_words(pair, |(real, imaginary)| signal_card::words(&[real, imaginary]))
        };
        (first..=last).map(pair).collect::<Vec<String>>().join(" ")
    };
    let in_a_row = |user, first, last, level| {
        let row = row_of_pairs(rows, 0, user, level);
        row.get(2 * (first as usize - 1)..2 * last as usize)
            .map_or("no such row".to_string(), signal_card::words)
    };
    let mut figures = vec![
        figure("row 0 long, digit 14", &rows.long[0][13..14], "9"),
        figure("row 0 short begins", &rows.short[0][..2], "5D"),
        figure("row 0 short, digit 16", &rows.short[0][15..16], "F"),
    ];
    for (user, first, last, level, wanted) in [
        ([1, 16, 8], 1, 8, 5, "0 5 5 0 0 5 -5 0 0 5 -5 0 0 5 5 0"),
        ([1, 16, 8], 453, 460, 7, "0 -7 -7 0 0 7 -7 0 0 7 7 0 0 7 -7 0"),
        ([1, 16, 8], 509, 512, 3, "0 3 3 0 0 3 3 0"),
        ([1, 8, 8], 1, 2, 12, "0 12 12 0"),
        ([3, 16, 16], 30, 37, 40, "0 40 40 0 0 40 -40 0 0 40 -40 0 0 40 40 0"),
        ([2, 3, 3], 1, 8, 9, "0 -9 -9 0 0 9 9 0 0 9 -9 0 0 9 9 0"),
        ([2, 6, 6], 33, 40, 2000, "0 -2000 -2000 0 0 2000 2000 0 0 2000 -2000 0 0 2000 2000 0"),
        ([2, 6, 3], 253, 256, 1024, "0 1024 -1024 0 0 -1024 1024 0"),
        ([1, 16, 8], 2, 2, 1, "1 0"),
        ([1, 16, 8], 1, 1, 1, "0 1"),
        ([1, 16, 8], 4, 4, 1, "-1 0"),
        ([1, 16, 8], 453, 453, 1, "0 -1"),
        ([1, 16, 8], 2, 2, 2047, "2047 0"),
        ([1, 16, 8], 1, 1, 2047, "0 2047"),
        ([1, 16, 8], 4, 4, 2047, "-2047 0"),
        ([1, 16, 8], 453, 453, 2047, "0 -2047"),
    ] {
        let [burst_type, count, number] = user;
        let name = format!(
            "type {burst_type}, user {number} of {count}, chips {first} to {last} at level {level}"
        );
        let pairs = one_by_one(user, first, last, level);
        figures.push(figure(&format!("{name}, one by one"), pairs, wanted));
        let pairs = in_a_row(user, first, last, level);
        figures.push(figure(&format!("{name}, in the row"), pairs, wanted));
    }
    figures
}

/// Document 02: "with plain zero and not minus zero", and "nothing is rounded". By bits: a float is a sign, 8 bits of
/// exponent plus 127, and 23 bits behind the point. Plain zero is no bit at all, minus zero its sign alone. 1 has the
/// exponent 0: 3F800000. 2047 is eleven ones, so the exponent is 10, 137 in place of 127, and ten ones stand behind the
/// point: 44FFE000. The sign adds 80000000.
///
/// Each chip has one zero, so 128 long and 128 short midambles have 128 * 512 + 128 * 256 of them.
fn zero_figures(rows: &Rows) -> Vec<Figure> {
    let bits = |i, level| {
        let pair = one_pair(rows, 0, 1, 16, 8, i, level);
        in_words(pair, |(real, imaginary)| bit_words(&[real, imaginary]))
    };
    let all_powers = |level| [2, 1, 4, 453].map(|i| bits(i, level)).join(", ");
    let mut all_numbers = Vec::new();
    for cell in 0..=127 {
        all_numbers.extend(row_of_pairs(rows, cell, [1, 16, 9], 2047));
        all_numbers.extend(row_of_pairs(rows, cell, [2, 6, 5], 1));
    }
    let of_bits = |bits| all_numbers.iter().filter(|number| number.to_bits() == bits).count();
    vec![
        figure(
            "powers 0 to 3 at level 1, by bits",
            all_powers(1),
            "3F800000 00000000, 00000000 3F800000, BF800000 00000000, 00000000 BF800000",
        ),
        figure(
            "powers 0 to 3 at level 2047, by bits",
            all_powers(2047),
            "44FFE000 00000000, 00000000 44FFE000, C4FFE000 00000000, 00000000 C4FFE000",
        ),
        figure("numbers of a user of every cell, long and short", all_numbers.len(), 196608),
        figure("plain zeros among them", of_bits(0), 98304),
        figure("minus zeros among them", of_bits(0x8000_0000), 0),
        figure("a minus zero, if there were one", signal_card::words(&[-0.0]), "-0"),
    ]
}

/// Document 02: "The level a is a whole number from 1 to 2047", "22 for another level, last in order".
fn level_figures(rows: &Rows) -> Vec<Figure> {
    let answers = |answers: &[String]| answers.join(", ");
    let one = |[cell, burst_type, count, user]: [u32; 4], i, level| {
        let pair = one_pair(rows, cell, burst_type, count, user, i, level);
        in_words(pair, |_| "answered".to_string())
    };
    let all = |[cell, burst_type, count, user]: [u32; 4], length, level| {
        let mut lent = lent_numbers(length);
        let written = all_pairs(rows, cell, burst_type, count, user, level, &mut lent);
        in_words(written, |written| written.to_string())
    };
    let levels = [0, 1, 2047, 2048, u32::MAX];
    let user_8 = [0, 1, 16, 8];
    // A wrong cell, type, count and user, and all behind it wrong too.
    let wrong = [[128, 4, 5, 17], [0, 4, 5, 17], [0, 1, 5, 17], [0, 1, 16, 17]];
    vec![
        figure(
            "one pair at levels 0, 1, 2047, 2048, largest",
            answers(&levels.map(|level| one(user_8, 512, level))),
            "refused 22, answered, answered, refused 22, refused 22",
        ),
        figure(
            "a row of pairs at levels 0, 1, 2047, 2048, largest",
            answers(&levels.map(|level| all(user_8, 1024, level))),
            "refused 22, 1024, 1024, refused 22, refused 22",
        ),
        figure(
            "a short row of pairs at levels 0, 1, 2047, 2048, largest",
            answers(&levels.map(|level| all([0, 2, 6, 6], 512, level))),
            "refused 22, 512, 512, refused 22, refused 22",
        ),
        figure(
            "one pair at level 0 with chip 513 and a wrong cell, type, count, user",
            answers(&wrong.map(|numbers| one(numbers, 513, 0))),
            "refused 1, refused 2, refused 3, refused 4",
        ),
        figure(
            "one pair at level 2048 with user 0, with chip 0, with chip 513",
            answers(&[one([0, 1, 16, 0], 1, 2048), one(user_8, 0, 2048), one(user_8, 513, 2048)]),
            "refused 4, refused 10, refused 10",
        ),
        figure(
            "a row of pairs at level 0 in no memory with a wrong cell, type, count, user",
            answers(&wrong.map(|numbers| all(numbers, 0, 0))),
            "refused 1, refused 2, refused 3, refused 4",
        ),
        figure(
            "a row of pairs at level 2048 with user 0, in 1023 numbers, a short one in 511",
            answers(&[
                all([0, 1, 16, 0], 1024, 2048),
                all(user_8, 1023, 2048),
                all([0, 2, 6, 6], 511, 2048),
            ]),
            "refused 4, refused 11, refused 11",
        ),
    ]
}

/// Document 01: "lent memory, read or written, shorter than the call needs"; a refusal "leaves all lent memory and the
/// book unchanged"; "memory longer than needed: only the named first places are read or written".
fn lent_row_figures(rows: &Rows) -> Vec<Figure> {
    // User 1 of the type at a level, in so many lent numbers and then a NaN with another payload, a minus zero and a
    // negative NaN: the answer, how many of the lent numbers are untouched, and the bits of the last three.
    let lent = |burst_type, count, level, length| {
        let mut memory = lent_numbers(length);
        memory.extend([0x7FC5_4321, 0x8000_0000, 0xFFC0_0001].map(f32::from_bits));
        let written = all_pairs(rows, 0, burst_type, count, 1, level, &mut memory);
        let written = in_words(written, |written| written.to_string());
        let behind = bit_words(&memory[length..]);
        format!("{written}, {}, {behind}", untouched(&memory))
    };
    vec![
        figure(
            "a row in 1027 numbers",
            lent(1, 16, 2047, 1024),
            "1024, 0, 7FC54321 80000000 FFC00001",
        ),
        figure(
            "a short row in 515 numbers",
            lent(2, 3, 1, 512),
            "512, 0, 7FC54321 80000000 FFC00001",
        ),
        figure(
            "a row in 1023 numbers",
            lent(3, 8, 2047, 1020),
            "refused 11, 1020, 7FC54321 80000000 FFC00001",
        ),
        figure(
            "a short row in 511 numbers",
            lent(2, 6, 1, 508),
            "refused 11, 508, 7FC54321 80000000 FFC00001",
        ),
        figure(
            "a row at level 0 in 1024 numbers",
            lent(1, 8, 0, 1021),
            "refused 22, 1021, 7FC54321 80000000 FFC00001",
        ),
        figure(
            "a short row at level 2048 in 512 numbers",
            lent(2, 6, 2048, 509),
            "refused 22, 509, 7FC54321 80000000 FFC00001",
        ),
        figure(
            "a row with count 0 in 1027 numbers",
            lent(1, 0, 5, 1024),
            "refused 3, 1024, 7FC54321 80000000 FFC00001",
        ),
    ]
}

/// The timeslot of a question that is not refused.
fn slot(
    burst_type: u32,
    direction: Direction,
    factor: u32,
    tfci_bits: u32,
    tpc_bits: u32,
) -> Timeslot {
    timeslot(&Question { burst_type, direction, factor, tfci_bits, tpc_bits })
        .expect("these questions are answered")
}

/// The first and the last chip of a part.
fn first_and_last(slot: &Timeslot, part: Part) -> String {
    let chips: Vec<usize> = (0..CHIPS).filter(|chip| slot.chips[*chip].part == part).collect();
    format!("{} to {}", chips[0], chips[chips.len() - 1])
}

fn timeslot_figures() -> Vec<Figure> {
    let bits = |slot: &Timeslot| format!("{} and {}", slot.data_bits[0], slot.data_bits[1]);
    let uplink_1 = slot(1, Direction::Up, 8, 16, 2);
    let downlink_2 = slot(2, Direction::Down, 16, 4, 0);
    let uplink_3 = slot(3, Direction::Up, 16, 32, 2);
    let starts: Vec<String> = uplink_1.parts.iter().map(|part| part.start.to_string()).collect();
    vec![
        figure("uplink type 1, chips", uplink_1.chips.len(), CHIPS),
        figure("downlink type 2, chips", downlink_2.chips.len(), CHIPS),
        figure("uplink type 3, chips", uplink_3.chips.len(), CHIPS),
        figure("uplink type 1, starts", starts.join(", "), "0, 912, 976, 1488, 1504, 1568, 2464"),
        figure("uplink type 1, data bits", bits(&uplink_1), "228 and 224"),
        figure("downlink type 2, data bits", bits(&downlink_2), "136 and 136"),
        figure(
            "downlink type 2, second TFCI half",
            first_and_last(&downlink_2, Part::Tfci2),
            "1360 to 1375",
        ),
        figure("uplink type 3, data 2", first_and_last(&uplink_3, Part::Data2), "1632 to 2367"),
        figure("uplink type 3, bits of data 2", uplink_3.data_bits[1], 92),
    ]
}

fn beacon_figures() -> Vec<Figure> {
    let beacons = |case, k| in_words(beacon_timeslots(case, k), words);
    vec![
        figure("beacons, case 2, k 6", beacons(2, 6), "6 14"),
        figure("beacons, case 2, k 7", beacons(2, 7), "refused 9"),
        figure("beacons, case 1, k 14", beacons(1, 14), "14"),
    ]
}

fn paging_figures() -> Vec<Figure> {
    let place = |burst_type, length, frames, number| {
        in_words(indicator(burst_type, length, frames, number), place_words)
    };
    let owned = |burst_type, length, bit| in_words(owner(burst_type, length, bit), owner_words);
    vec![
        figure("type 1, L 4, F 2, PI 37", place(1, 4, 2, 37), "frame 1 q 7 bits 28..31 148..151"),
        figure("type 1, L 4, F 2, PI 60", place(1, 4, 2, 60), "refused 10"),
        figure(
            "type 2, L 2, F 1, PI 67",
            place(2, 2, 1, 67),
            "frame 0 q 67 bits 134..135 270..271",
        ),
        figure("type 1, L 4, bit 119 in time order", owned(1, 4, 119), "q 29"),
        figure("type 1, L 4, bit 120 in time order", owned(1, 4, 120), "reserved"),
        figure("type 1, L 4, bit 123 in time order", owned(1, 4, 123), "reserved"),
        figure("type 1, L 4, bit 124 in time order", owned(1, 4, 124), "q 0"),
    ]
}

/// `ok` or `refused N`.
fn reply(answer: Answer<()>) -> String {
    in_words(answer, |()| "ok".to_string())
}

/// A lesson, each line with its whole reply. Where a reply has several lines, ` / ` stands between them.
fn lesson(rows: &Rows, name: &str, lines: &[(&str, &str)]) -> Vec<Figure> {
    let mut bench = Bench::new(rows);
    let figures = (1..).zip(lines).map(|(number, (line, wanted))| {
        let reply = bench.reply(number, line.as_bytes());
        let reply = reply.trim_end_matches('\n').replace('\n', " / ");
        figure(&format!("{name}, line {number}, {line}"), reply, wanted)
    });
    figures.collect()
}

/// Cell 0, counts 0, case 1, k 0.
const CELL_0: Settings = Settings { cell: 0, case: 1, k: 0, long_count: 0, short_count: 0 };

/// A booking of type 1 and factor 16 without control bits.
fn plain(timeslot: u32, direction: Direction, index: u32, user: u32) -> Record {
    Record {
        timeslot,
        direction,
        burst_type: 1,
        factor: 16,
        index,
        user,
        tfci_bits: 0,
        tpc_bits: 0,
    }
}

/// Seat 3 of the figures, after its two bookings.
fn seat_3() -> Answer<Book> {
    let mut book = Book::empty();
    book.open(3, CELL_0)?;
    book.book(3, plain(2, Direction::Down, 3, 4))?;
    book.book(3, plain(0, Direction::Down, 1, 1))?;
    Ok(book)
}

/// `(0, down, ..), (2, down, ..); count 2`, as document 01 writes it.
fn list_words(lent: &[Record], written: usize) -> String {
    let records: Vec<String> = lent[..written]
        .iter()
        .map(|record| format!("({})", record.words().replace(' ', ", ")))
        .collect();
    format!("{}; count {written}", records.join(", "))
}

/// Seat 3's list, in 45 lent records and in 39.
fn seat_3_figures() -> Vec<Figure> {
    let book = seat_3().expect("seat 3's calls are accepted");
    let mut lent = [NO_BOOKING; MOST_OF_A_SEAT + 5];
    let written = book.list_into(3, &mut lent).unwrap_or(0);
    let untouched = lent.iter().filter(|record| **record == NO_BOOKING).count();
    let mut too_short = [NO_BOOKING; MOST_OF_A_SEAT - 1];
    let refused = book.list_into(3, &mut too_short);
    let settings = in_words(book.settings(3), |kept| {
        let Settings { cell, case, k, long_count, short_count } = kept;
        format!("{cell}, {case}, {k}, {long_count}, {short_count}")
    });
    vec![
        figure(
            "seat 3, the list",
            list_words(&lent, written),
            "(0, down, 1, 16, 1, 1, 0, 0), (2, down, 1, 16, 3, 4, 0, 0); count 2",
        ),
        figure("seat 3, records left untouched", untouched, 43),
        figure("seat 3, a list in 39 records", reply(refused.map(|_| ())), "refused 11"),
        figure("seat 3, cell, case, k and counts", settings, "0, 1, 0, 8, 3"),
    ]
}

/// The answers to bookings in one timeslot of a seat whose beacon timeslot is 0. Given are direction, burst type and
/// index of each; the factor is 16, the user 3.
fn in_timeslot(timeslot: u32, bookings: &[(Direction, u32, u32)]) -> String {
    let mut book = Book::empty();
    book.open(3, CELL_0).expect("this seat is opened");
    let answers = bookings.iter().map(|&(direction, burst_type, index)| {
        reply(book.book(3, Record { burst_type, ..plain(timeslot, direction, index, 3) }))
    });
    answers.collect::<Vec<String>>().join(", ")
}

/// Document 02: "of two bookings in a timeslot, the types clash if exactly one of them is type 2"; "beacon timeslots
/// still take type 1 only".
fn burst_type_figures() -> Vec<Figure> {
    use Direction::{Down, Up};
    let uplink = |first, second| in_timeslot(2, &[(Up, first, 3), (Up, second, 4)]);
    let downlink = |first, second| in_timeslot(2, &[(Down, first, 3), (Down, second, 4)]);
    let in_beacon = |bookings: &[_]| in_timeslot(0, bookings);
    vec![
        figure("type 3 beside type 1", uplink(1, 3), "ok, ok"),
        figure("type 1 beside type 3", uplink(3, 1), "ok, ok"),
        figure("type 2 beside type 2", uplink(2, 2), "ok, ok"),
        figure("type 2 beside type 1", uplink(1, 2), "ok, refused 17"),
        figure("type 1 beside type 2", uplink(2, 1), "ok, refused 17"),
        figure("type 2 beside type 3", uplink(3, 2), "ok, refused 17"),
        figure("type 3 beside type 2", uplink(2, 3), "ok, refused 17"),
        figure("type 2 beside type 1 in downlink", downlink(1, 2), "ok, refused 17"),
        figure("type 1 beside type 2 in downlink", downlink(2, 1), "ok, refused 17"),
        figure(
            "type 2 beside types 1 and 3",
            in_timeslot(2, &[(Up, 1, 3), (Up, 3, 4), (Up, 2, 5)]),
            "ok, ok, refused 17",
        ),
        figure(
            "types 1 and 3 with one code",
            in_timeslot(2, &[(Up, 1, 3), (Up, 3, 3)]),
            "ok, refused 17",
        ),
        figure(
            "types 1 and 3 in two directions",
            in_timeslot(2, &[(Down, 1, 3), (Up, 3, 4)]),
            "ok, refused 17",
        ),
        figure("beacon timeslot, type 3", in_beacon(&[(Up, 3, 3)]), "refused 18"),
        figure(
            "beacon timeslot, type 3 where type 1 is",
            in_beacon(&[(Down, 1, 3), (Up, 3, 4)]),
            "ok, refused 17",
        ),
        figure("beacon timeslot, type 2", in_beacon(&[(Down, 2, 3)]), "refused 18"),
        figure(
            "beacon timeslot, type 2 beside type 1",
            in_beacon(&[(Down, 1, 3), (Down, 2, 4)]),
            "ok, refused 17",
        ),
    ]
}

/// Makes the first so many of a row of bookings: how many the seat holds then, and the answer to the last.
fn fill(book: &mut Book, seat: u32, most: u32) -> (usize, String) {
    let mut last = Ok(());
    for place in 0..most {
        last = book.book(seat, plain(1 + place % 14, Direction::Up, 1 + place / 14, 1));
    }
    (book.list(seat).map_or(0, |listed| listed.len()), reply(last))
}

/// "Three seats hold 40, 40 and 30, nobody else any: those at 40 get 19, the third gets 20, and an empty seat still
/// books 10." Their next booking is user 9's, whom the count 16 permits.
fn room_figures() -> Vec<Figure> {
    let mut book = Book::empty();
    for seat in [0, 1, 2, 3] {
        book.open(seat, Settings { long_count: 16, short_count: 6, ..CELL_0 })
            .expect("these seats are opened");
    }
    let filled = [(0, 40), (1, 40), (2, 30)].map(|(seat, most)| fill(&mut book, seat, most));
    let holdings = filled.map(|(held, last)| format!("{held} {last}"));
    let next = [0, 1, 2].map(|seat| reply(book.book(seat, plain(9, Direction::Up, 9, 9))));
    let (held, eleventh) = fill(&mut book, 3, 11);
    let freed = book.cancel(1, 1, 16, 1);
    let (held_then, twelfth) = fill(&mut book, 3, 12);
    vec![
        figure("three seats hold", holdings.join(", "), "40 ok, 40 ok, 30 ok"),
        figure(
            "and their next booking gets",
            next.join(", "),
            "refused 19, refused 19, refused 20",
        ),
        figure("an empty seat still books", held, 10),
        figure("and its eleventh gets", eleventh, "refused 20"),
        figure(
            "room set free by cancel counts at once",
            format!("{}, {held_then}, {twelfth}", reply(freed)),
            "ok, 11, refused 20",
        ),
    ]
}

/// Refusal 12 stands after those of the numbers given and before those of the book.
fn damaged_book_figures() -> Vec<Figure> {
    let mut book = seat_3().expect("seat 3's calls are accepted");
    book.damaged = true;
    let mut lent = [NO_BOOKING; MOST_OF_A_SEAT];
    let answers = [
        book.open(16, Settings { k: 15, ..CELL_0 }),
        book.open(16, CELL_0),
        book.book(16, plain(15, Direction::Up, 1, 1)),
        book.book(16, plain(2, Direction::Down, 3, 4)),
        book.cancel(16, 2, 16, 17),
        book.cancel(16, 2, 16, 3),
        book.close(16),
        book.list_into(16, &mut lent[1..]).map(|_| ()),
        book.list_into(16, &mut lent).map(|_| ()),
    ];
    vec![figure(
        "calls on a damaged book",
        answers.map(|answer| answer.map_or_else(|number| number, |()| 0).to_string()).join(", "),
        "9, 12, 5, 12, 6, 12, 12, 11, 12",
    )]
}
