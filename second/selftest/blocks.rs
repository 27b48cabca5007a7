//! Document 02, midambles by the block: the chips of blocks, blocks joined, blocks that write none, and refused ones.

use super::{figure, Figure};
use crate::blocks::{block, start, Place};
use crate::dice::Dice;
use crate::lesson::Bench;
use crate::midambles::{family, permitted_users, whole_midamble};
use crate::refusals::{in_words, Answer};
use crate::rows::Rows;
use std::iter;

pub fn figures(rows: &Rows) -> Vec<Figure> {
    let mut figures = Vec::new();
    figures.extend(start_figures());
    figures.extend(chip_figures(rows));
    figures.extend(card_figures(rows));
    figures.extend(cut_figures(rows));
    figures.extend(user_figures(rows));
    figures.extend(no_chip_figures(rows));
    figures.extend(order_figures(rows));
    figures.extend(place_figures(rows));
    figures.extend(lent_block_figures(rows));
    figures.extend(lesson_figures(rows));
    figures
}

/// The place behind so many chips of a midamble, given by its cell, type, count and user.
fn behind([cell, burst_type, count, user]: [u32; 4], written: u32) -> Place {
    Place { cell, burst_type, count, user, written }
}

/// Cell, type, count, user and the chips written.
fn words(place: Place) -> String {
    let Place { cell, burst_type, count, user, written } = place;
    format!("{cell} {burst_type} {count} {user} {written}")
}

/// So many lent bytes, of which none is a chip: byte n is 100 + n mod 100.
fn lent_bytes(length: usize) -> Vec<u8> {
    (0..length).map(|n| 100 + (n % 100) as u8).collect()
}

/// The lent bytes after a block that is not refused, and the place behind it, `[1, 0], 0 1 16 8 2`.
fn block_words(rows: &Rows, place: Place, length: usize) -> String {
    let mut lent = lent_bytes(length);
    let (answer, behind) = block(rows, place, &mut lent);
    in_words(answer, |_| format!("{lent:?}, {}", words(behind)))
}

/// `ok`, or the number of the refusal.
fn ok_or_number<T>(answer: Answer<T>) -> String {
    match answer {
        Ok(_) => "ok".to_string(),
        Err(number) => number.to_string(),
    }
}

/// "A form that starts on a cell, type, count and user": no chip is written.
fn start_figures() -> Vec<Figure> {
    let started =
        |cell, burst_type, count, user| in_words(start(cell, burst_type, count, user), words);
    vec![
        figure("a start, type 1, user 8 of 16", started(0, 1, 16, 8), "0 1 16 8 0"),
        figure("a start, type 2, user 6 of 6", started(127, 2, 6, 6), "127 2 6 6 0"),
        figure("a start, type 3, user 7 of 4", started(5, 3, 4, 7), "5 3 4 7 0"),
        figure("a start, type 3, user 6 of 4", started(5, 3, 4, 6), "refused 4"),
        figure("a start, type 2, user 1 of 4", started(5, 2, 4, 1), "refused 3"),
    ]
}

/// Blocks that begin and end where the chips are known, in cell 0. Document 01's figures have user 8's chips 1 to 8 and
/// 453 to 460; its chips 509 to 512 are 1,0,1,0. By their shifts of 427 and 399, user 16 has the first eight again as
/// chips 30 to 37, and user 1 as chips 58 to 65. For type 2 user 3's chips 1 to 8 are 3,2,1,0,1,2,1,0, its chips 253 to
/// 256 are 1,2,3,0, and by its shift of 160 user 6 has the first eight again as chips 33 to 40. (`pair_figures` has how
/// they are worked out, `users` those of user 1.)
fn chip_figures(rows: &Rows) -> Vec<Figure> {
    let wanted = [
        ([0, 1, 16, 8], 0, 8, "[1, 0, 1, 2, 1, 2, 1, 0], 0 1 16 8 8"),
        ([0, 1, 8, 8], 0, 3, "[1, 0, 1], 0 1 8 8 3"),
        ([0, 1, 8, 8], 3, 5, "[2, 1, 2, 1, 0], 0 1 8 8 8"),
        ([0, 1, 8, 8], 7, 1, "[0], 0 1 8 8 8"),
        ([0, 3, 16, 8], 452, 8, "[3, 2, 1, 2, 1, 0, 1, 2], 0 3 16 8 460"),
        ([0, 1, 16, 8], 456, 4, "[1, 0, 1, 2], 0 1 16 8 460"),
        ([0, 1, 16, 8], 508, 4, "[1, 0, 1, 0], 0 1 16 8 512"),
        ([0, 1, 16, 8], 508, 7, "[1, 0, 1, 0, 104, 105, 106], 0 1 16 8 512"),
        ([0, 1, 16, 8], 511, 2, "[0, 101], 0 1 16 8 512"),
        ([0, 1, 16, 8], 512, 2, "[100, 101], 0 1 16 8 512"),
        ([0, 3, 16, 16], 29, 8, "[1, 0, 1, 2, 1, 2, 1, 0], 0 3 16 16 37"),
        ([0, 1, 4, 1], 57, 8, "[1, 0, 1, 2, 1, 2, 1, 0], 0 1 4 1 65"),
        ([0, 2, 3, 3], 0, 8, "[3, 2, 1, 0, 1, 2, 1, 0], 0 2 3 3 8"),
        ([0, 2, 6, 3], 2, 3, "[1, 0, 1], 0 2 6 3 5"),
        ([0, 2, 6, 6], 32, 8, "[3, 2, 1, 0, 1, 2, 1, 0], 0 2 6 6 40"),
        ([0, 2, 6, 3], 252, 4, "[1, 2, 3, 0], 0 2 6 3 256"),
        ([0, 2, 6, 3], 253, 5, "[2, 3, 0, 103, 104], 0 2 6 3 256"),
        ([0, 2, 6, 3], 256, 2, "[100, 101], 0 2 6 3 256"),
    ];
    let figures = wanted.map(|(user, written, length, wanted)| {
        let place = behind(user, written);
        let name = format!("a block of {length} behind {}", words(place));
        figure(&name, block_words(rows, place, length), wanted)
    });
    figures.into()
}

/// "The card asks for 64 chips, then 100, then whatever it has room for": 600 bytes, and those once more. Of each block
/// the number of chips, the first four and the last four.
///
/// User 8 of cell 0 is not shifted. Digits 16, 17, 41 and 42 of the long row are 0, A, 5 and F, which are the elements
/// - - - -, + - + -, - + - + and + + + +. Each digit begins with an i that is 1 modulo 4, so + is 1, 2, 3, 0 in turn
/// and - is 3, 0, 1, 2: chips 61 to 64 are 3,0,1,2, chips 65 to 68 are 1,0,3,2, chips 161 to 164 are 3,2,1,0 and chips
/// 165 to 168 are 1,2,3,0. Then 512 - 164 = 348 chips are left.
///
/// Nor is user 3 for type 2. There the short row has F, 0, C and 7, which are + + + +, - - - -, + + - - and - + + +:
/// the chips are 1,2,3,0 and 3,0,1,2, then 1,2,1,2 and 3,2,3,0. Then 256 - 164 = 92 chips are left.
fn card_figures(rows: &Rows) -> Vec<Figure> {
    let card = |user: [u32; 4]| {
        let mut place = behind(user, 0);
        let blocks = [64, 100, 600, 600].map(|length| {
            let mut lent = lent_bytes(length);
            let (answer, next) = block(rows, place, &mut lent);
            place = next;
            in_words(answer, |written| match lent[..written] {
                [a, b, c, d, .., w, x, y, z] => format!("{written}: {a}{b}{c}{d}..{w}{x}{y}{z}"),
                _ => written.to_string(),
            })
        });
        format!("{}, {}", blocks.join(", "), place.written)
    };
    let digits = |row: &str| [16, 17, 41, 42].map(|digit| &row[digit - 1..digit]).concat();
    vec![
        figure("row 0 long, digits 16, 17, 41, 42", digits(&rows.long[0]), "0A5F"),
        figure("row 0 short, digits 16, 17, 41, 42", digits(&rows.short[0]), "F0C7"),
        figure(
            "the card's blocks, type 1",
            card([0, 1, 16, 8]),
            "64: 1012..3012, 100: 1032..3210, 348: 1230..1010, 0, 512",
        ),
        figure(
            "the card's blocks, type 2",
            card([0, 2, 3, 3]),
            "64: 3210..1230, 100: 3012..1212, 92: 3230..1230, 0, 256",
        ),
    ]
}

/// Whether a midamble is cut into blocks of these lengths as it has to be: each writes as many chips as block and
/// midamble have left, "the chips joined are those of document 01", the last block ends at the midamble length, and two
/// blocks more, of 0 bytes and of 9, write none and keep the place.
fn joins(rows: &Rows, numbers: [u32; 4], lengths: impl Iterator<Item = usize>) -> bool {
    let [cell, burst_type, count, user] = numbers;
    let mut midamble = vec![0; family(burst_type).midamble_length];
    let whole = whole_midamble(rows, cell, burst_type, count, user, &mut midamble);
    let end = behind(numbers, midamble.len() as u32);
    let Ok(mut place) = start(cell, burst_type, count, user) else {
        return false;
    };
    let mut joined: Vec<u8> = Vec::new();
    for length in lengths {
        let mut lent = lent_bytes(length);
        let (answer, next) = block(rows, place, &mut lent);
        let written = length.min(midamble.len() - joined.len());
        if answer != Ok(written) {
            return false;
        }
        joined.extend(&lent[..written]);
        place = next;
        if joined.len() == midamble.len() {
            break;
        }
    }
    let beyond = [0, 9].map(|length| block(rows, place, &mut vec![0; length]));
    whole == Ok(midamble.len())
        && joined == midamble
        && place == end
        && beyond == [(Ok(0), end), (Ok(0), end)]
}

/// Lengths as a card may have them in turn: many of 0, few chips, some, and more than is left.
fn some_length(dice: &mut Dice) -> usize {
    match dice.below(10) {
        0 | 1 => 0,
        2..=4 => dice.between(1, 9) as usize,
        5..=8 => dice.between(10, 130) as usize,
        _ => dice.between(250, 600) as usize,
    }
}

/// "However the blocks are cut, the chips joined are those of document 01": blocks of one length, two blocks with every
/// cut between them, and cuts by the dice.
fn cut_figures(rows: &Rows) -> Vec<Figure> {
    let mut figures = Vec::new();
    for (burst_type, user, length) in
        [(1, [3, 1, 16, 9], 512), (2, [77, 2, 6, 5], 256), (3, [127, 3, 4, 7], 512)]
    {
        let of_one_length =
            (1..=length + 2).filter(|n| joins(rows, user, iter::repeat(*n))).count();
        let of_two = (0..=length).filter(|n| joins(rows, user, [*n, 600].into_iter())).count();
        let of_rest =
            (0..=length).filter(|n| joins(rows, user, [*n, length - *n].into_iter())).count();
        let by_dice = (0..200)
            .filter(|seed| {
                let mut dice = Dice::new(*seed);
                joins(rows, user, iter::repeat_with(|| some_length(&mut dice)))
            })
            .count();
        let name = |cuts: &str| format!("type {burst_type}, {cuts} that join to the midamble");
        figures.push(figure(&name("blocks of one length"), of_one_length, length + 2));
        figures.push(figure(&name("a block and a long one"), of_two, length + 1));
        figures.push(figure(&name("a block and the rest"), of_rest, length + 1));
        figures.push(figure(&name("cuts by the dice"), by_dice, 200));
    }
    figures
}

/// Every user of every count in cells 0 and 127: 28 for types 1 and 3 each, 9 for type 2. And a user a type in each of
/// the 128 cells.
fn user_figures(rows: &Rows) -> Vec<Figure> {
    let joins = |numbers: &[u32; 4]| joins(rows, *numbers, [64, 100, 0, 1, 0, 600].into_iter());
    let users = |burst_type: u32| {
        let counts = family(burst_type).counts.iter();
        counts.flat_map(move |count| {
            permitted_users(*count).into_iter().map(move |user| [burst_type, *count, user])
        })
    };
    let of_two_cells = |burst_type| {
        users(burst_type)
            .flat_map(|[burst_type, count, user]| {
                [[0, burst_type, count, user], [127, burst_type, count, user]]
            })
            .filter(joins)
            .count()
    };
    let of_all_cells = |burst_type, count, user| {
        (0..=127).map(|cell| [cell, burst_type, count, user]).filter(joins).count()
    };
    vec![
        figure("type 1, users of two cells whose blocks join", of_two_cells(1), 56),
        figure("type 2, users of two cells whose blocks join", of_two_cells(2), 18),
        figure("type 3, users of two cells whose blocks join", of_two_cells(3), 56),
        figure("type 1, cells whose blocks join", of_all_cells(1, 16, 10), 128),
        figure("type 2, cells whose blocks join", of_all_cells(2, 3, 2), 128),
        figure("type 3, cells whose blocks join", of_all_cells(3, 8, 1), 128),
    ]
}

/// "A block of length 0 writes none and keeps the place; after the last chip each block writes none."
fn no_chip_figures(rows: &Rows) -> Vec<Figure> {
    let long = [0, 1, 16, 8];
    let short = [0, 2, 6, 6];
    // How many of the places 0 to the midamble length a block of length 0 keeps, writing none.
    let kept = |numbers, length| {
        (0..=length)
            .map(|written| behind(numbers, written))
            .filter(|place| block(rows, *place, &mut []) == (Ok(0), *place))
            .count()
    };
    // How many blocks of 0 to 600 bytes at the end write none, keep the place and leave the bytes.
    let at_the_end = |numbers, length| {
        let end = behind(numbers, length);
        let writes_none = |length: &usize| {
            let mut lent = lent_bytes(*length);
            block(rows, end, &mut lent) == (Ok(0), end) && lent == lent_bytes(*length)
        };
        (0..=600).filter(writes_none).count()
    };
    vec![
        figure("places that a block of length 0 keeps, type 1", kept(long, 512), 513),
        figure("places that a block of length 0 keeps, type 2", kept(short, 256), 257),
        figure("blocks at the end that write none, type 1", at_the_end(long, 512), 601),
        figure("blocks at the end that write none, type 2", at_the_end(short, 256), 601),
    ]
}

/// Cell, type, count, user and place, all within the rules, and each of them wrong.
const RIGHT_AND_WRONG: [[[u32; 5]; 2]; 4] = [
    [[0, 1, 16, 8, 512], [128, 4, 5, 17, 513]],
    [[127, 2, 6, 6, 256], [u32::MAX, 0, 4, 7, 257]],
    [[5, 3, 4, 7, 0], [128, u32::MAX, 6, 2, u32::MAX]],
    [[64, 2, 3, 1, 9], [256, 5, 16, 0, 512]],
];

/// All 32 choices of what is wrong: nothing at first, then the place alone, the user, user and place, the count, and so
/// on up to all five.
fn choices([right, wrong]: [[u32; 5]; 2]) -> Vec<Place> {
    let choice = |chosen: u32| {
        let mut numbers = right;
        for (n, number) in numbers.iter_mut().enumerate() {
            if chosen & (16 >> n) != 0 {
                *number = wrong[n];
            }
        }
        let [cell, burst_type, count, user, written] = numbers;
        Place { cell, burst_type, count, user, written }
    };
    (0..32).map(choice).collect()
}

/// "1 to 4 at the start, the same in a block whose handed-in cell, type, count or user breaks them, and after those
/// 23"; of several "the lowest is given". The start has no place, so that each second choice is the one before.
fn order_figures(rows: &Rows) -> Vec<Figure> {
    let mut figures = Vec::new();
    for numbers in RIGHT_AND_WRONG {
        let [[_, burst_type, count, ..], _] = numbers;
        let name = format!("type {burst_type}, count {count}, each choice of wrong numbers");
        let answers = |ask: &dyn Fn(Place) -> String| {
            choices(numbers).into_iter().map(ask).collect::<Vec<String>>().join(" ")
        };
        let starts = answers(&|place| {
            ok_or_number(start(place.cell, place.burst_type, place.count, place.user))
        });
        figures.push(figure(
            &format!("starts, {name}"),
            starts,
            "ok ok 4 4 3 3 3 3 2 2 2 2 2 2 2 2 1 1 1 1 1 1 1 1 1 1 1 1 1 1 1 1",
        ));
        for length in [0, 1, 600] {
            let blocks =
                answers(&|place| ok_or_number(block(rows, place, &mut lent_bytes(length)).0));
            figures.push(figure(
                &format!("blocks of {length}, {name}"),
                blocks,
                "ok 23 4 4 3 3 3 3 2 2 2 2 2 2 2 2 1 1 1 1 1 1 1 1 1 1 1 1 1 1 1 1",
            ));
        }
    }
    figures
}

/// "23 where the place, counted in chips already written, is above the midamble length".
fn place_figures(rows: &Rows) -> Vec<Figure> {
    let at = |numbers, places: &[u32], length| {
        let answers = places.iter().map(|place| {
            let (answer, _) = block(rows, behind(numbers, *place), &mut lent_bytes(length));
            in_words(answer, |written| written.to_string())
        });
        answers.collect::<Vec<String>>().join(", ")
    };
    // How many of the places 0 to 1000 are refused.
    let refused = |numbers| {
        let refused = |place: &u32| block(rows, behind(numbers, *place), &mut [0]).0 == Err(23);
        (0..=1000).filter(refused).count()
    };
    let long = [511, 512, 513, 514, 65536, u32::MAX];
    let short = [255, 256, 257, 258, 512, u32::MAX];
    vec![
        figure(
            "a block of 100 behind 511, 512, 513, 514, 65536, largest, type 1",
            at([0, 1, 16, 8], &long, 100),
            "1, 0, refused 23, refused 23, refused 23, refused 23",
        ),
        figure(
            "a block of 0 behind 511, 512, 513, 514, 65536, largest, type 3",
            at([0, 3, 4, 1], &long, 0),
            "0, 0, refused 23, refused 23, refused 23, refused 23",
        ),
        figure(
            "a block of 100 behind 255, 256, 257, 258, 512, largest, type 2",
            at([0, 2, 6, 6], &short, 100),
            "1, 0, refused 23, refused 23, refused 23, refused 23",
        ),
        figure(
            "a block of 0 behind 255, 256, 257, 258, 512, largest, type 2",
            at([0, 2, 3, 1], &short, 0),
            "0, 0, refused 23, refused 23, refused 23, refused 23",
        ),
        figure("places 0 to 1000 refused 23, type 1", refused([9, 1, 8, 8]), 488),
        figure("places 0 to 1000 refused 23, type 2", refused([9, 2, 3, 3]), 744),
        figure("places 0 to 1000 refused 23, type 3", refused([9, 3, 16, 16]), 488),
    ]
}

/// "A refused block writes nothing", and leaves the place: four times 31 choices of wrong numbers, with five lengths.
/// Behind the chips that are written the lent bytes stay.
fn lent_block_figures(rows: &Rows) -> Vec<Figure> {
    let refused = RIGHT_AND_WRONG.into_iter().flat_map(choices).flat_map(|place| {
        [0, 1, 64, 512, 600].map(|length| {
            let mut lent = lent_bytes(length);
            let (answer, behind) = block(rows, place, &mut lent);
            answer.is_err() && behind == place && lent == lent_bytes(length)
        })
    });
    let left = refused.filter(|left| *left).count();
    // Of the lent bytes, how many are chips after a block, and whether those behind them are as they were lent.
    let lent = |user: [u32; 4], written, length| {
        let mut lent = lent_bytes(length);
        let (answer, behind) = block(rows, behind(user, written), &mut lent);
        let chips = lent.iter().take_while(|byte| **byte < 4).count();
        let stay = lent[chips..] == lent_bytes(length)[chips..];
        in_words(answer, |answer| format!("{answer}, {chips}, {stay}, {}", behind.written))
    };
    vec![
        figure("refused blocks that leave the place and the lent bytes", left, 620),
        figure(
            "a block of 700 behind 0, type 1",
            lent([0, 1, 16, 1], 0, 700),
            "512, 512, true, 512",
        ),
        figure(
            "a block of 700 behind 0, type 2",
            lent([0, 2, 6, 1], 0, 700),
            "256, 256, true, 256",
        ),
        figure(
            "a block of 64 behind 449, type 3",
            lent([0, 3, 8, 1], 449, 64),
            "63, 63, true, 512",
        ),
        figure(
            "a block of 64 behind 448, type 3",
            lent([0, 3, 8, 1], 448, 64),
            "64, 64, true, 512",
        ),
        figure(
            "a block of 64 behind 193, type 2",
            lent([0, 2, 3, 1], 193, 64),
            "63, 63, true, 256",
        ),
    ]
}

/// docs/LESSONS.md: "`block N` and, behind a blank, the N chips", "`block 0` alone where there are none".
fn lesson_figures(rows: &Rows) -> Vec<Figure> {
    let wanted = [
        ("block 0 1 16 8 0 8", "block 8 10121210"),
        ("block 0 1 16 8 452 8", "block 8 32121012"),
        ("block 0 1 16 8 508 4294967295", "block 4 1010"),
        ("block 0 2 6 3 255 513", "block 1 0"),
        ("block 0 1 16 8 3 0", "block 0"),
        ("block 0 1 16 8 512 4294967295", "block 0"),
        ("block 0 1 16 8 513 0", "refused 23: place above the midamble length"),
        ("block 128 1 16 8 513 0", "refused 1: cell parameter above 127"),
    ];
    let figures = wanted.map(|(line, wanted)| {
        figure(line, Bench::new(rows).reply(1, line.as_bytes()).trim_end_matches('\n'), wanted)
    });
    figures.into()
}
