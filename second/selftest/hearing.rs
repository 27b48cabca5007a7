//! Document 02, who is on the air: products worked out by hand, clean copies, two users at once, ties, nobody, and what
//! is refused.

use super::{figure, Figure};
use crate::hearing::{hear, Heard};
use crate::lesson::Bench;
use crate::midambles::{family, permitted_users, shift, whole_midamble};
use crate::refusals::in_words;
use crate::rows::Rows;
use crate::samples::{copy, late, needed, together, turned};

pub fn figures(rows: &Rows) -> Vec<Figure> {
    let mut figures = Vec::new();
    figures.extend(product_figures(rows));
    figures.extend(few_chip_figures(rows));
    figures.extend(copy_figures(rows));
    figures.extend(nobody_figures(rows));
    figures.extend(other_count_figures(rows));
    figures.extend(two_user_figures(rows));
    figures.extend(nearly_equal_figures(rows));
    figures.extend(late_figures(rows));
    figures.extend(order_figures(rows));
    figures.extend(sample_figures(rows));
    figures.extend(lent_row_figures(rows));
    figures.extend(lesson_figures(rows));
    figures.extend(long_line_figures(rows));
    figures
}

/// Every type with each of its counts.
const TYPES_AND_COUNTS: [[u32; 2]; 8] =
    [[1, 4], [1, 8], [1, 16], [2, 3], [2, 6], [3, 4], [3, 8], [3, 16]];

/// Whole numbers, lent.
fn lent(samples: &[i64]) -> Vec<Option<i64>> {
    samples.iter().copied().map(Some).collect()
}

/// Who is heard: `nobody`, `user K RE IM` or `refused N`.
fn heard(rows: &Rows, [cell, burst_type, count]: [u32; 3], samples: &[i64]) -> String {
    in_words(hear(rows, cell, burst_type, count, &lent(samples)), Heard::words)
}

/// Zeros, but for a pair at a chip, which is counted from 1.
fn alone(burst_type: u32, chip: usize, pair: [i64; 2]) -> Vec<i64> {
    let mut samples = vec![0; needed(burst_type)];
    samples[2 * chip - 2..2 * chip].copy_from_slice(&pair);
    samples
}

/// "Multiply each by the conjugate of the user's chip": the conjugates of the powers 0, 1, 2, 3 of j are 1, -j, -1, j,
/// and x + jy times these is x + jy, y - jx, -x - jy, -y + jx. Where one pair alone is not zero, its product is the
/// sum. The sum of squares is then that of the pair, whatever the chip: it is the same for all users, and user 1 is
/// answered.
///
/// In cell 0, document 01's figures have user 8's chips 453 to 460, which are elements 453 to 460, as 3,2,1,2,1,0,1,2.
/// By its shift of 399 they are user 1's chips 54 to 61. For type 2, elements 193 to 196 are the first four again,
/// 3,2,1,0 (`pair_figures` has how they are worked out), and by its shift of 128 user 1's chips 65 to 68.
fn product_figures(rows: &Rows) -> Vec<Figure> {
    let mut figures = Vec::new();
    for [burst_type, count] in TYPES_AND_COUNTS {
        // Of the powers 0, 1, 2, 3.
        let chips = if burst_type == 2 { [68, 67, 66, 65] } else { [59, 58, 55, 54] };
        for (pair, wanted) in [
            ([5, 7], ["5 7", "7 -5", "-5 -7", "-7 5"]),
            ([-2, 3], ["-2 3", "3 2", "2 -3", "-3 -2"]),
            ([2047, 0], ["2047 0", "0 -2047", "-2047 0", "0 2047"]),
            ([0, -1], ["0 -1", "-1 0", "0 1", "1 0"]),
        ] {
            let samples = chips.map(|chip| alone(burst_type, chip, pair));
            let given = samples.map(|samples| heard(rows, [0, burst_type, count], &samples));
            figures.push(figure(
                &format!("type {burst_type}, count {count}, {pair:?} alone at chips {chips:?}"),
                given.join(", "),
                wanted.map(|sums| format!("user 1 {sums}")).join(", "),
            ));
        }
    }
    figures
}

/// User 1's chips 54 to 61 of cell 0, which are 3,2,1,2,1,0,1,2, and nothing else is on the air. At level 9 each of the
/// eight adds 9 to the real sum, or turned by j to the imaginary one. No user can have more, and of those that have as
/// much user 1 is the lowest.
fn few_chip_figures(rows: &Rows) -> Vec<Figure> {
    let mut samples = vec![0; 1024];
    let pairs = [0, -9, -9, 0, 0, 9, -9, 0, 0, 9, 9, 0, 0, 9, -9, 0];
    samples[106..122].copy_from_slice(&pairs);
    let counts = |samples: &[i64]| [4, 8, 16].map(|count| heard(rows, [0, 3, count], samples));
    vec![
        figure(
            "user 1's chips 54 to 61, counts 4, 8, 16",
            counts(&samples).join(", "),
            "user 1 72 0, user 1 72 0, user 1 72 0",
        ),
        figure(
            "the same turned by j",
            counts(&turned(&samples)).join(", "),
            "user 1 0 72, user 1 0 72, user 1 0 72",
        ),
    ]
}

/// Every pair times a + jb: (x + jy)(a + jb) = xa - yb + j(xb + ya).
fn times(samples: &[i64], [a, b]: [i64; 2]) -> Vec<i64> {
    let pairs = samples.chunks_exact(2).map(|pair| [pair[0], pair[1]]);
    pairs.flat_map(|[x, y]| [x * a - y * b, x * b + y * a]).collect()
}

/// Of the users that the count permits in the cells, how many are heard as themselves with the right sums where a clean
/// copy of them, times a + jb, is on the air.
fn heard_as_themselves(
    rows: &Rows,
    cells: &[u32],
    [burst_type, count]: [u32; 2],
    [a, b]: [i64; 2],
) -> usize {
    let chips = if burst_type == 2 { 256 } else { 512 };
    let users = permitted_users(count);
    let questions = cells.iter().flat_map(|cell| users.iter().map(move |user| (*cell, *user)));
    questions
        .filter(|&(cell, user)| {
            let samples = times(&copy(rows, cell, burst_type, user, 1), [a, b]);
            let wanted = Heard::User { user, re: chips * a, im: chips * b };
            hear(rows, cell, burst_type, count, &lent(&samples)) == Ok(wanted)
        })
        .count()
}

/// "A clean copy of a permitted user at level 1 to 2047 is answered as that user". A chip times its conjugate is 1, so
/// that of a copy times a + jb the sums are 512, or 256, times a and b. Another user reaches this sum of squares only
/// where each of its chips is turned alike, "a power of j times it"; so it is of no two users.
fn copy_figures(rows: &Rows) -> Vec<Figure> {
    let all_cells: Vec<u32> = (0..=127).collect();
    let mut figures = vec![
        figure("long users that are a power of j times another", turned_alike(rows, 1), 0),
        figure("short users that are a power of j times another", turned_alike(rows, 2), 0),
    ];
    for right in TYPES_AND_COUNTS {
        let [burst_type, count] = right;
        let name = format!("type {burst_type}, count {count}, users heard as themselves");
        let users = count as usize;
        figures.push(figure(
            &format!("{name}, all cells, at level 1"),
            heard_as_themselves(rows, &all_cells, right, [1, 0]),
            128 * users,
        ));
        for turn in [
            [2, 0],
            [1024, 0],
            [2047, 0],
            [0, 3],
            [-3, 0],
            [0, -3],
            [3, -1],
            [2047, 2047],
            [-2047, 2047],
        ] {
            let [a, b] = turn;
            figures.push(figure(
                &format!("{name}, cells 0, 5, 127, times {a} + {b}j"),
                heard_as_themselves(rows, &[0, 5, 127], right, turn),
                3 * users,
            ));
        }
    }
    figures
}

/// The chips of any user of the type.
fn chips(rows: &Rows, cell: u32, burst_type: u32, user: u32) -> Vec<u8> {
    let family = family(burst_type);
    let count = 2 * family.base_users as u32;
    let mut lent = vec![0; family.midamble_length];
    whole_midamble(rows, cell, burst_type, count, user, &mut lent).expect("a user of the type");
    lent
}

/// At how many chips the power of one row is greater by 0, 1, 2 and 3, modulo 4, than that of another.
fn differences(one: &[u8], other: &[u8]) -> [i64; 4] {
    let mut chips = [0; 4];
    for (one, other) in one.iter().zip(other) {
        chips[usize::from((one + 4 - other) % 4)] += 1;
    }
    chips
}

/// In how many pairs of users of a cell, among all cells, one midamble is a power of j times the other: all their chips
/// differ alike.
fn turned_alike(rows: &Rows, burst_type: u32) -> usize {
    let last = 2 * family(burst_type).base_users as u32;
    let alike = |cell| {
        let users: Vec<Vec<u8>> =
            (1..=last).map(|user| chips(rows, cell, burst_type, user)).collect();
        let pairs = (0..users.len()).flat_map(|one| (0..one).map(move |other| (one, other)));
        pairs
            .filter(|(one, other)| {
                let differences = differences(&users[*one], &users[*other]);
                differences.contains(&(users[0].len() as i64))
            })
            .count()
    };
    (0..=127).map(alike).sum()
}

/// What is heard where these rows of powers are on the air, each at its level, by counting. A chip of power p at level
/// a adds a times j to the power p - q to the sums of a user whose chip there has the power q; so where the powers
/// differ by 0, 1, 2, 3 at n0, n1, n2, n3 chips, the sums are a(n0 - n2) and a(n1 - n3). A row that is a few chips
/// short has none of the first.
fn counted(rows: &Rows, numbers: [u32; 3], on_the_air: &[(Vec<u8>, i64)]) -> String {
    let [cell, burst_type, count] = numbers;
    let (mut best, mut greatest) = ("nobody".to_string(), 0);
    for user in permitted_users(count) {
        let own = chips(rows, cell, burst_type, user);
        let (mut re, mut im) = (0, 0);
        for (powers, level) in on_the_air {
            let [n0, n1, n2, n3] = differences(powers, &own[own.len() - powers.len()..]);
            re += level * (n0 - n2);
            im += level * (n1 - n3);
        }
        if re * re + im * im > greatest {
            best = format!("user {user} {re} {im}");
            greatest = re * re + im * im;
        }
    }
    best
}

/// "Nobody if all sums are zero": where all samples are zero; and where what is received at chip 1 is received as its
/// negative at chip 457, for type 2 at chip 193, since "beyond P the sequence repeats" and these two chips of every
/// user are alike. Where they differ by j, that is the pair whose product is left.
fn nobody_figures(rows: &Rows) -> Vec<Figure> {
    let counts = |samples: &dyn Fn(u32) -> Vec<i64>| {
        let nobody = |[burst_type, count]: &[u32; 2]| {
            heard(rows, [127, *burst_type, *count], &samples(*burst_type)) == "nobody"
        };
        TYPES_AND_COUNTS.iter().filter(|right| nobody(right)).count()
    };
    let two_chips = |burst_type, first, second| {
        let begins_anew = if burst_type == 2 { 193 } else { 457 };
        together(&alone(burst_type, 1, first), &alone(burst_type, begins_anew, second))
    };
    vec![
        figure(
            "counts under which zeros are nobody",
            counts(&|burst_type| vec![0; needed(burst_type)]),
            8,
        ),
        figure(
            "counts under which a pair and its negative a period behind are nobody",
            counts(&|burst_type| two_chips(burst_type, [2047, -5], [-2047, 5])),
            8,
        ),
        figure(
            "counts under which a pair and nearly its negative are nobody",
            counts(&|burst_type| two_chips(burst_type, [2047, -5], [-2047, 6])),
            0,
        ),
    ]
}

/// A copy of a user that the count does not permit is not answered as that user. Under the count 4 an even one is
/// answered as user 1, 3, 5 or 7, though under 16 it is answered as itself.
fn other_count_figures(rows: &Rows) -> Vec<Figure> {
    let mut figures = Vec::new();
    for (burst_type, count, others) in [
        (1, 4, vec![2, 4, 6, 8, 9, 10, 11, 12, 13, 14, 15, 16]),
        (3, 8, (9..=16).collect()),
        (2, 3, (4..=6).collect()),
    ] {
        for user in others {
            let numbers = [0, burst_type, count];
            let samples = copy(rows, 0, burst_type, user, 11);
            figures.push(figure(
                &format!("type {burst_type}, a copy of user {user} under the count {count}"),
                heard(rows, numbers, &samples),
                counted(rows, numbers, &[(chips(rows, 0, burst_type, user), 11)]),
            ));
        }
    }
    let as_odd = |user| {
        let heard = hear(rows, 0, 1, 4, &lent(&copy(rows, 0, 1, user, 11)));
        matches!(heard, Ok(Heard::User { user: 1 | 3 | 5 | 7, .. }))
    };
    let even = [2, 4, 6, 8, 10, 12, 14, 16];
    figures.push(figure(
        "even users that are heard as user 1, 3, 5 or 7 under the count 4",
        even.into_iter().filter(|user| as_odd(*user)).count(),
        8,
    ));
    figures
}

/// The users that the count permits, two at a time, the lower first.
fn pairs_of_users(count: u32) -> Vec<[u32; 2]> {
    let users = permitted_users(count);
    let pairs = users.iter().flat_map(|one| users.iter().map(move |other| [*one, *other]));
    pairs.filter(|[one, other]| one < other).collect()
}

/// Two users at once at one level. Where the powers of the higher one differ from those of the lower by 0, 1, 2, 3 at
/// n0, n1, n2, n3 chips, the sums of the lower are 512, or 256, + n0 - n2 and n1 - n3 times the level, and those of the
/// higher the same but for a minus sign of the second: "the lowest user on a tie". Then one of them at a level greater
/// by 1.
fn two_user_figures(rows: &Rows) -> Vec<Figure> {
    let mut figures = Vec::new();
    for [burst_type, count] in TYPES_AND_COUNTS {
        let numbers = [5, burst_type, count];
        let users = pairs_of_users(count);
        let on_the_air = |[one, other]: [u32; 2], levels: [u32; 2]| {
            let one = copy(rows, 5, burst_type, one, levels[0]);
            together(&one, &copy(rows, 5, burst_type, other, levels[1]))
        };
        let tie = |users: [u32; 2]| {
            let [one, other] = users.map(|user| chips(rows, 5, burst_type, user));
            let [n0, n1, n2, n3] = differences(&other, &one);
            let length = one.len() as i64;
            format!("user {} {} {}", users[0], 1023 * (length + n0 - n2), 1023 * (n1 - n3))
        };
        let ties = users.iter().filter(|users| {
            heard(rows, numbers, &on_the_air(**users, [1023, 1023])) == tie(**users)
        });
        let louder = users.iter().flat_map(|users| [(*users, [41, 40]), (*users, [40, 41])]);
        let louder = louder.filter(|(users, levels)| {
            let rows_of_powers =
                [0, 1].map(|n| (chips(rows, 5, burst_type, users[n]), i64::from(levels[n])));
            let heard = heard(rows, numbers, &on_the_air(*users, *levels));
            heard == counted(rows, numbers, &rows_of_powers)
        });
        let name = format!("type {burst_type}, count {count}, two users");
        let all = users.len();
        figures.push(figure(&format!("{name} at one level, the lower"), ties.count(), all));
        figures.push(figure(&format!("{name}, one of them louder"), louder.count(), 2 * all));
    }
    figures
}

/// Two users at level 1000 whose shifts lie an even number apart: their chips are the same or opposite, so that both
/// have the sums R and 0, R being 1000(512 + n0 - n2). Turned by j, one chip more that they have in common adds j to
/// both, and one that is opposite adds j to the one it is of and -j to the other: so the one has the sums R and 2, the
/// other R and 0, and their sums of squares differ by 4.
///
/// Of the 16 users of a cell eight have even shifts, of the 8 users four, of the others of a count all or none.
fn nearly_equal_figures(rows: &Rows) -> Vec<Figure> {
    let mut figures = Vec::new();
    for (burst_type, count, wanted) in [(1, 4, 6), (1, 8, 12), (1, 16, 56), (2, 3, 3), (2, 6, 15)] {
        let apart = |[one, other]: [u32; 2]| {
            let [one, other] = [one, other].map(|user| shift(family(burst_type), user as usize));
            one.abs_diff(other)
        };
        let heard_louder = |users: [u32; 2], louder: usize| {
            let powers = users.map(|user| chips(rows, 77, burst_type, user));
            let copies = users.map(|user| copy(rows, 77, burst_type, user, 1000));
            let one_more = turned(&copy(rows, 77, burst_type, users[louder], 1));
            let length = powers[0].len();
            let first = |difference: u8| {
                (0..length).find(|n| (powers[0][*n] + 4 - powers[1][*n]) % 4 == difference)
            };
            let (Some(in_common), Some(opposite)) = (first(0), first(2)) else {
                return false;
            };
            let mut samples = together(&copies[0], &copies[1]);
            for chip in [in_common, opposite] {
                samples[2 * chip] += one_more[2 * chip];
                samples[2 * chip + 1] += one_more[2 * chip + 1];
            }
            let [n0, _, n2, _] = differences(&powers[0], &powers[1]);
            let sum = 1000 * (length as i64 + n0 - n2);
            let wanted = format!("user {} {sum} 2", users[louder]);
            heard(rows, [77, burst_type, count], &samples) == wanted
        };
        let pairs = pairs_of_users(count).into_iter().filter(|users| apart(*users) % 2 == 0);
        let pairs: Vec<[u32; 2]> = pairs.collect();
        for (louder, which) in [(0, "lower"), (1, "higher")] {
            let heard = pairs.iter().filter(|users| heard_louder(**users, louder)).count();
            let name = format!("type {burst_type}, count {count}, the {which} of two louder by 4");
            figures.push(figure(&name, heard, wanted));
        }
    }
    figures
}

/// A copy that is received a chip late: at chip 1 nothing, then the chips of the user but for the last.
fn late_figures(rows: &Rows) -> Vec<Figure> {
    let mut figures = Vec::new();
    for (numbers, user) in [([0, 1, 16], 8), ([127, 2, 6], 6), ([42, 3, 4], 1), ([3, 2, 3], 2)] {
        let [cell, burst_type, count] = numbers;
        let mut powers = chips(rows, cell, burst_type, user);
        powers.pop();
        figures.push(figure(
            &format!("cell {cell}, type {burst_type}, user {user} of {count} a chip late"),
            heard(rows, numbers, &late(&copy(rows, cell, burst_type, user, 900))),
            counted(rows, numbers, &[(powers, 900)]),
        ));
    }
    figures
}

/// Cell, type and count, all within the rules, and each of them wrong.
const RIGHT_AND_WRONG: [[[u32; 3]; 2]; 4] = [
    [[0, 1, 16], [128, 4, 5]],
    [[127, 2, 6], [u32::MAX, 0, 4]],
    [[5, 3, 4], [128, u32::MAX, 6]],
    [[64, 2, 3], [256, 5, 16]],
];

/// `ok`, or the number of the refusal.
fn ok_or_number(rows: &Rows, [cell, burst_type, count]: [u32; 3], lent: &[Option<i64>]) -> String {
    match hear(rows, cell, burst_type, count, lent) {
        Ok(_) => "ok".to_string(),
        Err(number) => number.to_string(),
    }
}

/// "Refusals: 1 to 3 and 11, then 24": all 32 choices of what is wrong, of which "the lowest is given". Nothing at
/// first, then a sample alone, the length, length and sample, the count, and so on up to all five.
fn order_figures(rows: &Rows) -> Vec<Figure> {
    let mut figures = Vec::new();
    for [right, wrong] in RIGHT_AND_WRONG {
        let [_, burst_type, count] = right;
        for bad in [None, Some(2048), Some(-2048)] {
            let choice = |chosen: usize| {
                let is_wrong = |n: usize| chosen & (16 >> n) != 0;
                let numbers = [0, 1, 2].map(|n| if is_wrong(n) { wrong[n] } else { right[n] });
                let length = needed(burst_type) - usize::from(is_wrong(3));
                let mut lent = vec![Some(1); length];
                if is_wrong(4) {
                    lent[7] = bad;
                }
                ok_or_number(rows, numbers, &lent)
            };
            figures.push(figure(
                &format!("type {burst_type}, count {count}, each choice of what is wrong, {bad:?}"),
                (0..32).map(choice).collect::<Vec<String>>().join(" "),
                "ok 24 11 11 3 3 3 3 2 2 2 2 2 2 2 2 1 1 1 1 1 1 1 1 1 1 1 1 1 1 1 1",
            ));
        }
    }
    figures
}

/// "Samples are whole numbers from -2047 to 2047", "24 for a sample outside the rule"; what is not read may be
/// anything.
fn sample_figures(rows: &Rows) -> Vec<Figure> {
    let mut figures = Vec::new();
    let samples = [
        Some(-2048),
        Some(-2047),
        Some(-1),
        Some(0),
        Some(2047),
        Some(2048),
        Some(i64::MIN),
        Some(i64::MAX),
        None,
    ];
    for (numbers, needed) in [([0, 1, 16], 1024), ([0, 2, 3], 512), ([0, 3, 4], 1024)] {
        let [_, burst_type, _] = numbers;
        let with = |sample, place: usize| {
            let mut lent = vec![Some(0); needed + 1];
            lent[place] = sample;
            ok_or_number(rows, numbers, &lent)
        };
        let at = |place| samples.map(|sample| with(sample, place)).join(" ");
        let name = |place| format!("type {burst_type}, -2048, -2047 and on as sample {place}");
        for place in [0, 1, needed - 2, needed - 1] {
            figures.push(figure(&name(place), at(place), "24 ok ok ok ok 24 24 24 24"));
        }
        figures.push(figure(&name(needed), at(needed), "ok ok ok ok ok ok ok ok ok"));
        let refused = (0..=needed).filter(|place| with(None, *place) == "24").count();
        let name = format!("type {burst_type}, places at which one is refused 24");
        figures.push(figure(&name, refused, needed));
    }
    // Each sum is at most 512 times 2047 and each sum of squares at most twice its square.
    let loudest = |sample| heard(rows, [0, 1, 16], &vec![sample; 1024]).starts_with("user ");
    let edges = [-2048, -2047, 2047, 2048].map(loudest);
    figures.push(figure(
        "all samples -2048, -2047, 2047, 2048 are heard",
        edges.map(|heard| heard.to_string()).join(", "),
        "false, true, true, false",
    ));
    figures
}

/// "Lent memory, read or written, shorter than the call needs"; "memory longer than needed: only the named first places
/// are read".
fn lent_row_figures(rows: &Rows) -> Vec<Figure> {
    let mut figures = Vec::new();
    for (numbers, user, needed, wanted) in [
        ([0, 1, 16], 16, 1024, "user 16 10240 0"),
        ([127, 2, 6], 4, 512, "user 4 5120 0"),
        ([9, 3, 4], 7, 1024, "user 7 10240 0"),
    ] {
        let [cell, burst_type, count] = numbers;
        let clean = lent(&copy(rows, cell, burst_type, user, 20));
        let of_length = |length| {
            let behind = [None, Some(2048), Some(2047), Some(-1)].into_iter().cycle();
            let lent: Vec<Option<i64>> = clean.iter().copied().chain(behind).take(length).collect();
            in_words(hear(rows, cell, burst_type, count, &lent), Heard::words)
        };
        let too_short = (0..=1100).filter(|length| of_length(*length) == "refused 11").count();
        let right = (0..=1100).filter(|length| of_length(*length) == wanted).count();
        let name = format!("type {burst_type}, lent rows of 0 to 1100 samples");
        figures.push(figure(&format!("{name} refused 11"), too_short, needed));
        figures.push(figure(&format!("{name} heard as {wanted}"), right, 1101 - needed));
    }
    figures
}

/// The reply to a line; of one that is no call only how it begins.
fn reply(rows: &Rows, line: &str) -> String {
    let reply = Bench::new(rows).reply(1, line.as_bytes());
    match reply.starts_with("line 1: ") {
        true => "line 1: ".to_string(),
        false => reply.trim_end_matches('\n').to_string(),
    }
}

/// docs/LESSONS.md: `nobody`, or `user K RE IM`; a sample is "an optional minus sign and 1 to 6 digits"; "at most 1,100
/// may stand there, none at all too". User 1's chips 58 and 59 of cell 0 have the powers 1 and 0, its short chip 65 has
/// 3.
fn lesson_figures(rows: &Rows) -> Vec<Figure> {
    // So many zeros, with words in place of some of them.
    let line = |numbers: &str, zeros: usize, put_in: &[(usize, &str)]| {
        let mut words = vec!["0"; zeros];
        put_in.iter().for_each(|(place, word)| words[*place] = word);
        format!("hear {numbers} {}", words.join(" "))
    };
    let few = "refused 11: lent memory, read or written, shorter than the call needs (a list: \
               fewer than 40 records, however few it writes)";
    let bad = "refused 24: sample not a whole number from -2047 to 2047";
    let none = "line 1: ";
    let mut figures = Vec::new();
    for (numbers, zeros, put_in, wanted) in [
        ("0 1 16", 1024, vec![], "nobody"),
        ("0 2 3", 512, vec![], "nobody"),
        ("0 1 16", 1024, vec![(0, "-0"), (1023, "-000000")], "nobody"),
        ("0 1 16", 1024, vec![(114, "5"), (115, "7")], "user 1 7 -5"),
        ("0 1 16", 1024, vec![(116, "-5"), (117, "000007")], "user 1 -5 7"),
        ("0 3 4", 1024, vec![(114, "-002047")], "user 1 0 2047"),
        ("0 2 6", 512, vec![(128, "5"), (129, "7")], "user 1 -7 5"),
        ("0 2 6", 1024, vec![(128, "5"), (129, "7"), (512, "999999")], "user 1 -7 5"),
        ("0 1 16", 0, vec![], few),
        ("0 1 16", 1023, vec![], few),
        ("0 2 3", 511, vec![], few),
        ("0 1 16", 1023, vec![(5, "2048")], few),
        ("0 1 16", 1025, vec![], "nobody"),
        ("0 1 16", 1100, vec![], "nobody"),
        ("0 1 16", 1101, vec![], none),
        ("0 2 3", 1100, vec![], "nobody"),
        ("0 2 3", 1101, vec![], none),
        ("128 1 16", 1101, vec![], none),
        ("0 1 16", 1024, vec![(0, "2048")], bad),
        ("0 1 16", 1024, vec![(1023, "-2048")], bad),
        ("0 1 16", 1024, vec![(1023, "999999")], bad),
        ("0 1 16", 1024, vec![(1023, "-999999")], bad),
        ("0 1 16", 1024, vec![(1023, "1000000")], none),
        ("0 1 16", 1024, vec![(1023, "-1000000")], none),
        ("0 1 16", 1025, vec![(1024, "-999999")], "nobody"),
        ("0 1 16", 1025, vec![(1024, "1000000")], none),
        ("0 1 16", 1024, vec![(9, "0000005")], none),
        ("0 1 16", 1024, vec![(9, "+5")], none),
        ("0 1 16", 1024, vec![(9, "-")], none),
        ("0 1 16", 1024, vec![(9, "--1")], none),
        ("0 1 16", 1024, vec![(9, "1.5")], none),
        ("0 1 16", 1024, vec![(9, "1-")], none),
        ("0 1 16", 1024, vec![(9, "up")], none),
        ("0 1 16", 1, vec![(0, "x")], none),
        ("128 4 5", 0, vec![], "refused 1: cell parameter above 127"),
        ("127 4 5", 1, vec![(0, "2048")], "refused 2: burst type not 1, 2 or 3"),
        ("4294967296 1 16", 1024, vec![], none),
        ("0 -1 16", 1024, vec![], none),
        ("0 1 x", 1024, vec![], none),
        ("0 1", 0, vec![], none),
        ("", 0, vec![], none),
    ] {
        let name = format!("hear {numbers}, {zeros} samples, {put_in:?}");
        figures.push(figure(&name, reply(rows, &line(numbers, zeros, &put_in)), wanted));
    }
    let plain = line("0 1 16", 1024, &[(114, "5"), (115, "7")]);
    for (name, line) in [
        ("with tabs", plain.replace(' ', "\t")),
        ("with CRs", plain.replace(' ', " \r")),
        ("with a comment behind", format!("{plain}# 1.5")),
        ("with zeros in front of its numbers", plain.replacen("0 1 16", "000 0000001 00000016", 1)),
    ] {
        figures.push(figure(&format!("a hear {name}"), reply(rows, &line), "user 1 7 -5"));
    }
    figures.push(figure("Hear", reply(rows, &plain.replacen('h', "H", 1)), none));
    figures
}

/// "A line longer than 8,191 bytes without its LF" is no call.
fn long_line_figures(rows: &Rows) -> Vec<Figure> {
    let zeros = ["-0"; 1024].join(" ");
    let mut figures = Vec::new();
    for (call, wanted) in [
        ("chip 0 1 16 8 1".to_string(), "chip 1"),
        (format!("hear 0 1 16 {zeros}"), "nobody"),
        (String::new(), ""),
    ] {
        for (length, wanted) in [(8190, wanted), (8191, wanted), (8192, "line 1: ")] {
            let rest = length - call.len();
            let name = format!("{length} bytes, the last {rest}");
            let behind = reply(rows, &format!("{call}{}", "#".repeat(rest)));
            figures.push(figure(&format!("{name} a comment"), behind, wanted));
            let blank = reply(rows, &format!("{call}{}", " ".repeat(rest)));
            figures.push(figure(&format!("{name} blank"), blank, wanted));
        }
    }
    figures
}
