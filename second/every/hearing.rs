//! The questions of who is on the air in `second every`, calls only, and lines of `second no-calls`; no answers.

use super::{Put, LARGEST};
use crate::calls::MOST_SAMPLES;
use crate::dice::Dice;
use crate::lesson::LONGEST_LINE;
use crate::midambles::{family, good_count, permitted_users};
use crate::rows::Rows;
use crate::samples::{call, copy, early, late, needed, noisy, together, turned, words};
use std::io;

/// All of them.
pub fn all(put: Put, rows: &Rows) -> io::Result<()> {
    clean_copies(put, rows)?;
    noisy_copies(put, rows)?;
    two_users(put, rows)?;
    nearly_equal_users(put, rows)?;
    silence(put)?;
    cancelled(put)?;
    single_samples(put)?;
    moved_and_turned(put, rows)?;
    numbers_of_samples(put, rows)?;
    at_the_edge(put, rows, &["2047", "2048", "999999"])?;
    odd_words(put, rows, ODD_SAMPLES)?;
    wrong_numbers(put, rows)?;
    for length in [LONGEST_LINE - 1, LONGEST_LINE] {
        long_lines(put, rows, length)?;
    }
    Ok(())
}

/// Lines that are no call: with a sample too many, with a word that is no sample, and longer than a line may be.
pub fn no_calls(put: Put, rows: &Rows) -> io::Result<()> {
    for [burst_type, count] in RIGHT_COUNTS {
        let samples = copy(rows, 127, burst_type, 3, 1);
        ask(put, [127, burst_type, count], &repeated(&samples, MOST_SAMPLES + 1))?;
    }
    at_the_edge(put, rows, &["1000000"])?;
    odd_words(put, rows, NO_SAMPLES)?;
    long_lines(put, rows, LONGEST_LINE + 1)
}

/// A question with these samples.
fn ask(put: Put, numbers: [u32; 3], samples: &[i64]) -> io::Result<()> {
    put(call(numbers, &words(samples)))
}

/// Every type with each of its counts.
fn types_and_counts() -> Vec<[u32; 2]> {
    let counts = |burst_type| family(burst_type).counts.iter().map(move |n| [burst_type, *n]);
    (1..=3).flat_map(counts).collect()
}

/// Every type with each of its counts, and the users that it permits.
fn every_user() -> Vec<[u32; 3]> {
    let users = |[burst_type, count]: [u32; 2]| {
        permitted_users(count).into_iter().map(move |user| [burst_type, count, user])
    };
    types_and_counts().into_iter().flat_map(users).collect()
}

/// Clean copies of every user: cell 0 at level 1, cell 127 at level 2047, and cell 42 at levels between.
fn clean_copies(put: Put, rows: &Rows) -> io::Result<()> {
    for [burst_type, count, user] in every_user() {
        for (cell, level) in [(0, 1), (127, 2047), (42, 127 * user)] {
            let samples = copy(rows, cell, burst_type, user, level);
            ask(put, [cell, burst_type, count], &samples)?;
        }
    }
    Ok(())
}

/// Copies of every user with noise up to 400: for types 1 and 2 so low that many are lost in it, for type 3 so high
/// that samples reach 2047.
fn noisy_copies(put: Put, rows: &Rows) -> io::Result<()> {
    let mut dice = Dice::new(18);
    for [burst_type, count, user] in every_user() {
        let (cell, level) = if burst_type == 3 { (127, 1700) } else { (0, 12 * user) };
        let samples = copy(rows, cell, burst_type, user, level);
        ask(put, [cell, burst_type, count], &noisy(&mut dice, &samples, 400))?;
    }
    Ok(())
}

/// The first and the last user that a count permits, and the first two.
fn pairs_of_users(count: u32) -> [[u32; 2]; 2] {
    let users = permitted_users(count);
    [[users[0], users[users.len() - 1]], [users[0], users[1]]]
}

/// Two users at once: the lower one louder, the higher one, and both alike.
fn two_users(put: Put, rows: &Rows) -> io::Result<()> {
    for [burst_type, count] in types_and_counts() {
        for [one, other] in pairs_of_users(count) {
            for levels in [[701, 700], [700, 701], [1023, 1023]] {
                let one = copy(rows, 5, burst_type, one, levels[0]);
                let other = copy(rows, 5, burst_type, other, levels[1]);
                ask(put, [5, burst_type, count], &together(&one, &other))?;
            }
        }
    }
    Ok(())
}

/// The first chip at which a pair of one row is so many times that of the other.
fn first_chip(one: &[i64], other: &[i64], times: i64) -> Option<usize> {
    let times_of_it = |chip: &usize| {
        one[2 * chip] == times * other[2 * chip] && one[2 * chip + 1] == times * other[2 * chip + 1]
    };
    (0..one.len() / 2).find(times_of_it)
}

/// Adds a row's pair at a chip.
fn add_pair(samples: &mut [i64], row: &[i64], chip: usize) {
    samples[2 * chip] += row[2 * chip];
    samples[2 * chip + 1] += row[2 * chip + 1];
}

/// User 1 and another, both alike, with a little more of one of them at a chip where they are opposite; and, turned by
/// j, of user 1 at a chip that they have in common and of one of them at one where they are opposite, which makes their
/// sums of squares differ by 4. The other is the last user that the count permits who has such chips.
fn nearly_equal_users(put: Put, rows: &Rows) -> io::Result<()> {
    for [burst_type, count] in types_and_counts() {
        let one = copy(rows, 77, burst_type, 1, 1);
        for user in permitted_users(count).into_iter().rev() {
            let other = copy(rows, 77, burst_type, user, 1);
            let chips = [1, -1].map(|times| first_chip(&one, &other, times));
            let [Some(in_common), Some(opposite)] = chips else {
                continue;
            };
            let both: Vec<i64> =
                together(&one, &other).into_iter().map(|sample| 1000 * sample).collect();
            for louder in [&one, &other] {
                let mut samples = both.clone();
                add_pair(&mut samples, louder, opposite);
                ask(put, [77, burst_type, count], &samples)?;
                let mut samples = both.clone();
                add_pair(&mut samples, &turned(&one), in_common);
                add_pair(&mut samples, &turned(louder), opposite);
                ask(put, [77, burst_type, count], &samples)?;
            }
            break;
        }
    }
    Ok(())
}

/// Nothing but zeros, in several spellings.
fn silence(put: Put) -> io::Result<()> {
    for [burst_type, count] in types_and_counts() {
        for zeros in [["0", "0"], ["-0", "-0"], ["-0000", "00"]] {
            let zeros = zeros.repeat(needed(burst_type) / 2);
            let samples: Vec<String> = zeros.into_iter().map(str::to_string).collect();
            put(call([127, burst_type, count], &samples))?;
        }
    }
    Ok(())
}

/// What is received at chip 1, and its negative where the period is over and every user's chips begin anew.
fn cancelled(put: Put) -> io::Result<()> {
    for [burst_type, count] in types_and_counts() {
        let begins_anew = 2 * family(burst_type).period;
        let mut samples = vec![0; needed(burst_type)];
        samples[..2].copy_from_slice(&[2047, -1]);
        samples[begins_anew..begins_anew + 2].copy_from_slice(&[-2047, 1]);
        ask(put, [64, burst_type, count], &samples)?;
    }
    Ok(())
}

/// One sample that is not zero, the first, the second, or one of the last two: all users are heard alike.
fn single_samples(put: Put) -> io::Result<()> {
    for [burst_type, count] in types_and_counts() {
        let last = needed(burst_type) - 1;
        for (place, sample) in [(0, -2047), (1, 1), (last - 1, 2047), (last, -1)] {
            let mut samples = vec![0; needed(burst_type)];
            samples[place] = sample;
            ask(put, [64, burst_type, count], &samples)?;
        }
    }
    Ok(())
}

/// The last user that a count permits, received a chip late and a chip early, and turned by each power of j.
fn moved_and_turned(put: Put, rows: &Rows) -> io::Result<()> {
    for [burst_type, count] in types_and_counts() {
        let [[_, user], _] = pairs_of_users(count);
        let samples = copy(rows, 99, burst_type, user, 300);
        let once = turned(&samples);
        let twice = turned(&once);
        let thrice = turned(&twice);
        for samples in [late(&samples), early(&samples), once, twice, thrice] {
            ask(put, [99, burst_type, count], &samples)?;
        }
    }
    Ok(())
}

/// Type and count, one for each type.
const RIGHT_COUNTS: [[u32; 2]; 3] = [[1, 16], [2, 6], [3, 4]];

/// So many samples, which begin anew where a copy ends.
fn repeated(samples: &[i64], number: usize) -> Vec<i64> {
    samples.iter().copied().cycle().take(number).collect()
}

/// None, one and two samples, as many as are read by one type or the other, each with one less and one more, and as
/// many as a line may have, with one less.
fn numbers_of_samples(put: Put, rows: &Rows) -> io::Result<()> {
    for [burst_type, count] in RIGHT_COUNTS {
        let samples = copy(rows, 127, burst_type, 3, 1);
        for number in [0, 1, 2, 511, 512, 513, 1023, 1024, 1025, MOST_SAMPLES - 1, MOST_SAMPLES] {
            ask(put, [127, burst_type, count], &repeated(&samples, number))?;
        }
    }
    Ok(())
}

/// A copy and one sample more, with another word in place of one of them.
fn with_word(put: Put, rows: &Rows, right: [u32; 2], place: usize, word: &str) -> io::Result<()> {
    let [burst_type, count] = right;
    let samples = copy(rows, 127, burst_type, 3, 1);
    let mut samples = words(&[samples.as_slice(), &[1]].concat());
    samples[place] = word.to_string();
    put(call([127, burst_type, count], &samples))
}

/// Words with and without a minus sign, at the first place, at the last that is read and at the first that is not.
fn at_the_edge(put: Put, rows: &Rows, words: &[&str]) -> io::Result<()> {
    for right in RIGHT_COUNTS {
        let [burst_type, _] = right;
        for place in [0, needed(burst_type) - 1, needed(burst_type)] {
            for word in words {
                with_word(put, rows, right, place, word)?;
                with_word(put, rows, right, place, &format!("-{word}"))?;
            }
        }
    }
    Ok(())
}

/// Words that are odd samples.
const ODD_SAMPLES: &str = "-0 00 000005 -000005 002048";

/// Words that are no samples, the last with a minus sign that is none.
const NO_SAMPLES: &str =
    "0000005 -0000005 1234567 +5 - --1 -+1 5- 1.5 1.0 1e3 0x5 x up inf NaN \u{2212}5";

/// Each of these words at the first place and at the first that is not read.
fn odd_words(put: Put, rows: &Rows, words: &str) -> io::Result<()> {
    for word in words.split(' ') {
        for place in [0, needed(2)] {
            with_word(put, rows, [2, 3], place, word)?;
        }
    }
    Ok(())
}

/// Each of cell, type and count wrong by itself, and all at once, with right samples, with a bad one, and with too few
/// of which one is bad.
fn wrong_numbers(put: Put, rows: &Rows) -> io::Result<()> {
    for [burst_type, count] in RIGHT_COUNTS {
        let right = copy(rows, 127, burst_type, 1, 1);
        let mut bad = right.clone();
        bad[1] = 2048;
        let too_few = &bad[..5];
        let counts = [0, 3, 4, 6, 8, 16, 17, LARGEST].into_iter();
        let wrong_counts = counts.filter(|count| !good_count(burst_type, *count));
        let mut questions = vec![[127, burst_type, count], [128, 4, 5]];
        questions.extend([128, LARGEST].map(|cell| [cell, burst_type, count]));
        questions.extend([0, 4, LARGEST].map(|burst_type| [127, burst_type, count]));
        questions.extend(wrong_counts.map(|count| [127, burst_type, count]));
        for numbers in questions {
            for samples in [right.as_slice(), &bad, too_few] {
                ask(put, numbers, samples)?;
            }
        }
    }
    Ok(())
}

/// Lines of that length: calls with blanks before them, with a comment behind them, with samples of six digits, and
/// with a word of many digits; and a line that is a comment.
fn long_lines(put: Put, rows: &Rows, length: usize) -> io::Result<()> {
    let samples = copy(rows, 127, 1, 16, 2047);
    let heard = call([127, 1, 16], &words(&samples));
    for line in ["chip 0 1 16 8 1", &heard] {
        put(format!("{}{line}", " ".repeat(length - line.len())))?;
        put(format!("{line}{}", "#".repeat(length - line.len())))?;
    }
    put(with_long_words(&samples, length))?;
    for call in ["page 1 2 ", "read 2 4 "] {
        put(format!("{call}{}", "1".repeat(length - call.len())))?;
    }
    put("#".repeat(length))
}

/// A call of that length with as many samples as a line may have, each of six digits; as many zeros as it takes have a
/// minus sign.
fn with_long_words(samples: &[i64], length: usize) -> String {
    let mut samples = samples.to_vec();
    samples.resize(MOST_SAMPLES, 0);
    let word = |sample: &i64| format!("{}{:06}", if *sample < 0 { "-" } else { "" }, sample.abs());
    let mut words: Vec<String> = samples.iter().map(word).collect();
    let missing = length - call([127, 1, 16], &words).len();
    for zero in words.iter_mut().filter(|word| *word == "000000").take(missing) {
        zero.insert(0, '-');
    }
    call([127, 1, 16], &words)
}
